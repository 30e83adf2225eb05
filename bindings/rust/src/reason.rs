//! Why something is refused.

use core::error::Error;
use core::fmt;

/// The reasons, each with the number that it has in the C interface and in the rules.
///
/// ```
/// use yawsimbel::Reason;
///
/// assert_eq!(Reason::Count.number(), 7);
/// assert_eq!(Reason::of(7), Reason::Count);
/// assert_eq!(Reason::Count.to_string(), "the times a day differ from the occasions that the code names (7)");
/// ```
#[derive(Clone, Copy, Debug, PartialEq, Eq, PartialOrd, Ord, Hash)]
#[non_exhaustive]
#[repr(u16)]
pub enum Reason {
    /// A code is not 16 or 8 long, or a run is not whole codes.
    Length = 1,
    /// The 1st character is unknown.
    First = 2,
    /// The 2nd character is unknown.
    Detail = 3,
    /// The 3rd character is unknown.
    Timing = 4,
    /// A character is outside its set.
    Character = 5,
    /// An unused character is not 0.
    Unused = 6,
    /// The count differs from the occasions.
    Count = 7,
    /// 15 h without a full day; no such table row, pair or day; an empty week.
    Rule = 8,
    /// An hour or day does not rise.
    Rising = 9,
    /// The issue month is not 1 to 12.
    IssueMonth = 10,
    /// The set of days cannot be written.
    DaySet = 11,
    /// The codes up to this one begin no allowed run.
    Run = 12,
    /// The file is too long.
    TooLong = 20,
    /// Not lines ended by CR LF, then one 1Ah.
    Frame = 21,
    /// The first line is not JAHIS5.
    Version = 22,
    /// The record number is unknown.
    Unknown = 23,
    /// The record is out of order.
    Order = 24,
    /// The number of fields.
    Fields = 25,
    /// A text is badly formed, has a space at an end, or is too long.
    Text = 26,
    /// A number, date, amount, site or drug code; a date outside its era too.
    Value = 27,
    /// A required field is empty, or a forbidden one filled.
    Present = 28,
    /// A code is refused.
    Code = 29,
    /// An RP number or serial is not as ordered.
    Counter = 30,
    /// A supplement is not allowed after those before it in its RP.
    Schedule = 31,
    /// A needed record is missing.
    Missing = 32,
    /// There is no room.
    Room = 33,
    /// The reader would refuse the record here.
    Record = 34,
    /// No code reads as this.
    NoCode = 35,
    /// The RP fixes no doses for its days: a code with a count in a period, no usage code, a usage as needed, a count that is about so many or a
    /// range.
    Doses = 50,
    /// The days are not 1 to 366, or the start date is none or before the issue date.
    Calendar = 51,
    /// The sheet has no such RP.
    NoRp = 53,
    /// A number that this crate does not know, or a value in an answer: the library is newer.
    Other = 0,
}

impl Reason {
    /// The reason of a number.
    pub fn of(number: u16) -> Reason {
        use Reason::*;
        const ALL: [Reason; 31] = [
            Length, First, Detail, Timing, Character, Unused, Count, Rule, Rising, IssueMonth, DaySet, Run, TooLong,
            Frame, Version, Unknown, Order, Fields, Text, Value, Present, Code, Counter, Schedule, Missing, Room,
            Record, NoCode, Doses, Calendar, NoRp,
        ];
        ALL.iter().copied().find(|reason| reason.number() == number).unwrap_or(Other)
    }

    /// Its number; 0 for [`Reason::Other`].
    pub const fn number(self) -> u16 {
        self as u16
    }

    /// It in words, without its number.
    pub const fn words(self) -> &'static str {
        match self {
            Reason::Length => "the code is not 16 or 8 characters long, or the run is not whole codes",
            Reason::First => "the 1st character of the code is unknown",
            Reason::Detail => "the 2nd character of the usage code, how it is used, is unknown",
            Reason::Timing => "the 3rd character of the usage code, its timing, is unknown",
            Reason::Character => "the code has a character that may not stand there",
            Reason::Unused => "an unused character of the code is not 0",
            Reason::Count => "the times a day differ from the occasions that the code names",
            Reason::Rule => "no such event and condition, count or day, an empty week, or 15 h where it may not stand",
            Reason::Rising => "the hours or days do not rise",
            Reason::IssueMonth => "the issue month is not 1 to 12",
            Reason::DaySet => "no date codes can name this set of days",
            Reason::Run => "the date codes do not follow each other, or there are none",
            Reason::TooLong => "the file is longer than 16384 bytes",
            Reason::Frame => "the file is cut short, or has a byte that no sheet has",
            Reason::Version => "the first line is not JAHIS5",
            Reason::Unknown => "there is no such record number",
            Reason::Order => "the record is out of order",
            Reason::Fields => "the record has too few or too many fields",
            Reason::Text => "the text has bad characters or a space at an end, or is too long",
            Reason::Value => {
                "no such number, date, amount, site or drug code may stand here, or the date is outside its era"
            }
            Reason::Present => "a required field is empty, or one that must be empty is filled",
            Reason::Code => "the usage or supplementary code is refused",
            Reason::Counter => "the RP number or the serial is not one that may follow here",
            Reason::Schedule => "the supplement does not go with those before it in its RP",
            Reason::Missing => "a needed record is missing",
            Reason::Room => "the buffer has no room",
            Reason::Record => "the record would be refused when it is read",
            Reason::NoCode => "no code reads as this",
            Reason::Doses => {
                "the RP fixes no doses for its days: \
                 no usage code, as needed, about so often or a range, or so often in a period"
            }
            Reason::Calendar => {
                "the days are not 1 to 366, or the start is no day from 1868 to 2099 or is before the issue date"
            }
            Reason::NoRp => "the sheet has no RP of this number",
            Reason::Other => "the library says what this crate does not know",
        }
    }
}

/// In words, with its number.
impl fmt::Display for Reason {
    fn fmt(&self, f: &mut fmt::Formatter<'_>) -> fmt::Result {
        write!(f, "{} ({})", self.words(), self.number())
    }
}

impl Error for Reason {}

/// As [`Reason::of`].
impl From<u16> for Reason {
    fn from(number: u16) -> Reason {
        Reason::of(number)
    }
}

impl From<Reason> for u16 {
    fn from(reason: Reason) -> u16 {
        reason.number()
    }
}

/// A refusal of a code.
///
/// ```
/// let refusal = "1012044400000000".parse::<yawsimbel::Usage>().unwrap_err();
/// assert_eq!(refusal.to_string(), "the times a day differ from the occasions that the code names (7) at character 4");
/// ```
#[derive(Clone, Copy, Debug, PartialEq, Eq, Hash)]
#[non_exhaustive]
pub struct CodeRefusal {
    /// Why.
    pub reason: Reason,
    /// The character at fault, counted from 1; 0 for none.
    pub place: u64,
}

impl fmt::Display for CodeRefusal {
    fn fmt(&self, f: &mut fmt::Formatter<'_>) -> fmt::Result {
        match self.place {
            0 => self.reason.fmt(f),
            place => write!(f, "{} at character {}", self.reason, place),
        }
    }
}

impl Error for CodeRefusal {}
