//! The doses of an RP, day by day.

use core::error::Error;
use core::fmt;

use crate::ffi;
use crate::{Date, Reason, SheetRefusal};

/// The doses of an RP for each day from a start date on, as a machine packs them. The first day is the start date itself.
///
/// A day has 0 doses, or the times a day of the RP's usage code, 1 to 8. Which days have any, the RP's supplementary codes say:
///
/// - none: every day;
/// - [`Supplement::Interval`]: days on and days off by turns, from the start date on, which is the first day on;
/// - [`Supplement::Week`]: those weekdays;
/// - [`Supplement::Dates`]: those days of every month, or those of the named months, which count only in the twelve months that begin with the month
///   of the issue date.
///
/// Days past 2099 go on as the calendar goes. Not looked at are what a supplement says in words alone, the times that the directions have beside their
/// code, the RP's quantity, and what is said of a single drug.
///
/// ```
/// use yawsimbel::{Calendar, CalendarRefusal, Date};
///
/// let sheet = b"JAHIS5\r\n1,\r\n5,\r\n11,\r\n12,\r\n13,\r\n22,\r\n23,\r\n51,20180702\r\n\
///     101,1,1,,14\r\n111,1,2,1013044400000000,AFTER MEALS,3\r\n181,1,1,8,EVERY OTHER DAY,I1100000,\r\n\
///     201,1,1,1,1,,TABLET A,3,1,TAB\r\n\x1a";
/// let start = Date::try_from((2018, 7, 2))?;
/// let calendar = Calendar::make(sheet, 1, start, 7)?;
/// assert_eq!(calendar.as_slice(), [3, 0, 3, 0, 3, 0, 3]);
///
/// // The same into a buffer of the caller's.
/// let mut room = [0; Calendar::LONGEST];
/// assert_eq!(Calendar::fill(sheet, 1, start, 4, &mut room)?, [3, 0, 3, 0]);
/// assert_eq!(Calendar::fill(sheet, 2, start, 4, &mut room), Err(CalendarRefusal::NoRp));
/// # Ok::<(), Box<dyn std::error::Error>>(())
/// ```
///
/// [`Supplement::Interval`]: crate::Supplement::Interval
/// [`Supplement::Week`]: crate::Supplement::Week
/// [`Supplement::Dates`]: crate::Supplement::Dates
#[derive(Clone, Copy, PartialEq, Eq, Hash)]
pub struct Calendar {
    /// 0 after the last day.
    doses: [u8; Calendar::LONGEST],
    days: usize,
}

/// A refusal of a calendar. The first that holds, in this order, is told.
///
/// ```
/// use yawsimbel::{CalendarRefusal, Reason};
///
/// assert_eq!(CalendarRefusal::NoRp.to_string(), "the sheet has no RP of this number (53)");
/// assert_eq!(CalendarRefusal::Doses.reason(), Reason::Doses);
/// ```
#[derive(Clone, Copy, Debug, PartialEq, Eq, Hash)]
#[non_exhaustive]
pub enum CalendarRefusal {
    /// The sheet itself is refused, as by [`check`](crate::check).
    Sheet(SheetRefusal),
    /// The sheet has no such RP.
    NoRp,
    /// The days are not 1 to [`Calendar::LONGEST`], or the start date is before the issue date.
    Calendar,
    /// The RP fixes no doses for its days, however many: it has a [`Supplement::Cycle`](crate::Supplement::Cycle), no usage code, a usage on an event,
    /// or a count that is not [`About::Exactly`](crate::About::Exactly).
    Doses,
    /// The buffer is shorter than the days.
    Room,
}

impl CalendarRefusal {
    fn of(number: u16, n: &ffi::Refusal) -> CalendarRefusal {
        match Reason::of(number) {
            Reason::NoRp => CalendarRefusal::NoRp,
            Reason::Calendar => CalendarRefusal::Calendar,
            Reason::Doses => CalendarRefusal::Doses,
            Reason::Room => CalendarRefusal::Room,
            _ => CalendarRefusal::Sheet(SheetRefusal::of(number, n)),
        }
    }

    /// Why.
    pub const fn reason(&self) -> Reason {
        match self {
            CalendarRefusal::Sheet(refusal) => refusal.reason,
            CalendarRefusal::NoRp => Reason::NoRp,
            CalendarRefusal::Calendar => Reason::Calendar,
            CalendarRefusal::Doses => Reason::Doses,
            CalendarRefusal::Room => Reason::Room,
        }
    }
}

/// In one line; that of a sheet with its place.
impl fmt::Display for CalendarRefusal {
    fn fmt(&self, f: &mut fmt::Formatter<'_>) -> fmt::Result {
        match self {
            CalendarRefusal::Sheet(refusal) => refusal.fmt(f),
            other => other.reason().fmt(f),
        }
    }
}

impl Error for CalendarRefusal {}

impl Calendar {
    /// Days of the longest.
    pub const LONGEST: usize = ffi::DAYS_MOST;

    /// Makes the calendar of an RP of a file for so many days, 1 to [`Calendar::LONGEST`]. Any [`CalendarRefusal`] but that for room.
    pub fn make(file: &[u8], rp: u16, start: Date, days: usize) -> Result<Calendar, CalendarRefusal> {
        let mut doses = [0; Calendar::LONGEST];
        Calendar::fill(file, rp, start, days, &mut doses)?;
        Ok(Calendar { doses, days })
    }

    /// Writes the same into the front of `doses` and returns it, a byte a day. Any [`CalendarRefusal`]; a refusal leaves `doses` as it was.
    pub fn fill<'d>(
        file: &[u8],
        rp: u16,
        start: Date,
        days: usize,
        doses: &'d mut [u8],
    ) -> Result<&'d [u8], CalendarRefusal> {
        let start = [start.year().into(), start.month().into(), start.day().into()];
        // A number of days that 32 bits do not hold is refused like the largest that they do.
        let asked = u32::try_from(days).unwrap_or(u32::MAX);
        let mut refusal = [0; ffi::REFUSAL];
        match ffi::calendar(file, rp.into(), start, asked, doses, &mut refusal) {
            0 => Ok(&doses[..days]),
            number => Err(CalendarRefusal::of(number, &refusal)),
        }
    }

    /// The doses, a number for each day.
    pub fn as_slice(&self) -> &[u8] {
        &self.doses[..self.days]
    }
}

impl AsRef<[u8]> for Calendar {
    fn as_ref(&self) -> &[u8] {
        self.as_slice()
    }
}

impl<'a> IntoIterator for &'a Calendar {
    type Item = &'a u8;
    type IntoIter = core::slice::Iter<'a, u8>;

    fn into_iter(self) -> Self::IntoIter {
        self.as_slice().iter()
    }
}

impl fmt::Debug for Calendar {
    fn fmt(&self, f: &mut fmt::Formatter<'_>) -> fmt::Result {
        f.debug_list().entries(self).finish()
    }
}

// Numbers that only a caller of the C function can hand in.
#[cfg(test)]
mod numbers {
    use crate::ffi;

    const FILE: &[u8] = b"JAHIS5\r\n1,\r\n5,\r\n11,\r\n12,\r\n13,\r\n22,\r\n23,\r\n51,18680101\r\n101,1,1,,14\r\n\
        111,1,2,1013044400000000,A,3\r\n201,1,1,1,1,,A,3,1,T\r\n\x1a";

    /// What a call says; where it refuses, that it leaves the doses and names no place.
    fn asked(rp: u32, start: [u32; 3], days: u32) -> u16 {
        let (mut doses, mut refusal) = ([b'!'; 400], [7; ffi::REFUSAL]);
        let number = ffi::calendar(FILE, rp, start, days, &mut doses, &mut refusal);
        assert!(number == 0 || doses == [b'!'; 400]);
        assert_eq!(refusal, [0; ffi::REFUSAL]);
        number
    }

    const START: [u32; 3] = [2018, 7, 2];

    #[test]
    fn any() {
        assert_eq!(asked(1, START, 7), 0);
        for rp in [0, 2, 257, 1000, 65_537, u32::MAX] {
            assert_eq!(asked(rp, START, 7), 53, "{rp}");
        }
        for days in [0, 367, 256 + 367, 65_536 + 7, u32::MAX] {
            assert_eq!(asked(1, START, days), 51, "{days}");
        }
        for start in
            [[1867, 12, 31], [2019, 2, 29], [1900, 2, 29], [2100, 1, 1], [2018, 0, 1], [2018, 13, 1], [0, 0, 0]]
        {
            assert_eq!(asked(1, start, 7), 51, "{start:?}");
        }
        for (place, wide) in (0..3).flat_map(|place| [1 << 8, 1 << 16, 1 << 31].map(|wide| (place, wide))) {
            let mut start = START;
            start[place] += wide;
            assert_eq!(asked(1, start, 7), 51, "{start:?}");
        }
        for start in [[1868, 1, 1], [1904, 2, 29], [2000, 2, 29], [2099, 12, 31]] {
            assert_eq!(asked(1, start, 366), 0, "{start:?}");
        }
    }
}
