//! Dates as a sheet has them.

use core::fmt;
use core::str::FromStr;

use crate::ffi;
use crate::{Reason, Record, Sheet};

/// A day of the calendar, with the style that it is written in. There is no way to make one that the library does not take.
///
/// ```
/// use yawsimbel::{Date, Era, Style};
///
/// let date: Date = "20180702".parse()?;
/// assert_eq!((date.year(), date.month(), date.day(), date.era()), (2018, 7, 2, None));
///
/// let made = Date::make(2019, 5, 1, Style::Era)?;
/// assert_eq!(made.era(), Some(Era::Reiwa));
/// assert_eq!(made.to_string(), "5010501");
/// # Ok::<(), yawsimbel::Reason>(())
/// ```
#[derive(Clone, Copy, PartialEq, Eq, Hash)]
pub struct Date {
    era: Option<Era>,
    year: u16,
    month: u8,
    day: u8,
}

/// An era. It ends the day before the next one begins.
#[derive(Clone, Copy, Debug, PartialEq, Eq, PartialOrd, Ord, Hash)]
#[non_exhaustive]
#[repr(u8)]
pub enum Era {
    /// From 1868-01-01 (明治).
    Meiji = 1,
    /// From 1912-07-30 (大正).
    Taisho = 2,
    /// From 1926-12-25 (昭和).
    Showa = 3,
    /// From 1989-01-08 (平成).
    Heisei = 4,
    /// From 2019-05-01 (令和), to the end of 2099.
    Reiwa = 5,
}

/// The style that a date is to be made in.
#[derive(Clone, Copy, Debug, Default, PartialEq, Eq, Hash)]
#[repr(u8)]
pub enum Style {
    /// Year, month, day.
    Western = 1,
    /// The era in force on that day. It is what a date has for which no style is named.
    #[default]
    Era = 2,
}

/// The characters of a date: eight in western style, seven in era style.
#[derive(Clone, Copy, PartialEq, Eq, Hash)]
pub struct DateText {
    digits: [u8; 8],
    length: usize,
}

/// The smallest lines that may stand before a date of issue.
const BEFORE: &[u8] = b"JAHIS5\r\n1,\r\n5,\r\n11,\r\n12,\r\n13,\r\n22,\r\n23,\r\n51,";
const AFTER: &[u8] = b"\r\n\x1a";

impl Date {
    /// Makes a date of a western year, 1868 to 2099. [`Reason::Value`] where there is no such day or year.
    pub fn make(year: u16, month: u8, day: u8, style: Style) -> Result<Date, Reason> {
        let mut numbers = [0; 4];
        match ffi::date_make(year, month, day, style as u8, &mut numbers, &mut [0; 8]) {
            0 => Date::of(&numbers).ok_or(Reason::Other),
            number => Err(Reason::of(number)),
        }
    }

    /// Makes a date of a year of an era, counted from 1. [`Reason::Value`] where there is no such day, or it is outside the era.
    ///
    /// ```
    /// use yawsimbel::{Date, Era, Reason};
    ///
    /// let date = Date::of_era(Era::Showa, 64, 1, 7)?;
    /// assert_eq!((date.year(), date.to_string().as_str()), (1989, "3640107"));
    /// assert_eq!(Date::of_era(Era::Showa, 64, 1, 8), Err(Reason::Value));
    /// # Ok::<(), yawsimbel::Reason>(())
    /// ```
    pub fn of_era(era: Era, year: u8, month: u8, day: u8) -> Result<Date, Reason> {
        if [year, month, day].iter().any(|number| *number > 99) {
            return Err(Reason::Value);
        }
        let text = DateText::of_era(era, year.into(), month, day);
        Date::try_from(text.as_str().as_bytes())
    }

    /// The era of era style; `None` for western style.
    pub const fn era(&self) -> Option<Era> {
        self.era
    }

    /// The western year, in either style.
    pub const fn year(&self) -> u16 {
        self.year
    }

    /// 1 to 12.
    pub const fn month(&self) -> u8 {
        self.month
    }

    /// 1 to 31.
    pub const fn day(&self) -> u8 {
        self.day
    }

    /// Its characters, as a sheet has them.
    pub fn text(&self) -> DateText {
        match self.era {
            Some(era) => DateText::of_era(era, (self.year + 1).saturating_sub(era.first_year()), self.month, self.day),
            None => DateText::western(self.year, self.month, self.day),
        }
    }

    /// Of the numbers that the library gives; `None` for an era that this crate does not know.
    pub(crate) fn of(n: &ffi::Date) -> Option<Date> {
        let era = match n[0] {
            0 => None,
            1 => Some(Era::Meiji),
            2 => Some(Era::Taisho),
            3 => Some(Era::Showa),
            4 => Some(Era::Heisei),
            5 => Some(Era::Reiwa),
            _ => return None,
        };
        Some(Date { era, year: n[1].try_into().ok()?, month: n[2].try_into().ok()?, day: n[3].try_into().ok()? })
    }

    pub(crate) fn numbers(&self) -> ffi::Date {
        let era = self.era.map_or(0, |era| era as u64);
        [era, u64::from(self.year), u64::from(self.month), u64::from(self.day)]
    }
}

impl Era {
    /// The western year in which it begins, its year 01.
    pub const fn first_year(self) -> u16 {
        match self {
            Era::Meiji => 1868,
            Era::Taisho => 1912,
            Era::Showa => 1926,
            Era::Heisei => 1989,
            Era::Reiwa => 2019,
        }
    }
}

/// Reads the characters of a date, in either style: what the library says of them in a record 51.
impl TryFrom<&[u8]> for Date {
    type Error = Reason;

    fn try_from(text: &[u8]) -> Result<Date, Reason> {
        // Anything else would be another field or another line, and no date.
        if text.len() > 8 || !text.iter().all(u8::is_ascii_digit) {
            return Err(Reason::Value);
        }
        let mut file = [0; BEFORE.len() + 8 + AFTER.len()];
        let mut length = 0;
        for part in [BEFORE, text, AFTER] {
            file[length..length + part.len()].copy_from_slice(part);
            length += part.len();
        }
        let issue = |record| match record {
            Ok(Record::Issue(date)) => Some(Ok(date)),
            Ok(_) => None,
            Err(refusal) => Some(Err(refusal)),
        };
        match Sheet::open(&file[..length]).find_map(issue) {
            Some(date) => date.map_err(|refusal: crate::SheetRefusal| refusal.reason),
            None => Err(Reason::Other),
        }
    }
}

/// As the characters of a sheet, in either style. [`Reason::Value`] where they are no date, [`Reason::Present`] where there are none.
impl FromStr for Date {
    type Err = Reason;

    fn from_str(text: &str) -> Result<Date, Reason> {
        Date::try_from(text.as_bytes())
    }
}

/// Western year, month and day, in western style.
impl TryFrom<(u16, u8, u8)> for Date {
    type Error = Reason;

    fn try_from((year, month, day): (u16, u8, u8)) -> Result<Date, Reason> {
        Date::make(year, month, day, Style::Western)
    }
}

/// The characters that a sheet has for it.
impl fmt::Display for Date {
    fn fmt(&self, f: &mut fmt::Formatter<'_>) -> fmt::Result {
        self.text().fmt(f)
    }
}

/// As `2018-07-02`, and with the era where it is in era style: `2018-07-02 (Heisei 30)`.
impl fmt::Debug for Date {
    fn fmt(&self, f: &mut fmt::Formatter<'_>) -> fmt::Result {
        write!(f, "{:04}-{:02}-{:02}", self.year, self.month, self.day)?;
        match self.era {
            Some(era) => write!(f, " ({:?} {})", era, (self.year + 1).saturating_sub(era.first_year())),
            None => Ok(()),
        }
    }
}

impl DateText {
    fn western(year: u16, month: u8, day: u8) -> DateText {
        let mut text = DateText { digits: [b'0'; 8], length: 8 };
        text.put(0..4, year);
        text.put(4..6, month.into());
        text.put(6..8, day.into());
        text
    }

    fn of_era(era: Era, year: u16, month: u8, day: u8) -> DateText {
        let mut text = DateText { digits: [b'0'; 8], length: 7 };
        text.put(0..1, era as u16);
        text.put(1..3, year);
        text.put(3..5, month.into());
        text.put(5..7, day.into());
        text
    }

    /// Puts a number's last digits.
    fn put(&mut self, place: core::ops::Range<usize>, mut number: u16) {
        for digit in self.digits[place].iter_mut().rev() {
            *digit = b'0' + (number % 10) as u8;
            number /= 10;
        }
    }

    /// Its characters.
    pub fn as_str(&self) -> &str {
        core::str::from_utf8(&self.digits[..self.length]).unwrap_or_default()
    }
}

impl AsRef<str> for DateText {
    fn as_ref(&self) -> &str {
        self.as_str()
    }
}

impl AsRef<[u8]> for DateText {
    fn as_ref(&self) -> &[u8] {
        self.as_str().as_bytes()
    }
}

impl fmt::Display for DateText {
    fn fmt(&self, f: &mut fmt::Formatter<'_>) -> fmt::Result {
        f.pad(self.as_str())
    }
}

impl fmt::Debug for DateText {
    fn fmt(&self, f: &mut fmt::Formatter<'_>) -> fmt::Result {
        fmt::Debug::fmt(self.as_str(), f)
    }
}

#[cfg(test)]
mod tests {
    extern crate std;

    use std::string::ToString;

    use super::*;

    /// The eras and their first days.
    const FIRST_DAYS: [(Era, (u16, u8, u8)); 5] = [
        (Era::Meiji, (1868, 1, 1)),
        (Era::Taisho, (1912, 7, 30)),
        (Era::Showa, (1926, 12, 25)),
        (Era::Heisei, (1989, 1, 8)),
        (Era::Reiwa, (2019, 5, 1)),
    ];

    /// 232 years of which 57 are leap years.
    const DAYS: usize = 232 * 365 + 57;

    /// Every day from 1868 to 2099, and some that there are not.
    fn days() -> impl Iterator<Item = (u16, u8, u8)> {
        (1868..=2099).flat_map(|y| (1..=12).flat_map(move |m| (1..=31).map(move |d| (y, m, d))))
    }

    /// The library's own characters of every day, in both styles.
    #[test]
    fn texts_are_the_library_s() {
        let mut seen = 0;
        for (year, month, day) in days() {
            for style in [Style::Western, Style::Era] {
                let mut text = [0; 8];
                if ffi::date_make(year, month, day, style as u8, &mut [0; 4], &mut text) != 0 {
                    assert_eq!(Date::make(year, month, day, style), Err(Reason::Value));
                    continue;
                }
                let date = Date::make(year, month, day, style).unwrap();
                assert_eq!(date.era().is_some(), style == Style::Era);
                let length = if date.era().is_some() { 7 } else { 8 };
                assert_eq!(date.text().as_str().as_bytes(), &text[..length]);
                seen += 1;
            }
        }
        assert_eq!(seen, 2 * DAYS);
    }

    /// Every day lies in the era that era style names, and in no other.
    #[test]
    fn a_day_has_one_era() {
        let mut seen = 0;
        for (year, month, day) in days() {
            let Ok(made) = Date::make(year, month, day, Style::Era) else { continue };
            let in_force = FIRST_DAYS.iter().rev().find(|(_, first)| *first <= (year, month, day)).unwrap().0;
            assert_eq!((made.era(), made.year(), made.month(), made.day()), (Some(in_force), year, month, day));
            for (era, _) in FIRST_DAYS {
                // 0 in the years before the era: it has no such year.
                let year_of_era = (year + 1).saturating_sub(era.first_year()).try_into().unwrap();
                let expected = if era == in_force { Ok(made) } else { Err(Reason::Value) };
                assert_eq!(Date::of_era(era, year_of_era, month, day), expected, "{era:?} {made:?}");
            }
            seen += 1;
        }
        assert_eq!(seen, DAYS);
    }

    /// The first and the last day of each era, and the days beside them.
    #[test]
    fn eras_begin_and_end() {
        for (text, date) in [
            ("1010101", (1868, 1, 1)),
            ("1450729", (1912, 7, 29)),
            ("2010730", (1912, 7, 30)),
            ("2151224", (1926, 12, 24)),
            ("3011225", (1926, 12, 25)),
            ("3640107", (1989, 1, 7)),
            ("4010108", (1989, 1, 8)),
            ("4310430", (2019, 4, 30)),
            ("5010501", (2019, 5, 1)),
            ("5811231", (2099, 12, 31)),
        ] {
            let date = Date::make(date.0, date.1, date.2, Style::Era).unwrap();
            assert_eq!((date.to_string().as_str(), text.parse()), (text, Ok(date)));
        }
        for text in [
            "1001231", "1450730", "2010729", "2151225", "3011224", "3640108", "4010107", "4310501", "5010430",
            "5820101",
        ] {
            assert_eq!(text.parse::<Date>(), Err(Reason::Value), "{text}");
        }
    }

    /// Years that no era has, also those of three digits.
    #[test]
    fn years_outside_eras() {
        assert_eq!("4400101".parse::<Date>(), Err(Reason::Value));
        for (era, _) in FIRST_DAYS {
            for year in [0, 82, 99, 100, 101, 255] {
                assert_eq!(Date::of_era(era, year, 6, 15), Err(Reason::Value), "{era:?} {year}");
            }
        }
    }
}
