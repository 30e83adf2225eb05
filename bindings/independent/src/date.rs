//! Dates: western `YYYYMMDD`, or an era, its year and `MMDD`. The eras' rules are those of document 02.

use std::ops::Range;

use crate::number::Short;
use crate::Refusal;

/// A day with the style it is written in. "The record keeps the style, and in era style which era."
#[derive(Clone, Copy, Debug, PartialEq, Eq)]
pub struct Date {
    /// The western year.
    pub year: u16,
    /// 1 to 12.
    pub month: u8,
    /// 1 to 31.
    pub day: u8,
    /// How it is written.
    pub style: Style,
}

/// The style of a date.
#[derive(Clone, Copy, Debug, PartialEq, Eq)]
pub enum Style {
    /// `YYYYMMDD`
    Western,
    /// Era, two-digit year, `MMDD`.
    Era(Era),
}

/// The eras 1 to 5.
#[derive(Clone, Copy, Debug, PartialEq, Eq)]
#[repr(u8)]
pub enum Era {
    /// 1
    Meiji = 1,
    /// 2
    Taisho = 2,
    /// 3
    Showa = 3,
    /// 4
    Heisei = 4,
    /// 5
    Reiwa = 5,
}

/// Year, month and day, which compare as days follow each other.
pub(crate) type Day = (u16, u8, u8);

// "Meiji starts on 1868-01-01 (ours), Taisho on 1912-07-30, Showa on 1926-12-25, Heisei on 1989-01-08,
// Reiwa on 2019-05-01; each ends the day before the next, Reiwa with 2099 (ours)."
const MEIJI: Day = (1868, 1, 1);
const TAISHO: Day = (1912, 7, 30);
const SHOWA: Day = (1926, 12, 25);
const HEISEI: Day = (1989, 1, 8);
const REIWA: Day = (2019, 5, 1);
const AFTER_REIWA: Day = (2100, 1, 1);

/// The style a caller names when making a date.
#[derive(Clone, Copy, Debug, PartialEq, Eq)]
pub enum Wish {
    /// No style named.
    None,
    /// Western style.
    Western,
    /// Era style.
    Era,
}

impl Era {
    const ALL: [Era; 5] = [Era::Meiji, Era::Taisho, Era::Showa, Era::Heisei, Era::Reiwa];

    /// "Eras 1 to 4 add 1867, 1911, 1925, 1988", and "era 5, which adds 2018 to its year".
    pub const fn adds(self) -> u16 {
        match self {
            Era::Meiji => 1867,
            Era::Taisho => 1911,
            Era::Showa => 1925,
            Era::Heisei => 1988,
            Era::Reiwa => 2018,
        }
    }

    /// From its first day to the day before the next era's first.
    const fn days(self) -> Range<Day> {
        match self {
            Era::Meiji => MEIJI..TAISHO,
            Era::Taisho => TAISHO..SHOWA,
            Era::Showa => SHOWA..HEISEI,
            Era::Heisei => HEISEI..REIWA,
            Era::Reiwa => REIWA..AFTER_REIWA,
        }
    }

    /// "The era in force on that day."
    fn in_force(day: Day) -> Option<Era> {
        Era::ALL.into_iter().find(|era| era.days().contains(&day))
    }

    fn numbered(c: u8) -> Option<Era> {
        Era::ALL.into_iter().find(|era| c == b'0' + *era as u8)
    }
}

/// How many days a month has at most, February 29; every month (0) 31.
pub(crate) const fn longest_month(month: u8) -> u8 {
    match month {
        2 => 29,
        4 | 6 | 9 | 11 => 30,
        _ => 31,
    }
}

/// The last day of a month (Gregorian).
pub(crate) const fn last_of_month(year: u16, month: u8) -> u8 {
    let leap = year % 4 == 0 && (year % 100 != 0 || year % 400 == 0);
    longest_month(month) - (month == 2 && !leap) as u8
}

/// "From 1868 to 2099 … The day must exist (Gregorian)."
pub(crate) fn exists((year, month, day): Day) -> bool {
    let last = last_of_month(year, month);
    (1868..=2099).contains(&year) && (1..=12).contains(&month) && (1..=last).contains(&day)
}

impl Date {
    /// Makes a date. "A caller's era-style date now takes the era in force on that day", and so does
    /// one for which no style is named. "No such day or year is 27, place 0."
    pub fn new(year: u16, month: u8, day: u8, wish: Wish) -> Result<Date, Refusal> {
        let style = match wish {
            Wish::Western => Some(Style::Western),
            Wish::None | Wish::Era => Era::in_force((year, month, day)).map(Style::Era),
        };
        let made = style.and_then(|style| Date { year, month, day, style }.sound());
        made.ok_or(Refusal::new(27, 0))
    }

    /// The date, where it is one: "27 for an era date outside its era, after the test that the day
    /// exists".
    fn sound(self) -> Option<Date> {
        let day = (self.year, self.month, self.day);
        let in_style = match self.style {
            Style::Western => true,
            Style::Era(era) => era.days().contains(&day),
        };
        (exists(day) && in_style).then_some(self)
    }
}

/// Reads the date of a field; `None` is 27.
pub fn read(text: &[u8]) -> Option<Date> {
    if !text.iter().all(u8::is_ascii_digit) {
        return None;
    }
    let (style, year, month_day) = match text {
        [c1, c2, c3, c4, rest @ ..] if rest.len() == 4 => (Style::Western, pair(*c1, *c2) * 100 + pair(*c3, *c4), rest),
        [era, tens, ones, rest @ ..] if rest.len() == 4 => {
            let era = Era::numbered(*era)?;
            // A year 00 ends before its era begins.
            (Style::Era(era), era.adds() + pair(*tens, *ones), rest)
        }
        _ => return None,
    };
    let month = pair(month_day[0], month_day[1]) as u8;
    let day = pair(month_day[2], month_day[3]) as u8;
    Date { year, month, day, style }.sound()
}

/// Two digits as a number.
fn pair(tens: u8, ones: u8) -> u16 {
    u16::from(tens - b'0') * 10 + u16::from(ones - b'0')
}

/// Writes a date; `None` where no field reads as it.
pub fn write(date: &Date) -> Option<Short<8>> {
    let date = date.sound()?;
    let mut text = Short::default();
    let year = match date.style {
        Style::Western => {
            text.push_pair((date.year / 100) as u8);
            date.year % 100
        }
        Style::Era(era) => {
            text.push(b'0' + era as u8);
            date.year - era.adds()
        }
    };
    text.push_pair(year as u8);
    text.push_pair(date.month);
    text.push_pair(date.day);
    Some(text)
}

#[cfg(test)]
mod tests {
    use super::*;

    fn made(year: u16, month: u8, day: u8, wish: Wish) -> String {
        match Date::new(year, month, day, wish) {
            Ok(date) => String::from_utf8(write(&date).unwrap().to_vec()).unwrap(),
            Err(refusal) => {
                assert_eq!(refusal, Refusal::new(27, 0));
                "27".into()
            }
        }
    }

    #[test]
    fn made_by_a_caller() {
        assert_eq!(made(2018, 7, 2, Wish::None), "4300702");
        assert_eq!(made(2018, 7, 2, Wish::Western), "20180702");
        assert_eq!(made(1868, 1, 1, Wish::Western), "18680101");
        assert_eq!(made(2099, 12, 31, Wish::Western), "20991231");
        assert_eq!(made(2000, 2, 29, Wish::Western), "20000229");
        for wish in [Wish::None, Wish::Western, Wish::Era] {
            for (year, month, day) in [(0, 1, 1), (1867, 12, 31), (2100, 1, 1), (65_535, 1, 1)] {
                assert_eq!(made(year, month, day, wish), "27");
            }
            for (month, day) in [(0, 1), (13, 1), (5, 0), (5, 32), (4, 31), (2, 29)] {
                assert_eq!(made(2019, month, day, wish), "27");
            }
            assert_eq!(made(1900, 2, 29, wish), "27");
        }
    }

    /// The first and the last day of each era, named or not, and Reiwa from where no other era's years reach.
    #[test]
    fn the_era_in_force() {
        for wish in [Wish::None, Wish::Era] {
            assert_eq!(made(1868, 1, 1, wish), "1010101");
            assert_eq!(made(1912, 7, 29, wish), "1450729");
            assert_eq!(made(1912, 7, 30, wish), "2010730");
            assert_eq!(made(1926, 12, 24, wish), "2151224");
            assert_eq!(made(1926, 12, 25, wish), "3011225");
            assert_eq!(made(1989, 1, 7, wish), "3640107");
            assert_eq!(made(1989, 1, 8, wish), "4010108");
            assert_eq!(made(2019, 4, 30, wish), "4310430");
            assert_eq!(made(2019, 5, 1, wish), "5010501");
            assert_eq!(made(2088, 1, 1, wish), "5700101");
            assert_eq!(made(2090, 1, 1, wish), "5720101");
            assert_eq!(made(2099, 12, 31, wish), "5811231");
        }
    }

    /// The days about each border in both eras: the one in force has the day, the other refuses it.
    #[test]
    fn read_about_the_borders() {
        let rows = [
            ("1010101", (1868, 1, 1), "1001231"),
            ("1450729", (1912, 7, 29), "2010729"),
            ("2010730", (1912, 7, 30), "1450730"),
            ("2151224", (1926, 12, 24), "3011224"),
            ("3011225", (1926, 12, 25), "2151225"),
            ("3640107", (1989, 1, 7), "4010107"),
            ("4010108", (1989, 1, 8), "3640108"),
            ("4310430", (2019, 4, 30), "5010430"),
            ("5010501", (2019, 5, 1), "4310501"),
            ("5811231", (2099, 12, 31), "5820101"),
        ];
        for (text, (year, month, day), outside) in rows {
            let date = read(text.as_bytes()).unwrap();
            assert_eq!((date.year, date.month, date.day), (year, month, day));
            assert_eq!(date.style, Style::Era(Era::numbered(text.as_bytes()[0]).unwrap()));
            assert_eq!(read(outside.as_bytes()), None, "{outside}");
        }
        // "A Heisei year 40 must no longer pass"; nor do a year 00, a day that is none, an era that is none.
        for text in ["4400101", "4991231", "4000101", "5010229", "5010532", "5021301", "0010501", "6010501"] {
            assert_eq!(read(text.as_bytes()), None, "{text}");
        }
    }

    /// Every text of seven or eight digits in and about the years is refused or written back, and one
    /// in era style is what a caller gets for its day: so no day has two eras.
    #[test]
    fn written_back() {
        let mut taken = [0; 6];
        for (lead, length) in (1850..=2120).map(|y| (y, 4)).chain((0..=999).map(|y| (y, 3))) {
            for month_day in 0..=1300 {
                let text = format!("{lead:0length$}{month_day:04}");
                let Some(date) = read(text.as_bytes()) else { continue };
                assert_eq!(write(&date).as_deref(), Some(text.as_bytes()));
                match date.style {
                    Style::Western => taken[0] += 1,
                    Style::Era(era) => {
                        taken[era as usize] += 1;
                        assert_eq!(Date::new(date.year, date.month, date.day, Wish::Era), Ok(date));
                    }
                }
            }
        }
        // 232 years with 57 leap days (1900 has none).
        assert_eq!(taken[0], 232 * 365 + 57);
        // Meiji: 44 years with 10 leap days, and in 1912 six months with one and 29 days.
        assert_eq!(taken[1], 44 * 365 + 10 + 182 + 29);
        // Taisho: what 1912 has left, 13 years with 3, and 1926 but its last week.
        assert_eq!(taken[2], (366 - 211) + 13 * 365 + 3 + (365 - 7));
        // Showa: that week, 62 years with 16, and the first week of 1989.
        assert_eq!(taken[3], 7 + 62 * 365 + 16 + 7);
        // Heisei: 1989 but that week, 29 years with 7, and four months of 2019.
        assert_eq!(taken[4], (365 - 7) + 29 * 365 + 7 + 120);
        // Reiwa: what 2019 has left, and 80 years with 20.
        assert_eq!(taken[5], (365 - 120) + 80 * 365 + 20);
        // As many as there are days, and no day twice: each has one era.
        assert_eq!(taken[1..].iter().sum::<u32>(), taken[0]);
    }

    #[test]
    fn no_field_reads_as_these() {
        let good = Date { year: 2018, month: 7, day: 2, style: Style::Western };
        assert!(write(&good).is_some());
        assert!(write(&Date { year: 401, ..good }).is_none());
        assert!(write(&Date { month: 0, ..good }).is_none());
        assert!(write(&Date { day: 32, ..good }).is_none());
        for era in [Era::Meiji, Era::Taisho, Era::Showa, Era::Reiwa] {
            assert!(write(&Date { style: Style::Era(era), ..good }).is_none());
        }
        let held = Date { style: Style::Era(Era::Heisei), ..good };
        assert!(write(&held).is_some());
        assert!(write(&Date { year: 2028, ..held }).is_none());
        assert!(write(&Date { day: 32, ..held }).is_none());
        assert!(read(b"2018070").is_none() && read(b"201807021").is_none() && read(b"").is_none());
    }
}
