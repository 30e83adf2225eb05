//! Supplementary codes: eight characters, led by I, W, D, C or V.

use crate::date::longest_month;
use crate::number::digits_of;
use crate::{zeros_from, Refusal};

/// What a supplementary code says.
#[derive(Clone, Copy, Debug, PartialEq, Eq)]
pub enum Supplement {
    /// I: "days on, days off, each 1 to 31".
    OnOff {
        /// Days on.
        on: u8,
        /// Days off.
        off: u8,
    },
    /// W: the weekdays.
    Week(Week),
    /// D: days of a month.
    Dates(Dates),
    /// C: "Y, M or W; a count 1 to 35".
    Cycle {
        /// The period.
        period: Period,
        /// The count.
        count: u8,
    },
    /// V: "order 1 to 5; an amount in six columns".
    Unequal(Unequal),
}

/// The weekdays: bit 0 is Sunday, bit 6 Saturday.
#[derive(Clone, Copy, Debug, PartialEq, Eq)]
pub struct Week(pub u8);

/// One D code.
#[derive(Clone, Copy, Debug, PartialEq, Eq)]
pub struct Dates {
    /// 1 to 12, or 0 for every month.
    pub month: u8,
    /// Bit d - 1 stands for day d. One to six days.
    pub days: u32,
}

/// The period of a C code.
#[derive(Clone, Copy, Debug, PartialEq, Eq)]
#[repr(u8)]
pub enum Period {
    /// `Y`
    Year = b'Y',
    /// `M`
    Month = b'M',
    /// `W`
    Week = b'W',
}

/// One V code. "The record keeps the digits and the places after the point, so 1 and 1.0 differ."
#[derive(Clone, Copy, Debug, PartialEq, Eq)]
pub struct Unequal {
    /// 1 to 5.
    pub order: u8,
    /// All digits, taken as one number.
    pub digits: u32,
    /// How many of the digits stand after the point.
    pub places: u8,
}

impl Dates {
    /// The first day.
    pub(crate) fn first(&self) -> u32 {
        self.days.trailing_zeros() + 1
    }

    /// The last day.
    pub(crate) fn last(&self) -> u32 {
        32 - self.days.leading_zeros()
    }

    /// Six days stand, so another code of the month may follow.
    pub(crate) fn is_full(&self) -> bool {
        self.days.count_ones() == 6
    }
}

type Code = [u8; 8];

/// Reads a supplementary code.
pub fn read(code: &[u8]) -> Result<Supplement, Refusal> {
    let code: &Code = code.try_into().map_err(|_| Refusal::new(1, 0))?;
    match code[0] {
        b'I' => read_on_off(code),
        b'W' => read_week(code),
        b'D' => read_dates(code).map(Supplement::Dates),
        b'C' => read_cycle(code),
        b'V' => read_unequal(code),
        _ => Err(Refusal::new(2, 1)),
    }
}

/// "A value 1 to 31 is written 1 to 9, A to V; up to 35, on to Z."
fn value(c: u8) -> Option<u8> {
    match c {
        b'1'..=b'9' => Some(c - b'0'),
        b'A'..=b'Z' => Some(c - b'A' + 10),
        _ => None,
    }
}

/// How a value is written; a value over 35 gives a character that reads as none.
fn value_letter(value: u8) -> u8 {
    match value {
        0..=9 => b'0' + value,
        10..=35 => b'A' + (value - 10),
        _ => b'?',
    }
}

/// The value at a place, 1 to `most`; else 5.
fn value_at(code: &Code, place: usize, most: u8) -> Result<u8, Refusal> {
    value(code[place - 1]).filter(|&v| v <= most).ok_or(Refusal::new(5, place))
}

fn read_on_off(code: &Code) -> Result<Supplement, Refusal> {
    let on = value_at(code, 2, 31)?;
    let off = value_at(code, 3, 31)?;
    zeros_from(code, 4)?;
    Ok(Supplement::OnOff { on, off })
}

/// "W: seven of 0 or 1, Sunday first, not all 0."
fn read_week(code: &Code) -> Result<Supplement, Refusal> {
    let mut week = 0;
    for (weekday, &c) in code[1..].iter().enumerate() {
        match c {
            b'0' => {}
            b'1' => week |= 1 << weekday,
            _ => return Err(Refusal::new(5, weekday + 2)),
        }
    }
    match week {
        0 => Err(Refusal::new(8, 2)),
        week => Ok(Supplement::Week(Week(week))),
    }
}

/// "D: month 1 to 9, A to C, or 0 for every month; then one to six days, strictly rising, then 0s."
pub(crate) fn read_dates(code: &Code) -> Result<Dates, Refusal> {
    let month = match code[1] {
        b'0' => 0,
        _ => value_at(code, 2, 12)?,
    };
    let mut days = 0u32;
    for place in 3..=8 {
        if code[place - 1] == b'0' && place > 3 {
            zeros_from(code, place)?;
            break;
        }
        let day = value_at(code, place, 31)?;
        if day > longest_month(month) {
            return Err(Refusal::new(8, place));
        }
        if days >> (day - 1) != 0 {
            return Err(Refusal::new(9, place));
        }
        days |= 1 << (day - 1);
    }
    Ok(Dates { month, days })
}

fn read_cycle(code: &Code) -> Result<Supplement, Refusal> {
    let period = match code[1] {
        b'Y' => Period::Year,
        b'M' => Period::Month,
        b'W' => Period::Week,
        _ => return Err(Refusal::new(5, 2)),
    };
    let count = value_at(code, 3, 35)?;
    zeros_from(code, 4)?;
    Ok(Supplement::Cycle { period, count })
}

fn read_unequal(code: &Code) -> Result<Supplement, Refusal> {
    let order = value_at(code, 2, 5)?;
    let (digits, places) = read_columns(&code[2..]).map_err(|column| Refusal::new(5, 3 + column))?;
    Ok(Supplement::Unequal(Unequal { order, digits, places }))
}

/// What the columns read so far end in.
#[derive(Clone, Copy, PartialEq)]
enum Column {
    Start,
    Zero,
    Whole,
    Point,
    Fraction,
    Filler,
}

/// "Digits, then perhaps a point and digits, then N. A whole part longer than one digit does not
/// start with 0." The error is "the first column at which no allowed amount agrees", from 0.
fn read_columns(columns: &[u8]) -> Result<(u32, u8), usize> {
    use Column::*;
    let (mut column, mut digits, mut places) = (Start, 0, 0);
    for (i, &c) in columns.iter().enumerate() {
        column = match (column, c) {
            (Start, b'0') => Zero,
            (Start, b'1'..=b'9') | (Whole, b'0'..=b'9') => Whole,
            // A digit must follow the point, so it needs a column after its own.
            (Zero | Whole, b'.') if i + 1 < columns.len() => Point,
            (Point | Fraction, b'0'..=b'9') => Fraction,
            (Zero | Whole | Fraction | Filler, b'N') => Filler,
            _ => return Err(i),
        };
        if c.is_ascii_digit() {
            digits = digits * 10 + u32::from(c - b'0');
            places += u8::from(column == Fraction);
        }
    }
    Ok((digits, places))
}

/// Writes the code that reads as a supplement; `None` (35) where no code does.
pub fn write(supplement: &Supplement) -> Option<[u8; 8]> {
    let mut code = [b'0'; 8];
    match supplement {
        Supplement::OnOff { on, off } => put(&mut code, &[b'I', value_letter(*on), value_letter(*off)]),
        Supplement::Week(week) => write_week(&mut code, *week),
        Supplement::Dates(dates) => write_dates(&mut code, dates),
        Supplement::Cycle { period, count } => put(&mut code, &[b'C', *period as u8, value_letter(*count)]),
        Supplement::Unequal(unequal) => write_unequal(&mut code, unequal)?,
    }
    // A record may hold what no code says: only a code that reads as the record is handed out.
    (read(&code) == Ok(*supplement)).then_some(code)
}

fn put(code: &mut Code, text: &[u8]) {
    code[..text.len()].copy_from_slice(text);
}

fn write_week(code: &mut Code, week: Week) {
    code[0] = b'W';
    for (weekday, cell) in code[1..].iter_mut().enumerate() {
        *cell = b'0' + (week.0 >> weekday & 1);
    }
}

/// The code for a month and the first six of its days.
pub(crate) fn write_dates(code: &mut Code, dates: &Dates) {
    put(code, &[b'D', value_letter(dates.month)]);
    let mut left = dates.days;
    for cell in &mut code[2..] {
        *cell = match left {
            0 => b'0',
            _ => value_letter(left.trailing_zeros() as u8 + 1),
        };
        left &= left.wrapping_sub(1);
    }
}

fn write_unequal(code: &mut Code, unequal: &Unequal) -> Option<()> {
    put(code, &[b'V', value_letter(unequal.order)]);
    let columns = &mut code[2..];
    columns.fill(b'N');
    let places = usize::from(unequal.places);
    let shown = digits_of(u64::from(unequal.digits)).max(places + 1);
    let width = shown + usize::from(places > 0);
    let columns = columns.get_mut(..width)?;
    let mut left = unequal.digits;
    for (from_end, cell) in columns.iter_mut().rev().enumerate() {
        if places > 0 && from_end == places {
            *cell = b'.';
        } else {
            *cell = b'0' + (left % 10) as u8;
            left /= 10;
        }
    }
    Some(())
}

#[cfg(test)]
mod tests {
    use super::*;

    fn refused(code: &str) -> (u16, usize) {
        let r = read(code.as_bytes()).unwrap_err();
        (r.number, r.place)
    }

    #[test]
    fn worked_by_hand() {
        assert_eq!(read(b"W0100100"), Ok(Supplement::Week(Week(1 << 1 | 1 << 4))));
        assert_eq!(refused("W0000000"), (8, 2));
        assert_eq!(refused("D2TU0000"), (8, 4));
        assert_eq!(read(b"V31.0NNN"), Ok(Supplement::Unequal(Unequal { order: 3, digits: 10, places: 1 })));
        assert_eq!(refused("V101NNNN"), (5, 4));
    }

    #[test]
    fn readings() {
        assert_eq!(refused("D0012000"), (5, 3));
        assert_eq!(refused("D010Z000"), (6, 5));
        assert_eq!(refused("W0000002"), (5, 8));
        assert!(read(b"V1123456").is_ok());
        assert!(read(b"V10NNNNN").is_ok());
        assert_eq!(refused("V112345."), (5, 8));
        assert_eq!(refused("V11.NNNN"), (5, 5));
        assert_eq!(refused("V11234.N"), (5, 8));
        assert_eq!(refused("V1NNNNNN"), (5, 3));
        assert!(read(b"D2T00000").is_ok());
        assert!(read(b"D0V00000").is_ok());
    }

    /// Every one- and two-character change is refused, or taken and written back as it stood.
    #[test]
    fn neighbours_written_back() {
        let seeds: [&[u8; 8]; 8] =
            [b"IAV00000", b"W0100100", b"D01FU000", b"D2123456", b"CWZ00000", b"V31.0NNN", b"V1123456", b"V10.125N"];
        for seed in seeds {
            assert_eq!(read(seed).ok().and_then(|s| write(&s)), Some(*seed));
            for (i, j) in (0..8).flat_map(|i| (0..8).map(move |j| (i, j))) {
                for (c, d) in (b' '..b'a').flat_map(|c| (b' '..b'a').map(move |d| (c, d))) {
                    let mut code = *seed;
                    code[i] = c;
                    code[j] = d;
                    if let Ok(supplement) = read(&code) {
                        assert_eq!(write(&supplement), Some(code));
                    }
                }
            }
        }
    }

    #[test]
    fn no_code_reads_as_these() {
        let v = |digits, places| write(&Supplement::Unequal(Unequal { order: 1, digits, places }));
        assert_eq!(v(999_999, 0), Some(*b"V1999999"));
        assert_eq!(v(1_000_000, 0), None);
        assert_eq!(v(u32::MAX, 255), None);
        assert_eq!(v(5, 4), Some(*b"V10.0005"));
        assert_eq!(v(5, 5), None);
        assert_eq!(v(99_999, 4), Some(*b"V19.9999"));
        assert_eq!(v(100_000, 4), None);
        assert_eq!(write(&Supplement::Week(Week(0))), None);
        assert_eq!(write(&Supplement::Week(Week(129))), None);
        assert_eq!(write(&Supplement::OnOff { on: 0, off: 1 }), None);
        assert_eq!(write(&Supplement::OnOff { on: 32, off: 1 }), None);
        assert_eq!(write(&Supplement::Cycle { period: Period::Year, count: 36 }), None);
        assert_eq!(write(&Supplement::Dates(Dates { month: 1, days: 0 })), None);
        assert_eq!(write(&Supplement::Dates(Dates { month: 1, days: 127 })), None);
        assert_eq!(write(&Supplement::Dates(Dates { month: 13, days: 1 })), None);
        assert_eq!(write(&Supplement::Dates(Dates { month: 2, days: 1 << 29 })), None);
        assert_eq!(write(&Supplement::Dates(Dates { month: 1, days: 1 << 31 })), None);
    }

    /// Plainly: the columns without the Ns that fill them up are digits, perhaps a point and digits.
    fn is_amount(columns: &[u8]) -> bool {
        let end = columns.iter().rposition(|&c| c != b'N').map_or(0, |last| last + 1);
        let mut parts = columns[..end].split(|&c| c == b'.');
        let digits = |part: &[u8]| !part.is_empty() && part.iter().all(u8::is_ascii_digit);
        let whole = parts.next().map_or(false, |w| digits(w) && (w.len() == 1 || w[0] != b'0'));
        whole && parts.next().map_or(true, digits) && parts.next().is_none()
    }

    /// "5 names the first column at which no allowed amount agrees", over all columns of a few
    /// characters that stand for their sorts.
    #[test]
    fn amounts_by_their_words() {
        let all: Vec<[u8; 6]> =
            (0..5usize.pow(6)).map(|n| std::array::from_fn(|i| b"01.Nx"[n / 5usize.pow(i as u32) % 5])).collect();
        let allowed: Vec<_> = all.iter().filter(|columns| is_amount(&columns[..])).collect();
        let begins: std::collections::HashSet<&[u8]> =
            allowed.iter().flat_map(|columns| (1..=6).map(|k| &columns[..k])).collect();
        for columns in &all {
            let want = (0..6).find(|&k| !begins.contains(&columns[..=k]));
            assert_eq!(read_columns(columns).err(), want, "{columns:?}");
        }
    }
}
