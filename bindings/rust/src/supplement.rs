//! Supplementary codes: eight characters that say on which days, or how much at which dose.

use core::str::FromStr;

use crate::ffi;
use crate::{Code, CodeRefusal, DatesOfMonth, Few, Reason, SupplementCode, Week};

/// What a supplementary code says.
///
/// ```
/// use yawsimbel::{Period, Supplement};
///
/// let supplement: Supplement = "I1100000".parse()?;
/// assert_eq!(supplement, Supplement::Interval { on: 1, off: 1 });
///
/// let twice_a_week = Supplement::Cycle { period: Period::Week, count: 2 };
/// assert_eq!(twice_a_week.write()?.as_str(), "CW200000");
/// # Ok::<(), Box<dyn std::error::Error>>(())
/// ```
#[derive(Clone, Copy, Debug, PartialEq, Eq, Hash)]
#[non_exhaustive]
pub enum Supplement {
    /// `I`: so many days on, so many off.
    Interval {
        /// Days on.
        on: u8,
        /// Days off.
        off: u8,
    },
    /// `W`: days of the week.
    Week(Week),
    /// `D`: days of a month.
    Dates {
        /// 1 to 12; `None` for every month.
        month: Option<u8>,
        /// The days, rising.
        days: DatesOfMonth,
    },
    /// `C`: so often in a period.
    Cycle {
        /// The period.
        period: Period,
        /// How often.
        count: u8,
    },
    /// `V`: an amount of its own for one dose of the day.
    Unequal {
        /// Which dose.
        order: u8,
        /// The digits of the amount as one number.
        digits: u32,
        /// How many of them stand after the point.
        places: u8,
    },
}

/// A period.
#[derive(Clone, Copy, Debug, PartialEq, Eq, Hash)]
#[repr(u8)]
pub enum Period {
    /// A year.
    Year = b'Y',
    /// A month.
    Month = b'M',
    /// A week.
    Week = b'W',
}

/// A number of which 0 is none. `Some(0)` is no number, and must not become none.
fn optional_number(number: Option<u8>) -> u64 {
    match number {
        None => 0,
        Some(0) => u64::MAX,
        Some(number) => u64::from(number),
    }
}

impl Supplement {
    /// Reads a code of eight characters. [`Reason::Length`] to [`Reason::Rising`] but for those of a usage code, with the character at fault.
    pub fn read(code: &[u8]) -> Result<Supplement, CodeRefusal> {
        let mut numbers = [0; ffi::SUPPLEMENT];
        let mut place = 0;
        match ffi::supplement_read(code, &mut numbers, &mut place) {
            0 => Supplement::of(&numbers).ok_or(CodeRefusal { reason: Reason::Other, place: 0 }),
            number => Err(CodeRefusal { reason: Reason::of(number), place }),
        }
    }

    /// Writes the code that reads as this; [`Reason::NoCode`] where there is none.
    pub fn write(&self) -> Result<SupplementCode, Reason> {
        let mut code = [0; 8];
        match ffi::supplement_write(&self.numbers(), &mut code) {
            0 => Ok(Code::of(code)),
            number => Err(Reason::of(number)),
        }
    }

    /// Of the numbers that the library gives for a code that it takes; `None` where this crate does not know one.
    pub(crate) fn of(n: &ffi::Supplement) -> Option<Supplement> {
        let small = |at: usize| u8::try_from(n[at]).ok();
        Some(match small(0)? {
            b'I' => Supplement::Interval { on: small(1)?, off: small(2)? },
            b'W' => {
                let mut week = [false; 7];
                week.iter_mut().zip(&n[3..10]).for_each(|(day, number)| *day = *number != 0);
                Supplement::Week(week.into())
            }
            b'D' => {
                let days = Few::of((11..17).map(|at| small(at).filter(|day| *day != 0)));
                Supplement::Dates { month: Some(small(10)?).filter(|month| *month != 0), days }
            }
            b'C' => Supplement::Cycle { period: Period::of(small(17)?)?, count: small(18)? },
            b'V' => Supplement::Unequal { order: small(19)?, digits: n[20].try_into().ok()?, places: small(21)? },
            _ => return None,
        })
    }

    pub(crate) fn numbers(&self) -> ffi::Supplement {
        let mut n = [0; ffi::SUPPLEMENT];
        match *self {
            Supplement::Interval { on, off } => {
                n[0] = u64::from(b'I');
                n[1..3].copy_from_slice(&[on.into(), off.into()]);
            }
            Supplement::Week(week) => {
                n[0] = u64::from(b'W');
                n[3..10].copy_from_slice(&<[bool; 7]>::from(week).map(u64::from));
            }
            Supplement::Dates { month, days } => {
                n[0] = u64::from(b'D');
                n[10] = optional_number(month);
                let days = days.as_slice().iter().map(|day| optional_number(Some(*day)));
                n[11..17].iter_mut().zip(days).for_each(|(number, day)| *number = day);
            }
            Supplement::Cycle { period, count } => {
                n[0] = u64::from(b'C');
                n[17..19].copy_from_slice(&[period as u64, count.into()]);
            }
            Supplement::Unequal { order, digits, places } => {
                n[0] = u64::from(b'V');
                n[19..22].copy_from_slice(&[order.into(), digits.into(), places.into()]);
            }
        }
        n
    }
}

impl Period {
    fn of(letter: u8) -> Option<Period> {
        [Period::Year, Period::Month, Period::Week].into_iter().find(|period| *period as u8 == letter)
    }
}

impl TryFrom<&[u8]> for Supplement {
    type Error = CodeRefusal;

    fn try_from(code: &[u8]) -> Result<Supplement, CodeRefusal> {
        Supplement::read(code)
    }
}

impl FromStr for Supplement {
    type Err = CodeRefusal;

    fn from_str(code: &str) -> Result<Supplement, CodeRefusal> {
        Supplement::read(code.as_bytes())
    }
}

impl TryFrom<Supplement> for SupplementCode {
    type Error = Reason;

    fn try_from(supplement: Supplement) -> Result<SupplementCode, Reason> {
        supplement.write()
    }
}
