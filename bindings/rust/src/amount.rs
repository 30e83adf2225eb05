//! Amounts of a drug.

use core::fmt;
use core::str::FromStr;

use crate::Reason;

/// An amount, in hundred-thousandths. A sheet takes six digits before the point and five after it.
///
/// ```
/// use yawsimbel::Amount;
///
/// let amount: Amount = "7.5".parse()?;
/// assert_eq!(amount.hundred_thousandths(), 750_000);
/// assert_eq!(amount.to_string(), "7.5");
/// assert_eq!(Amount::from(3), "3".parse()?);
/// # Ok::<(), yawsimbel::Reason>(())
/// ```
#[derive(Clone, Copy, Default, PartialEq, Eq, PartialOrd, Ord, Hash)]
pub struct Amount(u64);

const ONE: u64 = 100_000;

/// Places after the point.
const PLACES: usize = 5;

impl Amount {
    /// An amount of so many hundred-thousandths.
    pub const fn of_hundred_thousandths(number: u64) -> Amount {
        Amount(number)
    }

    /// How many hundred-thousandths it has.
    pub const fn hundred_thousandths(self) -> u64 {
        self.0
    }
}

/// A whole number.
impl From<u32> for Amount {
    fn from(whole: u32) -> Amount {
        Amount(u64::from(whole) * ONE)
    }
}

/// With no more places than it needs, as a sheet has it.
impl fmt::Display for Amount {
    fn fmt(&self, f: &mut fmt::Formatter<'_>) -> fmt::Result {
        let (whole, mut places, mut width) = (self.0 / ONE, self.0 % ONE, PLACES);
        if places == 0 {
            return write!(f, "{}", whole);
        }
        while places % 10 == 0 {
            places /= 10;
            width -= 1;
        }
        write!(f, "{}.{:0width$}", whole, places)
    }
}

impl fmt::Debug for Amount {
    fn fmt(&self, f: &mut fmt::Formatter<'_>) -> fmt::Result {
        fmt::Display::fmt(self, f)
    }
}

/// As a sheet has it: one to six whole digits, up to five after the point, in the shortest form. [`Reason::Value`] for anything else.
impl FromStr for Amount {
    type Err = Reason;

    fn from_str(text: &str) -> Result<Amount, Reason> {
        let (whole, places) = text.split_once('.').unwrap_or((text, "0"));
        let whole_is_short = whole.len() <= 6 && (whole == "0" || !whole.starts_with('0'));
        let places_are_short = places.len() <= PLACES && (!text.contains('.') || !places.ends_with('0'));
        if !whole_is_short || !places_are_short {
            return Err(Reason::Value);
        }
        let scale = 10u64.pow((PLACES - places.len()) as u32);
        Ok(Amount(digits(whole)? * ONE + digits(places)? * scale))
    }
}

/// One or more digits as a number.
fn digits(text: &str) -> Result<u64, Reason> {
    if text.is_empty() || !text.bytes().all(|digit| digit.is_ascii_digit()) {
        return Err(Reason::Value);
    }
    text.parse().map_err(|_| Reason::Value)
}
