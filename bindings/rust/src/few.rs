//! A few small numbers.

use core::fmt;

use crate::Reason;

/// At most N small numbers, in order.
///
/// ```
/// use yawsimbel::Hours;
///
/// let hours = Hours::try_from([8, 12, 18])?;
/// assert_eq!(hours.as_slice(), [8, 12, 18]);
/// assert_eq!(format!("{hours:?}"), "[8, 12, 18]");
/// # Ok::<(), yawsimbel::Reason>(())
/// ```
#[derive(Clone, Copy, PartialEq, Eq, Hash)]
pub struct Few<const N: usize> {
    numbers: [u8; N],
    count: usize,
}

/// The hours of a usage code, 0 to 23.
pub type Hours = Few<8>;

/// The days of one date code, 1 to 31.
pub type DatesOfMonth = Few<6>;

impl<const N: usize> Few<N> {
    /// Of numbers up to the first that is none.
    pub(crate) fn of(numbers: impl Iterator<Item = Option<u8>>) -> Few<N> {
        let mut few = Few { numbers: [0; N], count: 0 };
        for (place, number) in few.numbers.iter_mut().zip(numbers.map_while(|number| number)) {
            *place = number;
            few.count += 1;
        }
        few
    }

    /// The numbers.
    pub fn as_slice(&self) -> &[u8] {
        &self.numbers[..self.count]
    }
}

/// [`Reason::NoCode`] for more than N numbers: no code has so many.
impl<const N: usize> TryFrom<&[u8]> for Few<N> {
    type Error = Reason;

    fn try_from(numbers: &[u8]) -> Result<Few<N>, Reason> {
        if numbers.len() > N {
            return Err(Reason::NoCode);
        }
        Ok(Few::of(numbers.iter().copied().map(Some)))
    }
}

impl<const N: usize, const M: usize> TryFrom<[u8; M]> for Few<N> {
    type Error = Reason;

    fn try_from(numbers: [u8; M]) -> Result<Few<N>, Reason> {
        Few::try_from(&numbers[..])
    }
}

impl<const N: usize> AsRef<[u8]> for Few<N> {
    fn as_ref(&self) -> &[u8] {
        self.as_slice()
    }
}

impl<'a, const N: usize> IntoIterator for &'a Few<N> {
    type Item = &'a u8;
    type IntoIter = core::slice::Iter<'a, u8>;

    fn into_iter(self) -> Self::IntoIter {
        self.as_slice().iter()
    }
}

impl<const N: usize> fmt::Debug for Few<N> {
    fn fmt(&self, f: &mut fmt::Formatter<'_>) -> fmt::Result {
        f.debug_list().entries(self).finish()
    }
}
