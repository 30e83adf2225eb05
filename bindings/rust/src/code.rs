//! The characters of a code that was written.

use core::fmt;

/// The characters of a code that the library wrote: digits, capitals and the point.
///
/// ```
/// use yawsimbel::{Usage, UsageCode};
///
/// let usage: Usage = "1013044400000000".parse()?;
/// let code: UsageCode = usage.write()?;
/// assert_eq!(code.as_str(), "1013044400000000");
/// # Ok::<(), Box<dyn std::error::Error>>(())
/// ```
#[derive(Clone, Copy, PartialEq, Eq, PartialOrd, Ord, Hash)]
pub struct Code<const N: usize>([u8; N]);

/// The sixteen characters of a usage code.
pub type UsageCode = Code<16>;

/// The eight characters of a supplementary code.
pub type SupplementCode = Code<8>;

impl<const N: usize> Code<N> {
    /// Of characters that the library wrote.
    pub(crate) fn of(characters: [u8; N]) -> Code<N> {
        Code(characters)
    }

    /// Its characters as bytes.
    pub fn as_bytes(&self) -> &[u8; N] {
        &self.0
    }

    /// Its characters.
    pub fn as_str(&self) -> &str {
        // The library writes ASCII alone; should it not, nothing is better than a panic.
        core::str::from_utf8(&self.0).unwrap_or_default()
    }
}

impl<const N: usize> AsRef<[u8]> for Code<N> {
    fn as_ref(&self) -> &[u8] {
        &self.0
    }
}

impl<const N: usize> AsRef<str> for Code<N> {
    fn as_ref(&self) -> &str {
        self.as_str()
    }
}

impl<const N: usize> From<Code<N>> for [u8; N] {
    fn from(code: Code<N>) -> [u8; N] {
        code.0
    }
}

impl<const N: usize> fmt::Display for Code<N> {
    fn fmt(&self, f: &mut fmt::Formatter<'_>) -> fmt::Result {
        f.pad(self.as_str())
    }
}

impl<const N: usize> fmt::Debug for Code<N> {
    fn fmt(&self, f: &mut fmt::Formatter<'_>) -> fmt::Result {
        fmt::Debug::fmt(self.as_str(), f)
    }
}
