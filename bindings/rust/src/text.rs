//! Texts of a sheet.

use core::fmt;

/// A text of a sheet, in Shift_JIS as it stands there.
///
/// ```
/// use yawsimbel::Text;
///
/// let text = Text::from(b"\x8f\xf9 A");
/// assert_eq!(text.as_bytes(), b"\x8f\xf9 A");
/// assert_eq!(text.len(), 4);
/// ```
#[derive(Clone, Copy, Default, PartialEq, Eq, PartialOrd, Ord, Hash)]
pub struct Text<'a>(&'a [u8]);

impl<'a> Text<'a> {
    /// Its bytes.
    pub const fn as_bytes(self) -> &'a [u8] {
        self.0
    }

    /// Whether there is none.
    pub const fn is_empty(self) -> bool {
        self.0.is_empty()
    }

    /// How many bytes it has.
    pub const fn len(self) -> usize {
        self.0.len()
    }
}

impl<'a> From<&'a [u8]> for Text<'a> {
    fn from(bytes: &'a [u8]) -> Text<'a> {
        Text(bytes)
    }
}

impl<'a, const N: usize> From<&'a [u8; N]> for Text<'a> {
    fn from(bytes: &'a [u8; N]) -> Text<'a> {
        Text(bytes)
    }
}

impl AsRef<[u8]> for Text<'_> {
    fn as_ref(&self) -> &[u8] {
        self.0
    }
}

/// ASCII as it is, any other byte as `\x8f`; with the feature `utf8` the characters that it has.
impl fmt::Debug for Text<'_> {
    fn fmt(&self, f: &mut fmt::Formatter<'_>) -> fmt::Result {
        #[cfg(feature = "utf8")]
        if let Ok(text) = self.to_str() {
            return fmt::Debug::fmt(&text, f);
        }
        write!(f, "\"{}\"", self.0.escape_ascii())
    }
}
