//! Texts as UTF-8: the feature `utf8`.

use alloc::borrow::Cow;
use core::error::Error;
use core::fmt;

use encoding_rs::SHIFT_JIS;

use crate::Text;

/// A text that has no UTF-8: a pair in it that Shift_JIS names no character for. A sheet may have it: the rules ask for the bytes of a pair alone.
#[derive(Clone, Copy, Debug, PartialEq, Eq, Hash)]
#[non_exhaustive]
pub struct TextRefusal;

impl fmt::Display for TextRefusal {
    fn fmt(&self, f: &mut fmt::Formatter<'_>) -> fmt::Result {
        f.write_str("the text has a pair of bytes that is no character of Shift_JIS")
    }
}

impl Error for TextRefusal {}

impl<'a> Text<'a> {
    /// The text in UTF-8, by the WHATWG's table of Shift_JIS; borrowed where it is ASCII. Nothing is replaced: a name on a bag is the name on
    /// the sheet.
    ///
    /// ```
    /// use yawsimbel::Text;
    ///
    /// assert_eq!(Text::from(b"\x8f\xf9").to_str()?, "錠");
    /// assert!(Text::from(b"\x85\x40").to_str().is_err());
    /// # Ok::<(), yawsimbel::TextRefusal>(())
    /// ```
    pub fn to_str(self) -> Result<Cow<'a, str>, TextRefusal> {
        SHIFT_JIS.decode_without_bom_handling_and_without_replacement(self.as_bytes()).ok_or(TextRefusal)
    }
}
