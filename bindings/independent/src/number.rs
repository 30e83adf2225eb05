//! Numbers and amounts, and the short texts they are written as.

use std::ops::Deref;

/// A text of at most `N` bytes, held by value.
#[derive(Clone, Copy, Debug)]
pub struct Short<const N: usize> {
    bytes: [u8; N],
    length: usize,
}

impl<const N: usize> Default for Short<N> {
    fn default() -> Self {
        Short { bytes: [0; N], length: 0 }
    }
}

impl<const N: usize> Deref for Short<N> {
    type Target = [u8];

    fn deref(&self) -> &[u8] {
        &self.bytes[..self.length]
    }
}

impl<const N: usize> Short<N> {
    pub(crate) fn push(&mut self, byte: u8) {
        self.bytes[self.length] = byte;
        self.length += 1;
    }

    /// Two digits.
    pub(crate) fn push_pair(&mut self, n: u8) {
        self.push(b'0' + n / 10 % 10);
        self.push(b'0' + n % 10);
    }

    fn push_number(&mut self, n: u64) {
        let digits = digits_of(n);
        let mut left = n;
        for cell in self.bytes[self.length..self.length + digits].iter_mut().rev() {
            *cell = b'0' + (left % 10) as u8;
            left /= 10;
        }
        self.length += digits;
    }
}

/// Reads a number. "Numbers have no leading zeros." Nine digits are more than any field takes;
/// longer ones are refused as any number outside its range is.
pub fn read(text: &[u8]) -> Option<u32> {
    match text {
        [] => None,
        [b'0', _, ..] => None,
        _ if text.len() > 9 => None,
        _ => digits(text).map(|n| n as u32),
    }
}

/// At most nineteen digits as a number.
fn digits(text: &[u8]) -> Option<u64> {
    text.iter().try_fold(0, |n, &c| c.is_ascii_digit().then(|| n * 10 + u64::from(c - b'0')))
}

/// How many digits a number has.
pub(crate) fn digits_of(n: u64) -> usize {
    let (mut left, mut digits) = (n / 10, 1);
    while left != 0 {
        left /= 10;
        digits += 1;
    }
    digits
}

/// Writes a number.
pub fn write(n: u32) -> Short<10> {
    let mut text = Short::default();
    text.push_number(n.into());
    text
}

/// Hundred-thousandths in a whole.
const WHOLE: u64 = 100_000;

/// The greatest amount, 999999.99999.
pub(crate) const GREATEST_AMOUNT: u64 = 1_000_000 * WHOLE - 1;

/// Reads an amount. "1 to 6 whole digits, up to 5 after the point, shortest form; held in
/// hundred-thousandths." Shortest: no 0 leads a longer whole part or ends the part after the point.
pub fn read_amount(text: &[u8]) -> Option<u64> {
    let point = text.iter().position(|&c| c == b'.').unwrap_or(text.len());
    let (whole, rest) = text.split_at(point);
    if whole.len() > 6 {
        return None;
    }
    let whole = u64::from(read(whole)?) * WHOLE;
    match rest {
        [] => Some(whole),
        [_point, .., b'0'] => None,
        [_point, places @ ..] if (1..=5).contains(&places.len()) => {
            let unit = WHOLE / 10u64.pow(places.len() as u32);
            Some(whole + digits(places)? * unit)
        }
        _ => None,
    }
}

/// Writes an amount in its shortest form.
pub fn write_amount(amount: u64) -> Short<21> {
    let mut text = Short::default();
    text.push_number(amount / WHOLE);
    let mut places = amount % WHOLE;
    let mut unit = WHOLE / 10;
    if places > 0 {
        text.push(b'.');
    }
    while places > 0 {
        text.push(b'0' + (places / unit) as u8);
        places %= unit;
        unit /= 10;
    }
    text
}

#[cfg(test)]
mod tests {
    use super::*;

    #[test]
    fn numbers() {
        for n in [0, 1, 9, 10, 99, 100, 999, 1000, 999_999_999] {
            assert_eq!(read(&write(n)), Some(n));
        }
        assert_eq!(&*write(u32::MAX), b"4294967295");
        for bad in ["", "01", "00", " 1", "1 ", "+1", "1.0", "4294967297", "1a"] {
            assert_eq!(read(bad.as_bytes()), None, "{bad}");
        }
    }

    #[test]
    fn amounts() {
        let good = [("0", 0), ("0.5", 50_000), ("3", 300_000), ("999999.99999", GREATEST_AMOUNT), ("0.00001", 1)];
        for (text, amount) in good {
            assert_eq!(read_amount(text.as_bytes()), Some(amount), "{text}");
            assert_eq!(&*write_amount(amount), text.as_bytes());
        }
        let bad =
            [".5", "00.5", "1.0", "5.", "1000000", "0.000001", "1.5.5", "", ".", "-1", "01", "1.0.5", "0.10", "1,5"];
        for bad in bad {
            assert_eq!(read_amount(bad.as_bytes()), None, "{bad}");
        }
        assert_eq!(&*write_amount(u64::MAX), b"184467440737095.51615");
    }
}
