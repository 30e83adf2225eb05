//! Text in Shift_JIS.

/// The full-width space.
const WIDE_SPACE: [u8; 2] = [0x81, 0x40];

/// A byte that is a character by itself.
const SINGLE: u8 = 1;
/// A byte that begins a pair.
const LEAD: u8 = 2;
/// A byte that ends a pair.
const SECOND: u8 = 4;

/// What each byte may be.
const ROLES: [u8; 256] = {
    let mut roles = [0; 256];
    let mut byte = 0;
    while byte < 256 {
        roles[byte] = roles_of(byte as u8);
        byte += 1;
    }
    roles
};

/// "Single bytes 20h to 7Eh but the comma, and A1h to DFh, pairs led by 81h to 9Fh or E0h to EFh,
/// second byte 40h to 7Eh or 80h to FCh."
const fn roles_of(byte: u8) -> u8 {
    let single = matches!(byte, 0x20..=0x7e | 0xa1..=0xdf) && byte != b',';
    let lead = matches!(byte, 0x81..=0x9f | 0xe0..=0xef);
    let second = matches!(byte, 0x40..=0x7e | 0x80..=0xfc);
    single as u8 * SINGLE + lead as u8 * LEAD + second as u8 * SECOND
}

/// Whether a text is well formed, at most `most` bytes, and neither starts nor ends with a space,
/// half or full width. "A pair begins only where a character begins", so whether the last byte ends
/// a pair is known only by going through all of them.
pub fn is_sound(text: &[u8], most: usize) -> bool {
    if text.len() > most || text.starts_with(b" ") || text.starts_with(&WIDE_SPACE) || text.ends_with(b" ") {
        return false;
    }
    let mut in_pair = false;
    let mut ended_pair = false;
    for &byte in text {
        let role = ROLES[usize::from(byte)];
        let asked = if in_pair { SECOND } else { SINGLE | LEAD };
        if role & asked == 0 {
            return false;
        }
        ended_pair = in_pair;
        in_pair = !in_pair && role & LEAD != 0;
    }
    let ends_in_space = ended_pair && text.ends_with(&WIDE_SPACE);
    !in_pair && !ends_in_space
}

#[cfg(test)]
mod tests {
    use super::*;

    #[test]
    fn texts() {
        assert!(is_sound(b"", 0));
        assert!(is_sound(b"YAMADA JIRO", 11));
        assert!(!is_sound(b"YAMADA JIRO", 10));
        assert!(is_sound(b"\x83\x81@", 80));
        assert!(!is_sound(b"@\x81\x40", 80));
        assert!(!is_sound(b"\x81\x40@", 80));
        assert!(is_sound(b"@\x81\x40@", 80));
        for bad in [&b" a"[..], b"a ", b" ", b"\x81\x40", b"a,b", b"\x83", b"a\x83", b"\x83\x7f", b"\x83\xfd"] {
            assert!(!is_sound(bad, 80), "{bad:?}");
        }
        for bad in [0x00, 0x0a, 0x0d, 0x1a, 0x1f, 0x2c, 0x7f, 0x80, 0xa0, 0xf0, 0xff] {
            assert!(!is_sound(&[bad], 80));
            assert!(!is_sound(&[b'a', bad], 80));
        }
        for lead in (0x81..=0x9f).chain(0xe0..=0xef) {
            for second in 0..=255u8 {
                let good = (0x40..=0xfc).contains(&second) && second != 0x7f;
                assert_eq!(is_sound(&[lead, second], 2), good && [lead, second] != WIDE_SPACE);
            }
        }
        assert!(is_sound(b"\xb1\xdf\xa1", 3));
    }
}
