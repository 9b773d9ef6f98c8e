//! Bytes: digits and the numbers they make, the signs of a text, blanks.

pub const BLANK: u8 = b' ';

/// The number written in decimal; none where a byte is no digit or 64 bits do not hold it.
pub fn number(bytes: &[u8]) -> Option<u64> {
    bytes.iter().try_fold(0_u64, |value, &byte| {
        let digit = byte.is_ascii_digit().then(|| u64::from(byte - b'0'))?;
        value.checked_mul(10)?.checked_add(digit)
    })
}

/// Whether the byte may stand in a text; the umlauts are those of the German reference version.
pub fn is_text_sign(byte: u8) -> bool {
    let umlaut = matches!(byte, 0x5B | 0x5C | 0x5D | 0x7E);
    byte.is_ascii_digit() || byte.is_ascii_uppercase() || umlaut || b" .,&-/+*$%".contains(&byte)
}

/// Whether every byte is the one given.
pub fn all_are(bytes: &[u8], sign: u8) -> bool {
    bytes.iter().all(|&byte| byte == sign)
}

/// The bytes up to the last that is no blank.
pub fn without_closing_blanks(mut bytes: &[u8]) -> &[u8] {
    while let [shorter @ .., BLANK] = bytes {
        bytes = shorter;
    }
    bytes
}

#[cfg(test)]
mod tests {
    use super::*;

    #[test]
    fn numbers_are_decimal() {
        assert_eq!(number(b"0128"), Some(128));
        assert_eq!(number(b"99999999999999999"), Some(99_999_999_999_999_999));
        assert_eq!(number(b"01 8"), None);
        assert_eq!(number(b"/"), None);
        assert_eq!(number(b":"), None);
    }

    #[test]
    fn a_number_too_long_for_64_bits_is_none() {
        assert_eq!(number(b"18446744073709551615"), Some(u64::MAX));
        assert_eq!(number(b"18446744073709551616"), None);
    }

    #[test]
    fn fifty_signs_make_texts() {
        let signs: Vec<u8> = (0..=255).filter(|&byte| is_text_sign(byte)).collect();
        assert_eq!(
            signs,
            b" $%&*+,-./0123456789ABCDEFGHIJKLMNOPQRSTUVWXYZ[\\]~"
        );
        assert_eq!(signs.len(), 50);
    }

    #[test]
    fn only_closing_blanks_go() {
        assert_eq!(without_closing_blanks(b" A B  "), b" A B");
        assert_eq!(without_closing_blanks(b"   "), b"");
        assert_eq!(without_closing_blanks(b"A\t"), b"A\t");
        assert!(all_are(b"   ", BLANK) && !all_are(b" 0 ", BLANK));
    }
}
