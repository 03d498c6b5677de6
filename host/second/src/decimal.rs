//! Numbers in decimal, what docs/cards.1 calls a NUMBER.

/// The number that a word is: digits, at least one, with zeros before it or not.
/// The largest that any option takes is "the count in eight" bytes (FILES), so
/// what is not below 2^64 is no NUMBER.
pub fn number(word: &[u8]) -> Option<u64> {
    if !word.iter().all(u8::is_ascii_digit) {
        return None;
    }
    std::str::from_utf8(word).ok()?.parse().ok()
}

#[cfg(test)]
mod tests {
    use super::*;

    #[test]
    fn digits_are_a_number_below_2_to_the_64() {
        assert_eq!(number(b"0"), Some(0));
        assert_eq!(number(b"007"), Some(7));
        assert_eq!(number(&[b'0'; 5000]), Some(0));
        assert_eq!(number(b"18446744073709551615"), Some(u64::MAX));
        assert_eq!(number(b"00018446744073709551615"), Some(u64::MAX));
        assert_eq!(number(b"18446744073709551616"), None);
        assert_eq!(number(b"36893488147419103233"), None);
    }

    #[test]
    fn nothing_else_is_a_number() {
        for word in [
            "", "-1", "+1", " 1", "1 ", "1.", "1e1", "0x1", "1_0", "\u{661}",
        ] {
            assert_eq!(number(word.as_bytes()), None, "{word}");
        }
        for character in (0..=255).filter(|c: &u8| !c.is_ascii_digit()) {
            assert_eq!(number(&[b'1', character, b'2']), None, "{character}");
        }
    }
}
