//! Bytes in hex (docs/cards.1, Hex).

/// The value of a digit "in either case".
fn digit(character: u8) -> Option<u8> {
    match character {
        b'0'..=b'9' => Some(character - b'0'),
        b'a'..=b'f' => Some(character - b'a' + 10),
        b'A'..=b'F' => Some(character - b'A' + 10),
        _ => None,
    }
}

/// "With spaces, tabs and line ends anywhere." A line ends with a line feed, or
/// with a carriage return and a line feed.
fn between(character: u8) -> bool {
    matches!(character, b' ' | b'\t' | b'\n' | b'\r')
}

/// The bytes that a file in hex stands for: "two digits for each byte, the high
/// one first". Nothing if it is not hex.
pub fn read(file: &[u8]) -> Option<Vec<u8>> {
    let written = file.iter().filter(|&&character| !between(character));
    let digits: Option<Vec<u8>> = written.map(|&character| digit(character)).collect();
    let digits = digits?;
    if digits.len() % 2 != 0 {
        return None;
    }
    Some(digits.chunks(2).map(|two| 16 * two[0] + two[1]).collect())
}

/// "What is written is in lower case, all on one line."
pub fn written(bytes: &[u8]) -> Vec<u8> {
    let digits: String = bytes.iter().map(|byte| format!("{byte:02x}")).collect();
    (digits + "\n").into_bytes()
}

#[cfg(test)]
mod tests {
    use super::*;

    #[test]
    fn every_byte_is_read_in_either_case() {
        let all: Vec<u8> = (0..=255).collect();
        let lower = written(&all);
        assert_eq!(lower.len(), 513);
        assert!(lower.starts_with(b"000102") && lower.ends_with(b"feff\n"));
        assert_eq!(read(&lower), Some(all.clone()));
        assert_eq!(read(&lower.to_ascii_uppercase()), Some(all));
        assert_eq!(written(&[]), b"\n");
    }

    #[test]
    fn spaces_tabs_and_line_ends_may_be_anywhere() {
        assert_eq!(read(b""), Some(vec![]));
        assert_eq!(read(b" \r\n\t"), Some(vec![]));
        assert_eq!(read(b"\n1 2\t3\r\n4 "), Some(vec![0x12, 0x34]));
    }

    #[test]
    fn nothing_else_is_hex() {
        for file in [&b"1"[..], b"123", b"1 2 3", b"0x12", b"12,34", b"g0", b"--"] {
            assert_eq!(read(file), None, "{file:?}");
        }
        for character in (0..=255).filter(|&c: &u8| digit(c).is_none() && !between(c)) {
            assert_eq!(read(&[b'1', character, b'2']), None, "{character}");
        }
    }
}
