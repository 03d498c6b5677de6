//! The text format of the comparison program: one case on each line. A line
//! starts with a word that says what to do; its fields follow, and exactly one
//! space stands between two of these.
//!
//! A field is a byte string in lower-case hex. The empty byte string is `-`.

/// The longest byte string that a field may hold.
pub const LONGEST_FIELD: usize = 1152;

/// What is answered for a line that does not have this format.
pub const BAD_LINE: &str = "bad line";

/// The order in which a field shows its bytes.
#[derive(Clone, Copy, Debug, PartialEq, Eq)]
pub enum Order {
    /// As the RFCs print byte strings.
    ByteZeroFirst,
    /// As the designers of GIFT-128 print, most significant byte first, so
    /// that the last two digits are byte 0.
    ByteZeroLast,
}

impl Order {
    /// Takes the bytes of a string to the order shown, and back.
    fn turned(self, mut bytes: Vec<u8>) -> Vec<u8> {
        if self == Order::ByteZeroLast {
            bytes.reverse();
        }
        bytes
    }
}

/// Prints `bytes` as a field.
pub fn print_field(bytes: &[u8], order: Order) -> String {
    if bytes.is_empty() {
        return "-".to_string();
    }
    let shown = order.turned(bytes.to_vec());
    shown.iter().map(|b| format!("{b:02x}")).collect()
}

fn digit(c: u8) -> Option<u8> {
    match c {
        b'0'..=b'9' => Some(c - b'0'),
        b'a'..=b'f' => Some(c - b'a' + 10),
        _ => None,
    }
}

/// Reads a field; nothing if it is none.
pub fn field(text: &[u8], order: Order) -> Option<Vec<u8>> {
    if text == b"-" {
        return Some(Vec::new());
    }
    if text.is_empty() || text.len() % 2 != 0 || text.len() / 2 > LONGEST_FIELD {
        return None;
    }
    let pair = |two: &[u8]| Some(16 * digit(two[0])? + digit(two[1])?);
    let shown: Option<Vec<u8>> = text.chunks(2).map(pair).collect();
    Some(order.turned(shown?))
}

/// Reads exactly `N` fields; nothing if `text` is something else.
pub fn fields<const N: usize>(text: &[u8], order: Order) -> Option<[Vec<u8>; N]> {
    let read: Option<Vec<Vec<u8>>> = text
        .split(|&c| c == b' ')
        .map(|text| field(text, order))
        .collect();
    read?.try_into().ok()
}

/// The word of a line and the text of its fields; nothing if there is no space
/// between them.
pub fn word_and_fields(line: &[u8]) -> Option<(&[u8], &[u8])> {
    let space = line.iter().position(|&c| c == b' ')?;
    Some((&line[..space], &line[space + 1..]))
}

/// Cuts `input` into lines. Each line ends with a newline; a last piece
/// without one is a line too if it is not empty.
pub fn lines(input: &[u8]) -> Vec<&[u8]> {
    let mut pieces: Vec<&[u8]> = input.split(|&c| c == b'\n').collect();
    // Splitting leaves one piece behind the last newline.
    if pieces.last().is_some_and(|last| last.is_empty()) {
        pieces.pop();
    }
    pieces
}

#[cfg(test)]
mod tests {
    use super::Order::{ByteZeroFirst, ByteZeroLast};
    use super::*;

    #[test]
    fn fields_show_their_bytes_in_either_order() {
        let bytes = [0x01, 0xab, 0xf0];
        assert_eq!(print_field(&bytes, ByteZeroFirst), "01abf0");
        assert_eq!(print_field(&bytes, ByteZeroLast), "f0ab01");
        assert_eq!(field(b"01abf0", ByteZeroFirst), Some(bytes.to_vec()));
        assert_eq!(field(b"f0ab01", ByteZeroLast), Some(bytes.to_vec()));
        for order in [ByteZeroFirst, ByteZeroLast] {
            assert_eq!(print_field(&[], order), "-");
            assert_eq!(field(b"-", order), Some(vec![]));
        }
    }

    #[test]
    fn what_is_no_field_is_refused() {
        for text in ["", "a", "abc", "AB", "g0", "0g", "--", "-0", "0x", "\t0"] {
            assert_eq!(field(text.as_bytes(), ByteZeroFirst), None, "{text:?}");
        }
        let zeros = |len| field("00".repeat(len).as_bytes(), ByteZeroFirst);
        assert_eq!(zeros(1152), Some(vec![0; 1152]));
        assert_eq!(zeros(1153), None);
    }

    #[test]
    fn fields_are_exactly_as_many_as_asked_for() {
        let two = |text: &[u8]| fields::<2>(text, ByteZeroFirst);
        assert_eq!(two(b"01 -"), Some([vec![1], vec![]]));
        for text in ["", " ", "01", "01 ", " 01", "01  02", "01 02 03", "01 02 "] {
            assert_eq!(two(text.as_bytes()), None, "{text:?}");
        }
        assert_eq!(two(b"01 02\r"), None);
        assert_eq!(two(b"01\t02"), None);
        assert_eq!(two(b"01 \xff\xff"), None);
    }

    #[test]
    fn word_ends_at_the_first_space() {
        let cut = word_and_fields;
        assert_eq!(cut(b"gift 01 02"), Some((&b"gift"[..], &b"01 02"[..])));
        assert_eq!(cut(b" gift"), Some((&b""[..], &b"gift"[..])));
        assert_eq!(cut(b"gift "), Some((&b"gift"[..], &b""[..])));
        assert_eq!(cut(b"gift"), None);
        assert_eq!(cut(b""), None);
    }

    #[test]
    fn lines_end_with_a_newline_or_with_the_input() {
        assert!(lines(b"").is_empty());
        assert_eq!(lines(b"\n"), [b""]);
        assert_eq!(lines(b"a\nb\n"), [b"a", b"b"]);
        assert_eq!(lines(b"a\nb"), [b"a", b"b"]);
        assert_eq!(lines(b"a\n\n"), [&b"a"[..], b""]);
    }
}
