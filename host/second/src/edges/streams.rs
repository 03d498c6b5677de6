//! The key stream at the edges (document 02, K2): starts around 2^32, where a
//! stream may stop, and far above it, and refusals at each of them.
//!
//! The line of a stream is `stream KEY NONCE START TEXT NUMBER NEXT BYTES`. KEY,
//! NONCE and TEXT are lengths in bytes; what was answered follows, and the
//! text's bytes after the call.

use super::filled;
use crate::chacha::{stream, Streamed};
use crate::lines::{print_field, Order};

const STARTS: [u64; 9] = [
    0,
    1,
    0xffff_fffe,
    0xffff_ffff,
    0x1_0000_0000,
    0x1_0000_0001,
    0x1_0000_0002,
    1 << 63,
    u64::MAX,
];

/// Texts that end inside a block, with it and behind it.
const TEXTS: [usize; 7] = [0, 1, 63, 64, 65, 128, 129];

/// Lengths of a key and a nonce of which one or both are wrong.
const WRONG: [(usize, usize); 5] = [(31, 12), (33, 12), (32, 11), (32, 13), (31, 11)];

/// Three lengths in bytes, and where the stream starts.
#[derive(Clone, Copy)]
struct Call {
    key: usize,
    nonce: usize,
    start: u64,
    text: usize,
}

/// The line of a call.
fn line(call: Call, stream: impl Fn(&[u8], &[u8], u64, &mut [u8]) -> Streamed) -> String {
    let Call {
        key,
        nonce,
        start,
        text,
    } = call;
    let mut bytes = filled(9, text);
    let Streamed { number, next } = stream(&filled(7, key), &filled(8, nonce), start, &mut bytes);
    let bytes = print_field(&bytes, Order::ByteZeroFirst);
    format!("stream {key} {nonce} {start} {text} {number} {next} {bytes}")
}

/// Every start with every text.
fn grid() -> Vec<Call> {
    let (key, nonce) = (32, 12);
    let mut list = Vec::new();
    for start in STARTS {
        for text in TEXTS {
            list.push(Call {
                key,
                nonce,
                start,
                text,
            });
        }
    }
    list
}

/// Every start with every wrong length.
fn refused() -> Vec<Call> {
    let mut list = Vec::new();
    for start in STARTS {
        for (key, nonce) in WRONG {
            list.push(Call {
                key,
                nonce,
                start,
                text: 1,
            });
        }
    }
    list
}

/// All lines of the key stream.
pub fn lines() -> Vec<String> {
    let calls = [grid(), refused()].concat();
    calls.into_iter().map(|call| line(call, stream)).collect()
}

#[cfg(test)]
mod tests {
    use super::super::tests::{fields, with_number};
    use super::*;
    use crate::lines::field;

    /// All seven texts are done from 0 and from 1, six from 2^32 - 2, four from
    /// 2^32 - 1 and one at 2^32.
    #[test]
    fn every_number_comes_as_often_as_it_was_meant_to() {
        let lines = lines();
        assert!(lines.iter().all(|line| fields(line).len() == 8));
        let (grid, refused) = lines.split_at(9 * 7);
        assert_eq!(refused.len(), 9 * 5);
        assert_eq!(with_number(grid, 5, 0), 7 + 7 + 6 + 4 + 1);
        assert_eq!(with_number(grid, 5, 8), 1 + 3 + 6 + 4 * 7);
        assert_eq!(with_number(refused, 5, 1), 9 * 3);
        assert_eq!(with_number(refused, 5, 2), 9 * 2);
    }

    #[test]
    fn calls_come_in_their_order() {
        let lines = lines();
        let starts = |n: usize, front: &str| {
            assert!(lines[n].starts_with(front), "{}", lines[n]);
        };
        starts(0, "stream 32 12 0 0 ");
        starts(1, "stream 32 12 0 1 ");
        starts(6, "stream 32 12 0 129 ");
        starts(7, "stream 32 12 1 0 ");
        starts(16, "stream 32 12 4294967294 63 ");
        starts(24, "stream 32 12 4294967295 64 ");
        starts(32, "stream 32 12 4294967296 65 ");
        starts(40, "stream 32 12 4294967297 128 ");
        starts(48, "stream 32 12 4294967298 129 ");
        starts(49, "stream 32 12 9223372036854775808 0 ");
        starts(62, "stream 32 12 18446744073709551615 129 ");
        starts(63, "stream 31 12 0 1 ");
        starts(64, "stream 33 12 0 1 ");
        starts(65, "stream 32 11 0 1 ");
        starts(66, "stream 32 13 0 1 ");
        starts(67, "stream 31 11 0 1 ");
        starts(68, "stream 31 12 1 1 ");
        starts(107, "stream 31 11 18446744073709551615 1 ");
    }

    /// The line of a made-up stream that notes what it was lent.
    #[test]
    fn line_shows_what_was_answered_and_left() {
        let call = Call {
            key: 2,
            nonce: 1,
            start: 5,
            text: 3,
        };
        let stream = |key: &[u8], nonce: &[u8], start: u64, text: &mut [u8]| {
            assert_eq!((key, nonce, start), (&[7, 36][..], &[8][..], 5));
            assert_eq!(text, [9, 38, 67]);
            text[1] = 0xab;
            Streamed {
                number: 3,
                next: 45,
            }
        };
        assert_eq!(line(call, stream), "stream 2 1 5 3 3 45 09ab43");
    }

    #[test]
    fn lines_show_what_the_document_says() {
        let lines = lines();
        assert_eq!(lines[0], "stream 32 12 0 0 0 0 -");
        assert!(lines[1].starts_with("stream 32 12 0 1 0 1 "));
        assert!(lines[11].starts_with("stream 32 12 1 65 0 3 "));
        assert!(lines[19].starts_with("stream 32 12 4294967294 128 0 4294967296 "));
        assert!(lines[20].starts_with("stream 32 12 4294967294 129 8 4294967294 0926"));
        // "At 2^32 an empty text is done and any other is refused with 8."
        let end = "4294967296";
        assert_eq!(lines[28], format!("stream 32 12 {end} 0 0 {end} -"));
        assert_eq!(lines[29], format!("stream 32 12 {end} 1 8 {end} 09"));
        // "Above 2^32 every text is, the empty one too."
        let above = "4294967297";
        assert_eq!(lines[35], format!("stream 32 12 {above} 0 8 {above} -"));
        let last = "18446744073709551615";
        assert_eq!(lines[56], format!("stream 32 12 {last} 0 8 {last} -"));
        // "A refusal answers the start."
        assert_eq!(lines[73], "stream 31 12 4294967294 1 1 4294967294 09");
        assert_eq!(lines[86], format!("stream 32 13 {end} 1 2 {end} 09"));
    }

    /// The bytes of a stream that is done, streamed again, are the text.
    #[test]
    fn lines_show_the_bytes_streamed_and_those_of_a_refusal_unchanged() {
        for (call, line) in grid().into_iter().zip(lines()) {
            let shown = fields(&line)[7];
            let mut bytes = field(shown.as_bytes(), Order::ByteZeroFirst).expect("a field");
            if fields(&line)[5] == "0" {
                assert!(call.text == 0 || bytes != filled(9, call.text), "{line}");
                stream(&filled(7, 32), &filled(8, 12), call.start, &mut bytes);
            }
            assert_eq!(bytes, filled(9, call.text), "{line}");
        }
    }
}
