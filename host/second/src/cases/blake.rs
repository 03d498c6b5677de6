//! The cases of BLAKE2b: `blake KEY TEXT LENGTH`, where LENGTH is a number of
//! one byte, the length of the room.

use super::published_bytes;
use crate::blake::digest;
use crate::lines::{fields, print_field, Order};
use crate::random::Random;

/// The order in which the RFC prints.
const ORDER: Order = Order::ByteZeroFirst;

/// What each byte of the room is before the digest.
const ROOM_BYTE: u8 = 0xa5;

/// A published digest of 64 bytes.
pub struct Published {
    /// Where it is printed.
    pub place: &'static str,
    key: &'static str,
    /// The message.
    pub text: &'static [u8],
    result: &'static str,
}

impl Published {
    /// The key, which may be empty.
    pub fn key(&self) -> Vec<u8> {
        published_bytes(self.key)
    }

    /// The digest.
    pub fn result(&self) -> Vec<u8> {
        published_bytes(self.result)
    }
}

/// The RFC's digest and three from the designers' list of test vectors.
pub const PUBLISHED: [Published; 4] = [
    Published {
        place: "RFC 7693, appendix A",
        key: "-",
        text: b"abc",
        result: "ba80a53f981c4d0d6a2797b69f12f6e94c212f14685ac4b74b12bb6fdbffa2d1\
                 7d87c5392aab792dc252d5de4533cc9518d38aa8dbf1925ab92386edd4009923",
    },
    Published {
        place: "designers' list, no key and no message",
        key: "-",
        text: b"",
        result: "786a02f742015903c6c6fd852552d272912f4740e15847618a86e217f71f5419\
                 d25e1031afee585313896444934eb04b903a685b1448b755d56f701afe9be2ce",
    },
    Published {
        place: "designers' list, a key and no message",
        key: "000102030405060708090a0b0c0d0e0f101112131415161718191a1b1c1d1e1f\
              202122232425262728292a2b2c2d2e2f303132333435363738393a3b3c3d3e3f",
        text: b"",
        result: "10ebb67700b1868efb4417987acf4690ae9d972fb7a590c2f02871799aaa4786\
                 b5e996e8f0f4eb981fc214b005f42d2ff4233499391653df7aefcbc13fc51568",
    },
    Published {
        place: "designers' list, a key and one byte",
        key: "000102030405060708090a0b0c0d0e0f101112131415161718191a1b1c1d1e1f\
              202122232425262728292a2b2c2d2e2f303132333435363738393a3b3c3d3e3f",
        text: &[0],
        result: "961f6dd1e4dd30f63901690c512e78e4b45e4742ed197c3c5e45c549fd25f2e4\
                 187b0bc9fe30492b16b0d0bc4ef9b0f34c7003fac09a5ef1532e69430234cebd",
    },
];

/// What the self test answers (RFC 7693, appendix E: blake2b_res).
pub const SELF_TEST: [u8; 32] = [
    0xc2, 0x3a, 0x78, 0x00, 0xd9, 0x81, 0x23, 0xbd, 0x10, 0xf5, 0x06, 0xc6, 0x1e, 0x29, 0xda, 0x56,
    0x03, 0xd7, 0x63, 0xb8, 0xbb, 0xad, 0x2e, 0x73, 0x7f, 0x5e, 0x76, 0x5a, 0x7b, 0xcc, 0xd4, 0x75,
];

/// The self test's sequence of bytes (RFC 7693, appendix E: selftest_seq),
/// whose seed is its length wherever the self test uses it.
fn sequence(len: usize) -> Vec<u8> {
    let mut a = 0xdead_4bad_u32.wrapping_mul(len as u32);
    let mut b = 1_u32;
    let mut bytes = Vec::new();
    for _ in 0..len {
        let t = a.wrapping_add(b);
        a = b;
        b = t;
        bytes.push((t >> 24) as u8);
    }
    bytes
}

/// The self test of RFC 7693, appendix E, on any digest function: the 32-byte
/// digest of many digests.
///
/// # Panics
///
/// If the function refuses.
pub fn self_test(digest: impl Fn(&[u8], &[u8], &mut [u8]) -> u32) -> [u8; 32] {
    let digest_of = |key: &[u8], text: &[u8], len: usize| {
        let mut room = vec![0; len];
        assert_eq!(digest(key, text, &mut room), 0);
        room
    };
    let mut all = Vec::new();
    for digest_len in [20, 32, 48, 64] {
        for text_len in [0, 3, 128, 129, 255, 1024] {
            let text = sequence(text_len);
            all.extend(digest_of(&[], &text, digest_len));
            all.extend(digest_of(&sequence(digest_len), &text, digest_len));
        }
    }
    let grand = digest_of(&[], &all, 32);
    grand.try_into().expect("32 bytes were asked for")
}

fn line(key: &[u8], text: &[u8], room_len: u8) -> String {
    let [key, text] = [key, text].map(|bytes| print_field(bytes, ORDER));
    format!("blake {key} {text} {room_len:02x}")
}

fn published_line(published: &Published) -> String {
    line(&published.key(), published.text, 64)
}

/// Random-looking bytes of the lengths given.
fn random_line(random: &mut Random, key_len: usize, text_len: usize, room_len: u8) -> String {
    line(&random.bytes(key_len), &random.bytes(text_len), room_len)
}

/// Messages that end inside a block, with it and behind it, without a key and
/// under a key as long as in LIONESS.
fn text_lines(random: &mut Random) -> Vec<String> {
    let mut list = Vec::new();
    for text_len in [1, 127, 128, 129, 255, 256, 257, 1152] {
        list.push(random_line(random, 0, text_len, 64));
    }
    for text_len in [0, 1, 127, 128, 129] {
        list.push(random_line(random, 44, text_len, 64));
    }
    list
}

fn key_lines(random: &mut Random) -> Vec<String> {
    [0, 1, 31, 32, 44, 63, 64, 65]
        .into_iter()
        .map(|key_len| random_line(random, key_len, 20, 32))
        .collect()
}

fn room_lines(random: &mut Random) -> Vec<String> {
    [0, 1, 20, 32, 48, 63, 64, 65, 255]
        .into_iter()
        .map(|room_len| random_line(random, 44, 10, room_len))
        .collect()
}

/// Key and room refused together.
fn two_refusal_lines(random: &mut Random) -> Vec<String> {
    [(65, 0), (65, 65), (128, 255)]
        .into_iter()
        .map(|(key_len, room_len)| random_line(random, key_len, 10, room_len))
        .collect()
}

/// All cases of BLAKE2b.
pub fn lines() -> Vec<String> {
    let mut random = Random::new(0x626c_616b);
    [
        PUBLISHED.iter().map(published_line).collect(),
        text_lines(&mut random),
        key_lines(&mut random),
        room_lines(&mut random),
        two_refusal_lines(&mut random),
    ]
    .concat()
}

/// The answer to the fields `KEY TEXT LENGTH`: the number and the whole room.
/// Nothing if the fields are something else.
pub fn answer(given: &[u8]) -> Option<String> {
    let [key, text, room_len] = fields(given, ORDER)?;
    let [room_len] = room_len.try_into().ok()?;
    let mut room = vec![ROOM_BYTE; usize::from(room_len)];
    let number = digest(&key, &text, &mut room);
    Some(format!("{number} {}", print_field(&room, ORDER)))
}

#[cfg(test)]
mod tests {
    use super::super::answer;
    use super::super::tests::answered;
    use super::*;

    #[test]
    fn published_lines_are_answered_as_published() {
        for (line, published) in lines().iter().zip(&PUBLISHED) {
            let expected = format!("0 {}", published.result);
            assert_eq!(answer(line.as_bytes()), expected, "{}", published.place);
        }
    }

    #[test]
    fn every_number_comes_as_often_as_it_was_meant_to() {
        let lines = lines();
        assert_eq!(answered(&lines, 0), 4 + 13 + 7 + 6);
        assert_eq!(answered(&lines, 1), 1 + 3);
        assert_eq!(answered(&lines, 6), 3);
        assert_eq!(lines.len(), 30 + 4 + 3);
    }

    #[test]
    fn refused_lines_show_the_room_unchanged() {
        let long_key = "00".repeat(65);
        let line = format!("blake {long_key} - 03");
        assert_eq!(answer(line.as_bytes()), "1 a5a5a5");
        assert_eq!(answer(b"blake - - 00"), "6 -");
        let room = "a5".repeat(65);
        assert_eq!(answer(b"blake 01 02 41"), format!("6 {room}"));
    }

    #[test]
    fn length_is_one_byte() {
        for length in ["-", "0040", "000040"] {
            let line = format!("blake - - {length}");
            assert_eq!(answer(line.as_bytes()), "bad line");
        }
    }
}
