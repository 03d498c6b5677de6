//! BLAKE2b with or without a key (RFC 7693).

use crate::square::COLUMNS_THEN_DIAGONALS;
use crate::LONGEST_TEXT;

/// The bytes in a block (RFC 7693, section 2.1: bb).
const BLOCK: usize = 128;

/// The rounds of the compression function (RFC 7693, section 2.1: r).
const ROUNDS: usize = 12;

/// The initialization vector (RFC 7693, section 2.6 and appendix C.2).
const IV: [u64; 8] = [
    0x6a09e667f3bcc908,
    0xbb67ae8584caa73b,
    0x3c6ef372fe94f82b,
    0xa54ff53a5f1d36f1,
    0x510e527fade682d1,
    0x9b05688c2b3e6c1f,
    0x1f83d9abfb41bd6b,
    0x5be0cd19137e2179,
];

/// The message word schedule SIGMA (RFC 7693, section 2.7). Rounds 10 and 11
/// use rows 0 and 1 again.
const SIGMA: [[usize; 16]; 10] = [
    [0, 1, 2, 3, 4, 5, 6, 7, 8, 9, 10, 11, 12, 13, 14, 15],
    [14, 10, 4, 8, 9, 15, 13, 6, 1, 12, 0, 2, 11, 7, 5, 3],
    [11, 8, 12, 0, 5, 2, 15, 13, 10, 14, 3, 6, 7, 1, 9, 4],
    [7, 9, 3, 1, 13, 12, 11, 14, 2, 6, 5, 10, 4, 0, 15, 8],
    [9, 0, 5, 7, 2, 4, 10, 15, 14, 1, 11, 12, 6, 8, 3, 13],
    [2, 12, 6, 10, 0, 11, 8, 3, 4, 13, 7, 5, 15, 14, 1, 9],
    [12, 5, 1, 15, 14, 13, 4, 10, 0, 7, 6, 3, 9, 2, 8, 11],
    [13, 11, 7, 14, 12, 1, 3, 9, 5, 0, 15, 4, 8, 6, 2, 10],
    [6, 15, 14, 9, 11, 3, 0, 8, 12, 2, 13, 7, 1, 4, 10, 5],
    [10, 2, 8, 4, 7, 6, 1, 5, 15, 11, 9, 14, 3, 12, 13, 0],
];

/// The mixing function G on four words of the work vector, with the message
/// words `x` and `y` (RFC 7693, section 3.1). Addition is, "inside BLAKE2b
/// modulo 2^64" (document 01, LIONESS).
fn mix([a, b, c, d]: [u64; 4], x: u64, y: u64) -> [u64; 4] {
    let a = a.wrapping_add(b).wrapping_add(x);
    let d = (d ^ a).rotate_right(32);
    let c = c.wrapping_add(d);
    let b = (b ^ c).rotate_right(24);
    let a = a.wrapping_add(b).wrapping_add(y);
    let d = (d ^ a).rotate_right(16);
    let c = c.wrapping_add(d);
    let b = (b ^ c).rotate_right(63);
    [a, b, c, d]
}

/// A block as sixteen little-endian words (RFC 7693, section 2.4).
fn words(block: &[u8]) -> [u64; 16] {
    std::array::from_fn(|n| (0..8).map(|b| u64::from(block[8 * n + b]) << (8 * b)).sum())
}

/// The compression function F (RFC 7693, section 3.2). `count` is the offset
/// counter t; its high word is 0, for no data here has 2^64 bytes.
fn compress(h: [u64; 8], block: &[u8], count: u64, last: bool) -> [u64; 8] {
    let m = words(block);
    let mut v: [u64; 16] = std::array::from_fn(|n| if n < 8 { h[n] } else { IV[n - 8] });
    v[12] ^= count;
    if last {
        v[14] = !v[14];
    }
    for round in 0..ROUNDS {
        let s = SIGMA[round % 10];
        for (n, places) in COLUMNS_THEN_DIAGONALS.into_iter().enumerate() {
            let mixed = mix(places.map(|p| v[p]), m[s[2 * n]], m[s[2 * n + 1]]);
            for (place, word) in places.into_iter().zip(mixed) {
                v[place] = word;
            }
        }
    }
    std::array::from_fn(|n| h[n] ^ v[n] ^ v[n + 8])
}

/// The first parameter word, 0x0101kknn (RFC 7693, section 2.5).
fn parameter_word(key_len: usize, digest_len: usize) -> u64 {
    0x0101_0000 + 0x100 * key_len as u64 + digest_len as u64
}

/// All data blocks in one piece: the key, if there is one, filled with zeros
/// to a block, then the message filled in the same way. With neither key nor
/// message there is one block of zeros (RFC 7693, section 3.3).
fn data_blocks(key: &[u8], text: &[u8]) -> Vec<u8> {
    let mut data = key.to_vec();
    data.resize(BLOCK * key.len().div_ceil(BLOCK), 0);
    data.extend(text);
    let blocks = data.len().div_ceil(BLOCK).max(1);
    data.resize(BLOCK * blocks, 0);
    data
}

/// The eight words from whose bytes the digest is cut (RFC 7693, section 3.3).
fn hash(key: &[u8], text: &[u8], digest_len: usize) -> [u64; 8] {
    let data = data_blocks(key, text);
    let key_block = if key.is_empty() { 0 } else { BLOCK };
    let mut h = IV;
    h[0] ^= parameter_word(key.len(), digest_len);
    for (n, block) in data.chunks(BLOCK).enumerate() {
        let end = BLOCK * (n + 1);
        let last = end == data.len();
        // The zeros behind the message are not counted.
        let count = if last { key_block + text.len() } else { end };
        h = compress(h, block, count as u64, last);
    }
    h
}

/// Fills `room` with the digest of `text` under `key`, as long as the room; an
/// empty key is no key. Answers document 01's number: 0 done, 1 key has a wrong
/// length, 4 text too long, 6 room not 1 to 64 bytes. The room is unchanged
/// unless the number is 0.
pub fn digest(key: &[u8], text: &[u8], room: &mut [u8]) -> u32 {
    if key.len() > 64 {
        return 1;
    }
    if text.len() > LONGEST_TEXT {
        return 4;
    }
    if !(1..=64).contains(&room.len()) {
        return 6;
    }
    // The digest is the front of the eight words, written little-endian.
    let bytes = hash(key, text, room.len()).map(u64::to_le_bytes).concat();
    room.copy_from_slice(&bytes[..room.len()]);
    0
}

#[cfg(test)]
mod tests {
    use super::*;
    use crate::cases::blake::{self_test, PUBLISHED, SELF_TEST};
    use crate::random::Random;

    #[test]
    fn card_12_first_parameter_word() {
        assert_eq!(parameter_word(44, 64), 0x0101_2c40);
    }

    #[test]
    fn every_row_of_the_schedule_has_every_message_word() {
        for row in SIGMA {
            let mut sorted = row;
            sorted.sort_unstable();
            assert!(sorted.into_iter().eq(0..16));
        }
    }

    #[test]
    fn data_blocks_are_the_rfcs() {
        assert_eq!(data_blocks(b"", b""), [0; 128]);
        assert_eq!(data_blocks(b"", &[1; 128]), [1; 128]);
        assert_eq!(data_blocks(b"", &[1; 129]).len(), 256);
        let keyed = data_blocks(&[2; 44], &[1; 3]);
        let expected = [&[2; 44][..], &[0; 84], &[1; 3], &[0; 125]].concat();
        assert_eq!(keyed, expected);
        assert_eq!(data_blocks(&[2; 64], b"").len(), 128);
    }

    #[test]
    fn published_digests() {
        for published in PUBLISHED {
            let mut room = [0; 64];
            let number = digest(&published.key(), published.text, &mut room);
            assert_eq!(number, 0);
            assert_eq!(room[..], published.result(), "{}", published.place);
        }
    }

    #[test]
    fn rfc_7693_appendix_e_self_test() {
        assert_eq!(self_test(digest), SELF_TEST);
    }

    /// Expects `number`, and an unchanged room unless it is 0.
    fn expect(number: u32, key_len: usize, text_len: usize, room_len: usize) {
        let mut random = Random::new(30);
        let (key, text) = (random.bytes(key_len), random.bytes(text_len));
        let mut room = vec![0xa5; room_len];
        let case = format!("{key_len}, {text_len}, {room_len}");
        assert_eq!(digest(&key, &text, &mut room), number, "{case}");
        if number != 0 {
            assert_eq!(room, vec![0xa5; room_len], "{case}");
        }
    }

    #[test]
    fn refusals_come_in_order_and_change_nothing() {
        for key_len in 0..=130 {
            expect(u32::from(key_len > 64), key_len, 10, 64);
        }
        for room_len in 0..=260 {
            let done = (1..=64).contains(&room_len);
            expect(if done { 0 } else { 6 }, 44, 10, room_len);
        }
        expect(0, 0, LONGEST_TEXT, 64);
        for room_len in [0, 1, 64, 65] {
            expect(4, 64, LONGEST_TEXT + 1, room_len);
            expect(1, 65, LONGEST_TEXT + 1, room_len);
            expect(1, 65, 0, room_len);
        }
    }

    #[test]
    fn a_short_digest_is_not_the_front_of_a_long_one() {
        let mut long = [0; 64];
        assert_eq!(digest(b"key", b"text", &mut long), 0);
        for len in 8..64 {
            let mut short = vec![0; len];
            assert_eq!(digest(b"key", b"text", &mut short), 0);
            assert_ne!(short, long[..len]);
        }
    }
}
