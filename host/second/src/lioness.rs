//! LIONESS on a wide block, both ways (document 01, LIONESS; document 000,
//! section 3).
//!
//! It stands over two parts that the caller chooses, a stream cipher and a
//! keyed hash function, so that the same construction can be held over other
//! implementations of ChaCha20 and BLAKE2b.

use crate::chacha::{self, Streamed};
use crate::{blake, LONGEST_TEXT};

/// Two strings of 32 bytes added by exclusive or.
fn sum(a: &[u8], b: &[u8]) -> [u8; 32] {
    std::array::from_fn(|n| a[n] ^ b[n])
}

/// Judges the lengths, then takes the document's steps, numbered 1 to 4, in
/// the order given. The odd steps encipher R, the even ones change L, and step
/// n uses the n-th parts of key and iv. Adding by exclusive or undoes itself,
/// so each step undoes itself too.
fn steps<S, H>(
    order: [usize; 4],
    stream: S,
    hash: H,
    key: &[u8],
    iv: &[u8],
    block: &mut [u8],
) -> u32
where
    S: Fn(&[u8; 32], &[u8; 12], &mut [u8]),
    H: Fn(&[u8], &[u8]) -> [u8; 64],
{
    if key.len() != 128 {
        return 1;
    }
    if iv.len() != 48 {
        return 2;
    }
    if !(33..=32 + LONGEST_TEXT).contains(&block.len()) {
        return 4;
    }
    let (left, right) = block.split_at_mut(32);
    for n in order {
        let key = &key[32 * (n - 1)..32 * n];
        let iv: &[u8; 12] = iv[12 * (n - 1)..12 * n].try_into().expect("twelve bytes");
        if n % 2 == 1 {
            stream(&sum(left, key), iv, right);
        } else {
            // "The first 32 bytes of the 64-byte BLAKE2b digest of R".
            let digest = hash(&[key, iv].concat(), right);
            left.copy_from_slice(&sum(left, &digest[..32]));
        }
    }
    0
}

/// Enciphers `block` where it lies over the parts given. `stream` adds the key
/// stream of a key and a nonce to a text, with its counter from 0; `hash`
/// gives the 64-byte digest of its second argument under the 44-byte key that
/// is its first. Answers document 01's number: 0 done, 1 key has a wrong
/// length, 2 iv has a wrong length, 4 block length not allowed. The block is
/// unchanged unless the number is 0.
pub fn encipher_over<S, H>(stream: S, hash: H, key: &[u8], iv: &[u8], block: &mut [u8]) -> u32
where
    S: Fn(&[u8; 32], &[u8; 12], &mut [u8]),
    H: Fn(&[u8], &[u8]) -> [u8; 64],
{
    steps([1, 2, 3, 4], stream, hash, key, iv, block)
}

/// Deciphers `block` where it lies over the parts given; parts and numbers are
/// those of [`encipher_over`]. "Deciphering runs 4, 3, 2, 1."
pub fn decipher_over<S, H>(stream: S, hash: H, key: &[u8], iv: &[u8], block: &mut [u8]) -> u32
where
    S: Fn(&[u8; 32], &[u8; 12], &mut [u8]),
    H: Fn(&[u8], &[u8]) -> [u8; 64],
{
    steps([4, 3, 2, 1], stream, hash, key, iv, block)
}

/// ChaCha20 "with the counter initialized to 0" (document 000, section 3).
/// Where it stopped is of no use here: "LIONESS drops the number" (document 02,
/// K2).
fn stream(key: &[u8; 32], nonce: &[u8; 12], text: &mut [u8]) {
    let Streamed { number, next: _ } = chacha::stream(key, nonce, 0, text);
    assert_eq!(number, 0, "all lengths are allowed and the counter is low");
}

/// BLAKE2b with a digest of 64 bytes.
fn hash(key: &[u8], text: &[u8]) -> [u8; 64] {
    let mut room = [0; 64];
    let number = blake::digest(key, text, &mut room);
    assert_eq!(number, 0, "all lengths are allowed");
    room
}

/// Enciphers `block` under `key` and `iv` where it lies; the numbers are those
/// of [`encipher_over`].
pub fn encipher(key: &[u8], iv: &[u8], block: &mut [u8]) -> u32 {
    encipher_over(stream, hash, key, iv, block)
}

/// Deciphers `block` under `key` and `iv` where it lies; the numbers are those
/// of [`encipher_over`].
pub fn decipher(key: &[u8], iv: &[u8], block: &mut [u8]) -> u32 {
    decipher_over(stream, hash, key, iv, block)
}

#[cfg(test)]
mod tests {
    use super::*;
    use crate::random::Random;

    const LONGEST_BLOCK: usize = 1_048_608;

    /// Document 000's enciphering listing, written down line by line (section
    /// 3.1). `parts` names the parts of key and iv that its four lines use,
    /// and `digest_len` is the length of BLAKE2b's digest before it is cut, so
    /// that slips can be made on purpose.
    fn listing(
        parts: [usize; 4],
        digest_len: usize,
        key: &[u8],
        iv: &[u8],
        block: &[u8],
    ) -> Vec<u8> {
        let k = |line: usize| &key[32 * (parts[line] - 1)..][..32];
        let iv = |line: usize| &iv[12 * (parts[line] - 1)..][..12];
        let digest = |line: usize, r: &[u8]| {
            let mut room = vec![0; digest_len];
            assert_eq!(
                blake::digest(&[k(line), iv(line)].concat(), r, &mut room),
                0
            );
            room
        };
        let mut l = block[..32].to_vec();
        let mut r = block[32..].to_vec();
        assert_eq!(chacha::stream(&sum(&l, k(0)), iv(0), 0, &mut r).number, 0);
        l = sum(&l, &digest(1, &r)).to_vec();
        assert_eq!(chacha::stream(&sum(&l, k(2)), iv(2), 0, &mut r).number, 0);
        l = sum(&l, &digest(3, &r)).to_vec();
        [l, r].concat()
    }

    #[test]
    fn enciphering_is_document_000s_listing_and_no_slip() {
        let mut random = Random::new(40);
        for len in [33, 34, 64, 96, 97, 160, 161, 300, 5000] {
            let (key, iv) = (random.bytes(128), random.bytes(48));
            let block = random.bytes(len);
            let mut lent = block.clone();
            assert_eq!(encipher(&key, &iv, &mut lent), 0);
            assert_eq!(lent, listing([1, 2, 3, 4], 64, &key, &iv, &block));
            // A 32-byte digest in place of 64 bytes shortened.
            assert_ne!(lent, listing([1, 2, 3, 4], 32, &key, &iv, &block));
            // Steps 2 and 4 swapped, steps 1 and 3 swapped.
            assert_ne!(lent, listing([1, 4, 3, 2], 64, &key, &iv, &block));
            assert_ne!(lent, listing([3, 2, 1, 4], 64, &key, &iv, &block));
            // The first part used twice, the second part used twice.
            assert_ne!(lent, listing([1, 2, 1, 4], 64, &key, &iv, &block));
            assert_ne!(lent, listing([1, 2, 3, 2], 64, &key, &iv, &block));
        }
    }

    #[test]
    fn deciphering_undoes_enciphering_and_the_other_way_round() {
        let mut random = Random::new(41);
        for len in (33..=300).chain([4096, 4097, LONGEST_BLOCK]) {
            let (key, iv) = (random.bytes(128), random.bytes(48));
            let block = random.bytes(len);
            let mut lent = block.clone();
            assert_eq!(encipher(&key, &iv, &mut lent), 0);
            assert!(lent != block, "{len}");
            assert_eq!(decipher(&key, &iv, &mut lent), 0);
            assert!(lent == block, "{len}");
            assert_eq!(decipher(&key, &iv, &mut lent), 0);
            assert!(lent != block, "{len}");
            assert_eq!(encipher(&key, &iv, &mut lent), 0);
            assert!(lent == block, "{len}");
        }
    }

    /// "Each bit of the ciphertext is dependent on every single bit of the
    /// plaintext and vice versa" (document 000, section 1): a flip in the block
    /// changes both of its parts. One in the key or the iv may change one part
    /// only, for the last step leaves the other as it was.
    #[test]
    fn every_byte_of_key_iv_and_block_counts_both_ways() {
        let mut random = Random::new(42);
        let given = [random.bytes(128), random.bytes(48), random.bytes(97)];
        for work in [encipher, decipher] {
            let result = |[key, iv, block]: &[Vec<u8>; 3]| {
                let mut lent = block.clone();
                assert_eq!(work(key, iv, &mut lent), 0);
                lent
            };
            let unchanged = result(&given);
            for which in 0..3 {
                for place in 0..given[which].len() {
                    let mut flipped = given.clone();
                    flipped[which][place] ^= 0x10;
                    let changed = result(&flipped);
                    assert_ne!(changed, unchanged, "{which}, {place}");
                    if which == 2 {
                        assert_ne!(changed[..32], unchanged[..32], "{place}");
                        assert_ne!(changed[32..], unchanged[32..], "{place}");
                    }
                }
            }
        }
    }

    /// Expects `number` both ways, and an unchanged block unless it is 0.
    fn expect(number: u32, key_len: usize, iv_len: usize, block_len: usize) {
        let mut random = Random::new(43);
        let (key, iv) = (random.bytes(key_len), random.bytes(iv_len));
        let block = random.bytes(block_len);
        for work in [encipher, decipher] {
            let mut lent = block.clone();
            let case = format!("{key_len}, {iv_len}, {block_len}");
            assert_eq!(work(&key, &iv, &mut lent), number, "{case}");
            assert!((lent == block) == (number != 0), "{case}");
        }
    }

    #[test]
    fn refusals_come_in_order_and_change_nothing() {
        for key_len in 0..=260 {
            expect(if key_len == 128 { 0 } else { 1 }, key_len, 48, 40);
        }
        for iv_len in 0..=100 {
            expect(if iv_len == 48 { 0 } else { 2 }, 128, iv_len, 40);
        }
        for block_len in 0..=40 {
            expect(if block_len > 32 { 0 } else { 4 }, 128, 48, block_len);
        }
        expect(0, 128, 48, LONGEST_BLOCK);
        for block_len in [0, 32, LONGEST_BLOCK + 1] {
            expect(4, 128, 48, block_len);
            expect(2, 128, 47, block_len);
            expect(1, 127, 48, block_len);
            expect(1, 127, 47, block_len);
        }
        expect(1, 127, 47, 33);
    }
}
