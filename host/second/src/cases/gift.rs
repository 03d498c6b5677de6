//! The cases of GIFT-128: `gift KEY BLOCK`.

use super::both_ways;
use crate::gift::{decipher, encipher};
use crate::lines::{fields, print_field, Order};
use crate::random::Random;

/// The order in which the designers print.
const ORDER: Order = Order::ByteZeroLast;

/// The designers' three published vectors as key, plaintext and ciphertext,
/// printed most significant byte first.
pub const PUBLISHED: [(&str, &str, &str); 3] = [
    (
        "00000000000000000000000000000000",
        "00000000000000000000000000000000",
        "cd0bd738388ad3f668b15a36ceb6ff92",
    ),
    (
        "fedcba9876543210fedcba9876543210",
        "fedcba9876543210fedcba9876543210",
        "8422241a6dbf5a9346af468409ee0152",
    ),
    (
        "d0f5c59a7700d3e799028fa9f90ad837",
        "e39c141fa57dba43f08a85b6a91f86c1",
        "13ede67cbdcc3dbf400a62d6977265ea",
    ),
];

/// How many random-looking pairs of a key and a block there are.
const RANDOM_LINES: usize = 40;

/// Four extreme strings: no bit set, all bits set, bit 0 alone, bit 127 alone.
pub fn extremes() -> [[u8; 16]; 4] {
    let mut lowest = [0; 16];
    lowest[0] = 0x01;
    let mut highest = [0; 16];
    highest[15] = 0x80;
    [[0; 16], [0xff; 16], lowest, highest]
}

fn line(key: &[u8], block: &[u8]) -> String {
    let [key, block] = [key, block].map(|bytes| print_field(bytes, ORDER));
    format!("gift {key} {block}")
}

/// The first published plaintext is an extreme block under an extreme key too,
/// so it stands among [`extreme_lines`].
fn published_lines() -> Vec<String> {
    let plain = PUBLISHED.map(|(key, plain, _)| format!("gift {key} {plain}"));
    let cipher = PUBLISHED.map(|(key, _, cipher)| format!("gift {key} {cipher}"));
    [&plain[1..], &cipher[..]].concat()
}

/// Every pair of extreme strings.
fn extreme_lines() -> Vec<String> {
    let pairs = extremes().map(|key| extremes().map(|block| line(&key, &block)));
    pairs.concat()
}

fn random_lines(random: &mut Random) -> Vec<String> {
    (0..RANDOM_LINES)
        .map(|_| line(&random.sixteen(), &random.sixteen()))
        .collect()
}

/// Wrong lengths, each alone and each beside the other, so that both refusals
/// and their order show.
fn wrong_length_lines(random: &mut Random) -> Vec<String> {
    const LENGTHS: [usize; 5] = [0, 15, 16, 17, 40];
    let mut list = Vec::new();
    for key_len in LENGTHS {
        for block_len in LENGTHS {
            if (key_len, block_len) != (16, 16) {
                list.push(line(&random.bytes(key_len), &random.bytes(block_len)));
            }
        }
    }
    list
}

/// All cases of GIFT-128.
pub fn lines() -> Vec<String> {
    let mut random = Random::new(0x6769_6674);
    [
        published_lines(),
        extreme_lines(),
        random_lines(&mut random),
        wrong_length_lines(&mut random),
    ]
    .concat()
}

/// The answer to the fields `KEY BLOCK`; nothing if they are something else.
pub fn answer(given: &[u8]) -> Option<String> {
    let [key, block] = fields(given, ORDER)?;
    let there = |block: &mut [u8]| encipher(&key, block);
    let back = |block: &mut [u8]| decipher(&key, block);
    Some(both_ways(&block, ORDER, there, back))
}

#[cfg(test)]
mod tests {
    use super::super::answer;
    use super::super::tests::answered;
    use super::*;

    #[test]
    fn published_lines_are_answered_as_published() {
        let lines = lines();
        for (key, plain, cipher) in PUBLISHED {
            let [there, back] = [plain, cipher].map(|block| format!("gift {key} {block}"));
            assert!(lines.contains(&there) && lines.contains(&back));
            let there = answer(there.as_bytes());
            assert!(there.starts_with(&format!("0 {cipher} 0 {plain} 0 ")));
            let back = answer(back.as_bytes());
            assert!(back.ends_with(&format!(" 0 {cipher} 0 {plain}")));
        }
    }

    #[test]
    fn every_number_comes_as_often_as_it_was_meant_to() {
        let lines = lines();
        assert_eq!(answered(&lines, 0), 5 + 16 + RANDOM_LINES);
        assert_eq!(answered(&lines, 1), 20);
        assert_eq!(answered(&lines, 4), 4);
        assert_eq!(lines.len(), 5 + 16 + RANDOM_LINES + 24);
    }

    #[test]
    fn refused_lines_show_the_block_unchanged() {
        assert_eq!(answer(b"gift - -"), "1 - 1 - 1 -");
        assert_eq!(answer(b"gift 0102 abcdef"), "1 abcdef 1 abcdef 1 abcdef");
        let key = "00".repeat(16);
        let refused = |block| answer(format!("gift {key} {block}").as_bytes());
        assert_eq!(refused("-"), "4 - 4 - 4 -");
        assert_eq!(refused("0102"), "4 0102 4 0102 4 0102");
    }
}
