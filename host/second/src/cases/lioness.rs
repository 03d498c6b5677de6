//! The cases of LIONESS: `lioness KEY IV BLOCK`.

use super::both_ways;
use crate::lines::{fields, print_field, Order};
use crate::lioness::{decipher, encipher};
use crate::random::Random;

/// The order in which the RFCs print.
const ORDER: Order = Order::ByteZeroFirst;

/// Random-looking bytes of the lengths given.
fn random_line(random: &mut Random, lengths: [usize; 3]) -> String {
    let [key, iv, block] = lengths.map(|len| print_field(&random.bytes(len), ORDER));
    format!("lioness {key} {iv} {block}")
}

/// Blocks around the shortest one and around the blocks of both parts.
fn block_lines(random: &mut Random) -> Vec<String> {
    [0, 32, 33, 34, 63, 64, 95, 96, 97, 160, 161, 300, 1152]
        .into_iter()
        .map(|block_len| random_line(random, [128, 48, block_len]))
        .collect()
}

/// Wrong lengths, each alone and each beside the others.
fn wrong_length_lines(random: &mut Random) -> Vec<String> {
    let mut list = Vec::new();
    for key_len in [0, 16, 127, 128, 129] {
        for iv_len in [0, 12, 47, 48, 49] {
            if (key_len, iv_len) != (128, 48) {
                list.push(random_line(random, [key_len, iv_len, 33]));
            }
        }
    }
    for (key_len, iv_len) in [(127, 48), (128, 47), (129, 49), (0, 0)] {
        list.push(random_line(random, [key_len, iv_len, 32]));
    }
    list
}

/// All cases of LIONESS.
pub fn lines() -> Vec<String> {
    let mut random = Random::new(0x6c69_6f6e);
    [block_lines(&mut random), wrong_length_lines(&mut random)].concat()
}

/// The answer to the fields `KEY IV BLOCK`; nothing if they are something
/// else.
pub fn answer(given: &[u8]) -> Option<String> {
    let [key, iv, block] = fields(given, ORDER)?;
    let there = |block: &mut [u8]| encipher(&key, &iv, block);
    let back = |block: &mut [u8]| decipher(&key, &iv, block);
    Some(both_ways(&block, ORDER, there, back))
}

#[cfg(test)]
mod tests {
    use super::super::answer;
    use super::super::tests::answered;
    use super::*;

    #[test]
    fn every_number_comes_as_often_as_it_was_meant_to() {
        let lines = lines();
        assert_eq!(answered(&lines, 0), 11);
        assert_eq!(answered(&lines, 1), 20 + 3);
        assert_eq!(answered(&lines, 2), 4 + 1);
        assert_eq!(answered(&lines, 4), 2);
        assert_eq!(lines.len(), 11 + 23 + 5 + 2);
    }

    #[test]
    fn done_lines_show_both_ways_byte_0_first() {
        let mut random = Random::new(44);
        let [key, iv, block] = [128, 48, 33].map(|len| random.bytes(len));
        let mut enciphered = block.clone();
        assert_eq!(encipher(&key, &iv, &mut enciphered), 0);
        let mut deciphered = block.clone();
        assert_eq!(decipher(&key, &iv, &mut deciphered), 0);
        let hex = |bytes: &[u8]| -> String { bytes.iter().map(|b| format!("{b:02x}")).collect() };
        let [c, d, b] = [&enciphered, &deciphered, &block].map(|bytes| hex(bytes));
        let line = format!("lioness {} {} {b}", hex(&key), hex(&iv));
        assert_eq!(answer(line.as_bytes()), format!("0 {c} 0 {b} 0 {d}"));
    }

    #[test]
    fn refused_lines_show_the_block_unchanged() {
        assert_eq!(answer(b"lioness - - 0102"), "1 0102 1 0102 1 0102");
        let (key, iv) = ("00".repeat(128), "00".repeat(48));
        let line = format!("lioness {key} - 0102");
        assert_eq!(answer(line.as_bytes()), "2 0102 2 0102 2 0102");
        let line = format!("lioness {key} {iv} -");
        assert_eq!(answer(line.as_bytes()), "4 - 4 - 4 -");
    }
}
