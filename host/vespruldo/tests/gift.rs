//! GIFT-128 of the archive beside the second implementation.

mod common;

use common::pairs::{gift_decipher as decipher, gift_encipher as encipher};
use common::{times, with_flip};
use second::cases::gift::{extremes, PUBLISHED};
use second::lines::{field, Order};
use second::random::Random;

#[test]
fn all_lengths_agree_and_nothing_else_changes() {
    let mut random = Random::new(10);
    for pair in [encipher(), decipher()] {
        for key_len in 0..=40 {
            for block_len in 0..=40 {
                for _ in 0..8 {
                    pair.compare(&mut random, [key_len], [block_len]);
                }
            }
        }
        // The one pair of lengths that is not refused, more often.
        for _ in 0..1000 {
            pair.compare(&mut random, [16], [16]);
        }
    }
}

/// Both implementations on one key and block: they agree both ways, and so
/// each undoes what the other did.
fn compare_blocks(key: &[u8], block: &[u8]) {
    let [encipher, decipher] = [encipher(), decipher()];
    let [enciphered] = encipher.done([key], [block]);
    assert_eq!(decipher.done([key], [&enciphered]), [block]);
    let [deciphered] = decipher.done([key], [block]);
    assert_eq!(encipher.done([key], [&deciphered]), [block]);
}

fn compare_random_blocks(seed: u64) {
    let mut random = Random::new(seed);
    for _ in 0..times(12_000) {
        compare_blocks(&random.bytes(16), &random.bytes(16));
    }
}

// Two halves, so that two processors share the work.
#[test]
fn random_blocks_agree_and_each_undoes_the_other() {
    compare_random_blocks(11);
}

#[test]
fn more_random_blocks_agree_and_each_undoes_the_other() {
    compare_random_blocks(15);
}

#[test]
fn extreme_blocks_agree_and_each_undoes_the_other() {
    for key in extremes() {
        for block in extremes() {
            compare_blocks(&key, &block);
        }
    }
    // Each bit alone, in the key and in the block.
    for i in 0..128 {
        let one_bit = with_flip(&[0; 16], i);
        compare_blocks(&one_bit, &[0; 16]);
        compare_blocks(&[0; 16], &one_bit);
    }
}

fn compare_damaged(key: &[u8], block: &[u8]) {
    for pair in [encipher(), decipher()] {
        pair.damage_read([key], [block]);
        pair.damage_worked([key], [block], |undamaged, damaged| damaged != undamaged);
    }
}

#[test]
fn damaged_inputs_agree_and_change_the_result() {
    let mut random = Random::new(12);
    for extreme in extremes() {
        compare_damaged(&extreme, &random.bytes(16));
        compare_damaged(&random.bytes(16), &extreme);
    }
    for _ in 0..12 {
        compare_damaged(&random.bytes(16), &random.bytes(16));
    }
}

/// Lengths that look like 16 to whoever keeps only their low bits, and others.
const LONG: [usize; 6] = [
    256 + 16,
    4096,
    (1 << 16) + 16,
    1 << 20,
    (1 << 20) + 16,
    (1 << 24) + 16,
];

#[test]
fn long_buffers_are_refused_and_unchanged() {
    let mut random = Random::new(13);
    for pair in [encipher(), decipher()] {
        for long in LONG {
            for (key_len, block_len) in [(long, 16), (16, long), (long, long), (0, long), (long, 0)]
            {
                pair.compare(&mut random, [key_len], [block_len]);
            }
        }
    }
}

#[test]
#[cfg(target_pointer_width = "64")]
fn lengths_of_2_to_the_32_plus_16_are_refused() {
    for pair in [encipher(), decipher()] {
        pair.refuse_huge([16], [16]);
    }
}

#[test]
fn published_vectors_both_ways() {
    for (key, plain, cipher) in PUBLISHED {
        let [key, plain, cipher] = [key, plain, cipher]
            .map(|text| field(text.as_bytes(), Order::ByteZeroLast).expect("a field"));
        assert_eq!(encipher().done([&key], [&plain]), [&cipher[..]]);
        assert_eq!(decipher().done([&key], [&cipher]), [&plain[..]]);
    }
}
