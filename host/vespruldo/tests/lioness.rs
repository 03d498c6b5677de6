//! LIONESS of the archive beside the second implementation.

mod common;

use common::pairs::{lioness_decipher as decipher, lioness_encipher as encipher};
use common::{number, times, up_to, LONGEST_BLOCK};
use second::random::Random;

/// Lengths at the borders of what is allowed, and of ChaCha20's and BLAKE2b's
/// blocks in the part from byte 32 on.
const BLOCK_LENGTHS: [usize; 21] = [
    0, 1, 31, 32, 33, 34, 63, 64, 65, 95, 96, 97, 98, 127, 128, 129, 159, 160, 161, 288, 289,
];

#[test]
fn all_lengths_agree_and_nothing_else_changes() {
    let mut random = Random::new(40);
    for pair in [encipher(), decipher()] {
        for key_len in [0, 1, 32, 127, 128, 129, 256] {
            for iv_len in [0, 1, 12, 47, 48, 49, 96] {
                for block_len in BLOCK_LENGTHS {
                    pair.compare(&mut random, [key_len, iv_len], [block_len]);
                }
            }
        }
        // The one pair of lengths that is not refused, with every short block.
        for block_len in 0..=300 {
            pair.compare(&mut random, [128, 48], [block_len]);
        }
    }
}

/// Both implementations on one key, iv and block: they agree both ways, and so
/// each undoes what the other did.
fn compare_blocks(random: &mut Random, block_len: usize) {
    let [encipher, decipher] = [encipher(), decipher()];
    let [key, iv, block] = [128, 48, block_len].map(|len| random.bytes(len));
    let [enciphered] = encipher.done([&key, &iv], [&block]);
    assert!(decipher.done([&key, &iv], [&enciphered]) == [&block[..]]);
    let [deciphered] = decipher.done([&key, &iv], [&block]);
    assert!(encipher.done([&key, &iv], [&deciphered]) == [&block[..]]);
    assert!(enciphered != deciphered);
}

fn compare_random_blocks(seed: u64) {
    let mut random = Random::new(seed);
    for _ in 0..times(6000) {
        let block_len = 33 + up_to(&mut random, 667);
        compare_blocks(&mut random, block_len);
    }
}

// Two halves, so that two processors share the work.
#[test]
fn random_blocks_agree_and_each_undoes_the_other() {
    compare_random_blocks(41);
}

#[test]
fn more_random_blocks_agree_and_each_undoes_the_other() {
    compare_random_blocks(42);
}

#[test]
fn longest_blocks_agree_and_each_undoes_the_other() {
    let mut random = Random::new(43);
    for block_len in [LONGEST_BLOCK - 1, LONGEST_BLOCK] {
        compare_blocks(&mut random, block_len);
    }
}

/// Every bit of the block counts for both parts of the result. The parts are
/// long enough that no chance makes one come out unchanged.
#[test]
fn damaged_inputs_agree_and_change_the_result() {
    let mut random = Random::new(44);
    for block_len in [48, 64, 96, 97, 161] {
        let [key, iv, block] = [128, 48, block_len].map(|len| random.bytes(len));
        for pair in [encipher(), decipher()] {
            pair.damage_read([&key, &iv], [&block]);
            pair.damage_worked([&key, &iv], [&block], |[undamaged], [damaged]| {
                undamaged[..32] != damaged[..32] && undamaged[32..] != damaged[32..]
            });
        }
    }
}

#[test]
fn refusals_are_the_documents() {
    let mut random = Random::new(45);
    for pair in [encipher(), decipher()] {
        for (key_len, iv_len, block_len, number) in [
            (128, 48, 32, 4),
            (128, 48, 33, 0),
            (128, 48, 96, 0),
            (128, 48, 97, 0),
            (128, 48, LONGEST_BLOCK, 0),
            (128, 48, LONGEST_BLOCK + 1, 4),
            (127, 48, 96, 1),
            (128, 47, 96, 2),
            (127, 47, 32, 1),
            (129, 48, LONGEST_BLOCK + 1, 1),
            (128, 49, 32, 2),
            (128, 47, LONGEST_BLOCK + 1, 2),
        ] {
            pair.answer(number, &mut random, [key_len, iv_len], [block_len]);
        }
    }
    // A slice of nothing lies nowhere.
    for one_way in [
        vespruldo::slices::lioness_encipher,
        vespruldo::slices::lioness_decipher,
    ] {
        assert_eq!(number(one_way(&[0; 128], &[0; 48], &mut [])), 4);
    }
}

#[test]
fn long_buffers_agree_and_nothing_else_changes() {
    let mut random = Random::new(46);
    for pair in [encipher(), decipher()] {
        for block_len in [LONGEST_BLOCK, LONGEST_BLOCK + 1] {
            for read_lens in [[128, 48], [128, 49], [127, 48], [129, 47]] {
                pair.compare(&mut random, read_lens, [block_len]);
            }
        }
        // Lengths that are allowed to whoever keeps only their low bits.
        for more in [1 << 8, 1 << 16, 1 << 24] {
            for (read_lens, block_len) in [
                ([more + 128, 48], 97),
                ([128, more + 48], 97),
                ([more + 128, more + 48], LONGEST_BLOCK + 1),
            ] {
                pair.compare(&mut random, read_lens, [block_len]);
            }
        }
        pair.compare(&mut random, [128, 48], [(1 << 24) + 97]);
    }
}

#[test]
#[cfg(target_pointer_width = "64")]
fn lengths_of_2_to_the_32_and_more_are_refused() {
    for pair in [encipher(), decipher()] {
        pair.refuse_huge([128, 48], [97]);
    }
}
