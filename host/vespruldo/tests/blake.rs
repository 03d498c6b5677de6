//! BLAKE2b of the archive beside the second implementation.

mod common;

use common::pairs::blake2b as digest;
use common::{number, times, up_to, LONGEST_TEXT};
use second::cases::blake::{self_test, PUBLISHED, SELF_TEST};
use second::random::Random;

/// Lengths at the borders of words and blocks.
const TEXT_LENGTHS: [usize; 18] = [
    0, 1, 7, 8, 9, 63, 64, 65, 127, 128, 129, 255, 256, 257, 383, 384, 385, 512,
];

#[test]
fn all_lengths_agree_and_nothing_else_changes() {
    let mut random = Random::new(30);
    for key_len in [0, 1, 31, 32, 33, 43, 44, 45, 63, 64, 65, 66, 128, 129, 200] {
        for text_len in TEXT_LENGTHS {
            for room_len in [0, 1, 2, 7, 8, 9, 31, 32, 33, 63, 64, 65, 66, 127, 128, 129] {
                digest().compare(&mut random, [key_len, text_len], [room_len]);
            }
        }
    }
}

/// Every key and room that is not refused, or just so.
#[test]
fn all_keys_and_rooms_agree_and_nothing_else_changes() {
    let mut random = Random::new(31);
    for key_len in 0..=66 {
        for room_len in 0..=66 {
            let text_len = up_to(&mut random, 300);
            digest().compare(&mut random, [key_len, text_len], [room_len]);
        }
    }
}

fn compare_random_texts(seed: u64) {
    let mut random = Random::new(seed);
    for _ in 0..times(30_000) {
        let key_len = up_to(&mut random, 64);
        let text_len = up_to(&mut random, 700);
        let room_len = 1 + up_to(&mut random, 63);
        digest().compare(&mut random, [key_len, text_len], [room_len]);
    }
}

// Two halves, so that two processors share the work.
#[test]
fn random_texts_agree() {
    compare_random_texts(32);
}

#[test]
fn more_random_texts_agree() {
    compare_random_texts(33);
}

#[test]
fn damaged_inputs_agree_and_change_the_result() {
    let mut random = Random::new(34);
    for (key_len, text_len, room_len) in [
        (0, 129, 64),
        (44, 0, 64),
        (44, 128, 64),
        (64, 100, 20),
        (1, 257, 16),
    ] {
        let [key, text, room] = [key_len, text_len, room_len].map(|len| random.bytes(len));
        digest().damage_read([&key, &text], [&room]);
        // What the room held before is no input.
        digest().damage_worked([&key, &text], [&room], |undamaged, damaged| {
            damaged == undamaged
        });
    }
}

/// Neither a zero byte more, in key or text, nor a longer room gives the same
/// bytes.
#[test]
fn lengths_are_part_of_what_is_hashed() {
    let mut random = Random::new(35);
    for (key_len, text_len) in [(0, 0), (1, 0), (44, 0), (44, 127), (63, 128), (0, 128)] {
        let [key, text] = [random.bytes(key_len), random.bytes(text_len)];
        let [longer_key, longer_text] = [&key, &text].map(|bytes| [&bytes[..], &[0]].concat());
        let digest_of = |key: &[u8], text: &[u8], len: usize| {
            let [digest] = digest().done([key, text], [&vec![0; len]]);
            digest
        };
        let short = digest_of(&key, &text, 32);
        assert_ne!(digest_of(&longer_key, &text, 32), short);
        assert_ne!(digest_of(&key, &longer_text, 32), short);
        assert_ne!(digest_of(&key, &text, 33)[..32], short);
        assert_ne!(digest_of(&key, &text, 64)[..32], short);
    }
}

#[test]
fn refusals_are_the_documents() {
    let mut random = Random::new(36);
    for (key_len, text_len, room_len, number) in [
        (64, 0, 64, 0),
        (65, 0, 64, 1),
        (0, LONGEST_TEXT, 64, 0),
        (64, LONGEST_TEXT, 1, 0),
        (0, LONGEST_TEXT + 1, 64, 4),
        (64, LONGEST_TEXT + 1, 64, 4),
        (0, 0, 0, 6),
        (0, 0, 65, 6),
        (65, LONGEST_TEXT + 1, 0, 1),
        (65, LONGEST_TEXT + 1, 65, 1),
        (65, 0, 65, 1),
        (64, LONGEST_TEXT + 1, 0, 4),
        (0, LONGEST_TEXT + 1, 65, 4),
        (64, LONGEST_TEXT, 65, 6),
    ] {
        digest().answer(number, &mut random, [key_len, text_len], [room_len]);
    }
    // A slice of nothing lies nowhere.
    assert_eq!(number(vespruldo::slices::blake2b(&[], &[], &mut [])), 6);
    let mut of_nothing = [0; 64];
    assert_eq!(
        number(vespruldo::slices::blake2b(&[], &[], &mut of_nothing)),
        0
    );
    assert_eq!(digest().done([&[], &[]], [&[0; 64]]), [of_nothing]);
}

#[test]
fn long_buffers_agree_and_nothing_else_changes() {
    let mut random = Random::new(37);
    for key_len in [0, 44, 64, 65] {
        for text_len in [LONGEST_TEXT - 1, LONGEST_TEXT, LONGEST_TEXT + 1] {
            for room_len in [0, 64, 65] {
                digest().compare(&mut random, [key_len, text_len], [room_len]);
            }
        }
    }
    // Lengths that are allowed to whoever keeps only their low bits.
    for more in [1 << 8, 1 << 16, 1 << 24] {
        for (read_lens, room_len) in [
            ([more, 3], 64),
            ([more + 44, 3], 64),
            ([44, 3], more + 64),
            ([more + 44, LONGEST_TEXT + 1], more + 64),
        ] {
            digest().compare(&mut random, read_lens, [room_len]);
        }
    }
    digest().compare(&mut random, [44, (1 << 24) + 3], [64]);
}

#[test]
#[cfg(target_pointer_width = "64")]
fn lengths_of_2_to_the_32_and_more_are_refused() {
    digest().refuse_huge([44, 3], [64]);
}

#[test]
fn published_digests() {
    for published in PUBLISHED {
        let [digest] = digest().done([&published.key(), published.text], [&[0; 64]]);
        assert_eq!(digest, published.result(), "{}", published.place);
    }
}

#[test]
fn rfc_7693_appendix_e_self_test() {
    let result = self_test(|key, text, room| number(vespruldo::slices::blake2b(key, text, room)));
    assert_eq!(result, SELF_TEST);
}
