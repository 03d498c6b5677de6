//! LIONESS of the archive and of the second implementation beside the same
//! construction over libsodium's ChaCha20 and libb2's BLAKE2b.

use outside::{b2, sodium};
use second::lioness::{self, decipher_over, encipher_over};
use second::random::Random;
use vespruldo::Refusal;

fn stream(key: &[u8; 32], nonce: &[u8; 12], text: &mut [u8]) {
    sodium::chacha20(key, nonce, 0, text);
}

fn hash(key: &[u8], text: &[u8]) -> [u8; 64] {
    let mut digest = [0; 64];
    b2::blake2b(key, text, &mut digest);
    digest
}

type Work<Answer> = fn(&[u8], &[u8], &mut [u8]) -> Answer;

/// One direction: the archive's, the second implementation's, and that over the
/// libraries.
struct Direction {
    name: &'static str,
    ours: Work<Result<(), Refusal>>,
    seconds: Work<u32>,
    rebuilt: Work<u32>,
}

const DIRECTIONS: [Direction; 2] = [
    Direction {
        name: "encipher",
        ours: vespruldo::slices::lioness_encipher,
        seconds: lioness::encipher,
        rebuilt: |key, iv, block| encipher_over(stream, hash, key, iv, block),
    },
    Direction {
        name: "decipher",
        ours: vespruldo::slices::lioness_decipher,
        seconds: lioness::decipher,
        rebuilt: |key, iv, block| decipher_over(stream, hash, key, iv, block),
    },
];

/// All on one random-looking key, iv and block, both ways.
fn compare(random: &mut Random, block_len: usize) {
    let [key, iv, block] = [128, 48, block_len].map(|len| random.bytes(len));
    for direction in DIRECTIONS {
        let [mut ours, mut seconds, mut rebuilt] = [(); 3].map(|()| block.clone());
        assert_eq!((direction.ours)(&key, &iv, &mut ours), Ok(()));
        assert_eq!((direction.seconds)(&key, &iv, &mut seconds), 0);
        assert_eq!((direction.rebuilt)(&key, &iv, &mut rebuilt), 0);
        // Not `assert_eq`, which would print buffers of a megabyte.
        let case = format!("{}, block {block_len}", direction.name);
        assert!(ours == rebuilt, "the archive: {case}");
        assert!(seconds == rebuilt, "the second implementation: {case}");
    }
}

#[test]
fn every_short_block_length() {
    let mut random = Random::new(56);
    for block_len in 33..=400 {
        for _ in 0..10 {
            compare(&mut random, block_len);
        }
    }
}

#[test]
fn long_blocks() {
    let mut random = Random::new(57);
    for block_len in [4096, 4097, 65_568, 1_048_576, 1_048_607, 1_048_608] {
        compare(&mut random, block_len);
    }
}
