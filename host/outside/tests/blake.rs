//! BLAKE2b of the archive and of the second implementation beside libb2 and
//! libsodium.

use outside::{b2, sodium};
use second::random::Random;

/// All on one random-looking key and text; libsodium where it takes the
/// lengths.
fn compare(random: &mut Random, key_len: usize, text_len: usize, room_len: usize) {
    let [key, text, room] = [key_len, text_len, room_len].map(|len| random.bytes(len));
    let [mut ours, mut seconds, mut b2s, mut sodiums] = [(); 4].map(|()| room.clone());
    let case = format!("key {key_len}, text {text_len}, room {room_len}");

    assert_eq!(vespruldo::slices::blake2b(&key, &text, &mut ours), Ok(()));
    assert_eq!(second::blake::digest(&key, &text, &mut seconds), 0);
    b2::blake2b(&key, &text, &mut b2s);
    if sodium::takes(key_len, room_len) {
        sodium::blake2b(&key, &text, &mut sodiums);
        assert_eq!(sodiums, b2s, "libsodium and libb2: {case}");
    }
    assert_eq!(ours, b2s, "the archive: {case}");
    assert_eq!(seconds, b2s, "the second implementation: {case}");
}

#[test]
fn every_key_and_room_length() {
    let mut random = Random::new(53);
    for key_len in 0..=64 {
        for room_len in 1..=64 {
            // No text, whole blocks and pieces of them.
            for text_len in [0, 1, 127, 128, 129, 256, 300] {
                compare(&mut random, key_len, text_len, room_len);
            }
            let text_len = random.next_u64() as usize % 401;
            compare(&mut random, key_len, text_len, room_len);
        }
    }
}

#[test]
fn every_text_length() {
    let mut random = Random::new(54);
    for text_len in 0..=400 {
        // 44 and 64 are LIONESS's lengths.
        for (key_len, room_len) in [(0, 64), (44, 64), (64, 64), (32, 32), (1, 1), (64, 20)] {
            compare(&mut random, key_len, text_len, room_len);
        }
        for _ in 0..20 {
            let key_len = random.next_u64() as usize % 65;
            let room_len = 1 + random.next_u64() as usize % 64;
            compare(&mut random, key_len, text_len, room_len);
        }
    }
}

#[test]
fn long_texts() {
    let mut random = Random::new(55);
    for text_len in [4096, 4097, 65_535, 65_536, 1_000_001, 1_048_575, 1_048_576] {
        for (key_len, room_len) in [(0, 64), (44, 64), (64, 1), (1, 63)] {
            compare(&mut random, key_len, text_len, room_len);
        }
    }
}
