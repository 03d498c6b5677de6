//! ChaCha20 of the archive and of the second implementation beside libsodium
//! and OpenSSL.

use outside::{openssl, sodium};
use second::chacha::{stream, Streamed};
use second::random::Random;

/// All four on one random-looking key, nonce and text, and where the two that
/// tell it stopped.
fn compare(random: &mut Random, start: u32, text_len: usize) {
    let mut key = [0; 32];
    let mut nonce = [0; 12];
    random.fill(&mut key);
    random.fill(&mut nonce);
    let text = random.bytes(text_len);

    let [mut ours, mut seconds, mut sodiums, mut openssls] = [(); 4].map(|()| text.clone());
    let next = u64::from(start) + text_len.div_ceil(64) as u64;
    let stopped = vespruldo::slices::chacha20(&key, &nonce, start.into(), &mut ours);
    assert_eq!(stopped, Ok(next));
    let answer = stream(&key, &nonce, start.into(), &mut seconds);
    assert_eq!(answer, Streamed { number: 0, next });
    sodium::chacha20(&key, &nonce, start, &mut sodiums);
    openssl::chacha20(&key, &nonce, start, &mut openssls);

    // Not `assert_eq`, which would print buffers of a megabyte.
    let case = format!("start {start:#x}, text {text_len}");
    assert!(sodiums == openssls, "libsodium and OpenSSL: {case}");
    assert!(ours == sodiums, "the archive: {case}");
    assert!(seconds == sodiums, "the second implementation: {case}");
}

#[test]
fn all_lengths_from_random_starts() {
    let mut random = Random::new(50);
    for text_len in 0..=400 {
        for _ in 0..20 {
            // Seven blocks at most, so that the counter does not run out.
            let start = random.next_u64() as u32 % (u32::MAX - 7);
            compare(&mut random, start, text_len);
        }
    }
}

#[test]
fn starts_at_the_counters_borders() {
    let mut random = Random::new(51);
    for text_len in 1..=400_usize {
        // The last start that is not refused, and those before it.
        let last = u32::MAX - (text_len.div_ceil(64) as u32 - 1);
        for before in 0..8 {
            compare(&mut random, last - before, text_len);
        }
        for start in [0, 1, 0xfd, 0xfffd, 0xff_fffd, 0x7fff_fffd, 0x8000_0000] {
            compare(&mut random, start, text_len);
        }
    }
    compare(&mut random, u32::MAX, 0);
}

#[test]
fn long_texts() {
    let mut random = Random::new(52);
    for text_len in [4096, 4097, 65_535, 1_000_001, 1_048_575, 1_048_576] {
        for start in [0, 1, 0x7fff_e000, 0xffff_c000] {
            compare(&mut random, start, text_len);
        }
    }
}
