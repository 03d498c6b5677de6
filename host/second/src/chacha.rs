//! ChaCha20 as a key stream (RFC 7539, section 2).

use crate::square::COLUMNS_THEN_DIAGONALS;
use crate::LONGEST_TEXT;

/// The sixteen 32-bit words that a block is made from.
type State = [u32; 16];

/// Twenty rounds, column rounds and diagonal rounds in turn (RFC 7539, section
/// 2.3), are ten pairs of them.
const DOUBLE_ROUNDS: usize = 10;

/// The quarter round on four numbers (RFC 7539, section 2.1). "Inside ChaCha20
/// addition is modulo 2^32" (document 01, LIONESS).
fn quarter_round([a, b, c, d]: [u32; 4]) -> [u32; 4] {
    let a = a.wrapping_add(b);
    let d = (d ^ a).rotate_left(16);
    let c = c.wrapping_add(d);
    let b = (b ^ c).rotate_left(12);
    let a = a.wrapping_add(b);
    let d = (d ^ a).rotate_left(8);
    let c = c.wrapping_add(d);
    let b = (b ^ c).rotate_left(7);
    [a, b, c, d]
}

/// QUARTERROUND(x, y, z, w): the quarter round on the four words of `state`
/// that `places` names (RFC 7539, section 2.2).
fn quarter_round_on(state: &mut State, places: [usize; 4]) {
    let words = quarter_round(places.map(|place| state[place]));
    for (place, word) in places.into_iter().zip(words) {
        state[place] = word;
    }
}

/// The state before the rounds: constants, key, block counter and nonce, all
/// read as little-endian words (RFC 7539, section 2.3). The four constants
/// are the bytes of "expand 32-byte k" read in the same way.
fn start_state(key: &[u8; 32], nonce: &[u8; 12], counter: u32) -> State {
    let bytes = [&b"expand 32-byte k"[..], key, &counter.to_le_bytes(), nonce].concat();
    std::array::from_fn(|n| {
        u32::from_le_bytes([
            bytes[4 * n],
            bytes[4 * n + 1],
            bytes[4 * n + 2],
            bytes[4 * n + 3],
        ])
    })
}

/// One block of the key stream (RFC 7539, section 2.3): the state after the
/// rounds plus the state before them, written as little-endian words.
fn block(key: &[u8; 32], nonce: &[u8; 12], counter: u32) -> Vec<u8> {
    let start = start_state(key, nonce, counter);
    let mut state = start;
    for _ in 0..DOUBLE_ROUNDS {
        for places in COLUMNS_THEN_DIAGONALS {
            quarter_round_on(&mut state, places);
        }
    }
    (0..16)
        .flat_map(|n| state[n].wrapping_add(start[n]).to_le_bytes())
        .collect()
}

/// Counters are below this, and a stream may stop here: "start plus blocks used,
/// which may be 2^32" (document 02, K2).
const END: u64 = 1 << 32;

/// What the key stream answers: document 01's number, and where it stopped,
/// "start plus blocks used", or the start where it was refused (document 02,
/// K2).
#[derive(Clone, Copy, Debug, PartialEq, Eq)]
pub struct Streamed {
    pub number: u32,
    pub next: u64,
}

/// Adds the key stream to `text` where it lies, by exclusive or, with block
/// counters from `start` on (RFC 7539, section 2.4). The number answered is
/// document 01's: 0 done, 1 key has a wrong length, 2 nonce has a wrong length,
/// 4 text too long, 8 "start counter plus blocks needed exceeds 2^32". The text
/// is unchanged unless the number is 0.
pub fn stream(key: &[u8], nonce: &[u8], start: u64, text: &mut [u8]) -> Streamed {
    // "A refusal answers the start."
    let refused = |number| Streamed {
        number,
        next: start,
    };
    let Ok(key) = <&[u8; 32]>::try_from(key) else {
        return refused(1);
    };
    let Ok(nonce) = <&[u8; 12]>::try_from(nonce) else {
        return refused(2);
    };
    if text.len() > LONGEST_TEXT {
        return refused(4);
    }
    // A block of which only the front is needed is used too.
    let blocks = text.len().div_ceil(64) as u64;
    // "Above 2^32 every text is" refused, and a start near 2^64 has no sum with
    // the blocks in 64 bits, so the start is judged by itself first.
    if start > END || blocks > END - start {
        return refused(8);
    }
    let next = start + blocks;
    for (counter, part) in (start..next).zip(text.chunks_mut(64)) {
        let counter = u32::try_from(counter).expect("a counter is below 2^32");
        for (byte, added) in part.iter_mut().zip(block(key, nonce, counter)) {
            *byte ^= added;
        }
    }
    Streamed { number: 0, next }
}

#[cfg(test)]
mod tests {
    use super::*;
    use crate::cases::chacha::PUBLISHED;
    use crate::random::Random;

    /// The key of the examples in RFC 7539, sections 2.3.2 and 2.4.2.
    fn example_key() -> [u8; 32] {
        std::array::from_fn(|n| n as u8)
    }

    #[test]
    fn rfc_7539_section_2_1_1_quarter_round() {
        assert_eq!(
            quarter_round([0x11111111, 0x01020304, 0x9b8d6f43, 0x01234567]),
            [0xea2a92f4, 0xcb1cf8ce, 0x4581472e, 0x5881c4bb]
        );
    }

    #[test]
    fn rfc_7539_section_2_2_1_quarter_round_on_the_state() {
        let mut state = [
            0x879531e0, 0xc5ecf37d, 0x516461b1, 0xc9a62f8a, 0x44c20ef3, 0x3390af7f, 0xd9fc690b,
            0x2a5f714c, 0x53372767, 0xb00a5631, 0x974c541a, 0x359e9963, 0x5c971061, 0x3d631689,
            0x2098d9d6, 0x91dbd320,
        ];
        quarter_round_on(&mut state, [2, 7, 8, 13]);
        assert_eq!(
            state,
            [
                0x879531e0, 0xc5ecf37d, 0xbdb886dc, 0xc9a62f8a, 0x44c20ef3, 0x3390af7f, 0xd9fc690b,
                0xcfacafd2, 0xe46bea80, 0xb00a5631, 0x974c541a, 0x359e9963, 0x5c971061, 0xccc07c79,
                0x2098d9d6, 0x91dbd320,
            ]
        );
    }

    #[test]
    fn rfc_7539_section_2_3_2_state_before_the_rounds() {
        let nonce = [0, 0, 0, 9, 0, 0, 0, 0x4a, 0, 0, 0, 0];
        assert_eq!(
            start_state(&example_key(), &nonce, 1),
            [
                0x61707865, 0x3320646e, 0x79622d32, 0x6b206574, 0x03020100, 0x07060504, 0x0b0a0908,
                0x0f0e0d0c, 0x13121110, 0x17161514, 0x1b1a1918, 0x1f1e1d1c, 0x00000001, 0x09000000,
                0x4a000000, 0x00000000,
            ]
        );
    }

    /// The answer of a stream that is done and stops here.
    fn done(next: u64) -> Streamed {
        Streamed { number: 0, next }
    }

    #[test]
    fn published_streams_both_ways() {
        for published in PUBLISHED {
            let (key, nonce) = (published.key(), published.nonce());
            let mut text = published.text.to_vec();
            for after in [published.result(), published.text.to_vec()] {
                let answer = stream(&key, &nonce, published.start, &mut text);
                assert_eq!(answer, done(published.next), "{}", published.place);
                assert_eq!(text, after, "{}", published.place);
            }
        }
    }

    #[test]
    fn every_length_gets_the_front_of_one_key_stream() {
        let mut random = Random::new(20);
        let (key, nonce) = (random.bytes(32), random.bytes(12));
        let mut whole = vec![0; 300];
        assert_eq!(stream(&key, &nonce, 5, &mut whole), done(10));
        for len in 0..300 {
            let mut part = vec![0; len];
            assert_eq!(stream(&key, &nonce, 5, &mut part).number, 0);
            assert_eq!(part, whole[..len]);
        }
        // A later start leaves out the blocks before it.
        let mut later = vec![0; 300 - 128];
        assert_eq!(stream(&key, &nonce, 7, &mut later), done(10));
        assert_eq!(later, whole[128..]);
    }

    /// Expects this answer, and an unchanged text unless its number is 0.
    fn expect(answer: Streamed, key_len: usize, nonce_len: usize, start: u64, text_len: usize) {
        let mut random = Random::new(21);
        let (key, nonce) = (random.bytes(key_len), random.bytes(nonce_len));
        let text = random.bytes(text_len);
        let mut lent = text.clone();
        let case = format!("{key_len}, {nonce_len}, {start:x}, {text_len}");
        assert_eq!(stream(&key, &nonce, start, &mut lent), answer, "{case}");
        let same = answer.number != 0 || text_len == 0;
        assert!((lent == text) == same, "{case}");
    }

    /// Expects that a text of this length is done and stops here.
    fn expect_done(start: u64, text_len: usize, next: u64) {
        expect(done(next), 32, 12, start, text_len);
    }

    /// Expects a refusal, which "answers the start" as it was given.
    fn expect_refused(number: u32, key_len: usize, nonce_len: usize, start: u64, text_len: usize) {
        let next = start;
        let answer = Streamed { number, next };
        expect(answer, key_len, nonce_len, start, text_len);
    }

    #[test]
    fn counter_may_end_at_2_to_the_32_and_not_beyond() {
        expect_done(0xffff_ffff, 0, 0xffff_ffff);
        expect_done(0xffff_ffff, 64, 0x1_0000_0000);
        expect_refused(8, 32, 12, 0xffff_ffff, 65);
        expect_done(0xffff_fffe, 128, 0x1_0000_0000);
        expect_refused(8, 32, 12, 0xffff_fffe, 129);
        // 1,048,576 bytes are 16,384 blocks.
        expect_done(0, LONGEST_TEXT, 16_384);
        expect_done(0xffff_c000, LONGEST_TEXT, 0x1_0000_0000);
        expect_refused(8, 32, 12, 0xffff_c001, LONGEST_TEXT - 63);
        expect_done(0xffff_c001, LONGEST_TEXT - 64, 0x1_0000_0000);
    }

    #[test]
    fn last_blocks_are_those_of_the_last_counters() {
        let (key, nonce) = (example_key(), [7; 12]);
        let last = [0xffff_fffe, 0xffff_ffff].map(|counter| block(&key, &nonce, counter));
        let mut text = [0; 128];
        let answer = stream(&key, &nonce, 0xffff_fffe, &mut text);
        assert_eq!(answer, done(0x1_0000_0000));
        assert_eq!(text[..], last.concat());
    }

    const LENGTHS: [usize; 7] = [0, 1, 63, 64, 65, 128, 129];

    /// Each start, and what a text of each of these lengths gets from there: the
    /// number, and where the stream stopped. "At 2^32 an empty text is done and
    /// any other is refused with 8; above 2^32 every text is, the empty one too"
    /// (document 02, K2).
    #[rustfmt::skip]
    const STARTS: [(u64, [(u32, u64); 7]); 9] = [
        (0, [(0, 0), (0, 1), (0, 1), (0, 1), (0, 2), (0, 2), (0, 3)]),
        (1, [(0, 1), (0, 2), (0, 2), (0, 2), (0, 3), (0, 3), (0, 4)]),
        (4_294_967_294, [
            (0, 4_294_967_294),
            (0, 4_294_967_295), (0, 4_294_967_295), (0, 4_294_967_295),
            (0, 4_294_967_296), (0, 4_294_967_296),
            (8, 4_294_967_294),
        ]),
        (4_294_967_295, [
            (0, 4_294_967_295),
            (0, 4_294_967_296), (0, 4_294_967_296), (0, 4_294_967_296),
            (8, 4_294_967_295), (8, 4_294_967_295), (8, 4_294_967_295),
        ]),
        (4_294_967_296, [
            (0, 4_294_967_296),
            (8, 4_294_967_296), (8, 4_294_967_296), (8, 4_294_967_296),
            (8, 4_294_967_296), (8, 4_294_967_296), (8, 4_294_967_296),
        ]),
        (4_294_967_297, [(8, 4_294_967_297); 7]),
        (4_294_967_298, [(8, 4_294_967_298); 7]),
        (9_223_372_036_854_775_808, [(8, 9_223_372_036_854_775_808); 7]),
        (18_446_744_073_709_551_615, [(8, 18_446_744_073_709_551_615); 7]),
    ];

    #[test]
    fn every_start_and_length_is_answered_as_the_table_says() {
        for (start, answers) in STARTS {
            for (text_len, (number, next)) in LENGTHS.into_iter().zip(answers) {
                expect(Streamed { number, next }, 32, 12, start, text_len);
            }
        }
    }

    #[test]
    fn refusals_come_in_order_and_change_nothing() {
        for len in (0..=64).filter(|&len| len != 32) {
            expect_refused(1, len, 12, 0, 40);
        }
        for len in (0..=64).filter(|&len| len != 12) {
            expect_refused(2, 32, len, 0, 40);
        }
        expect_done(0, 40, 1);
        // Where 8 applies and where it does not.
        for (start, _) in STARTS {
            for text_len in [0, 40, 65, LONGEST_TEXT + 1] {
                expect_refused(1, 31, 12, start, text_len);
                expect_refused(1, 31, 11, start, text_len);
                expect_refused(2, 32, 11, start, text_len);
            }
            expect_refused(4, 32, 12, start, LONGEST_TEXT + 1);
        }
    }

    /// Cuts a text of this length after each number of whole blocks, none and
    /// all too, and expects of the two parts what the whole comes to. Answers
    /// where the second part of the last cut started.
    fn expect_cuts(start: u64, text_len: usize, next: u64) -> u64 {
        let mut random = Random::new(22);
        let [key, nonce, text] = [32, 12, text_len].map(|len| random.bytes(len));
        let mut whole = text.clone();
        assert_eq!(stream(&key, &nonce, start, &mut whole), done(next));
        let mut between = start;
        for cut in (0..=text_len).step_by(64) {
            let mut parts = text.clone();
            let (front, back) = parts.split_at_mut(cut);
            let first = stream(&key, &nonce, start, front);
            let second = stream(&key, &nonce, first.next, back);
            let case = format!("{start:x}, {text_len}, {cut}");
            assert_eq!((first.number, second), (0, done(next)), "{case}");
            assert_eq!(parts, whole, "{case}");
            between = first.next;
        }
        between
    }

    /// "Where one call is done, cutting it after whole 64-byte blocks into two
    /// gives the same" (document 02, K2).
    #[test]
    fn cutting_after_whole_blocks_gives_the_same() {
        assert_eq!(expect_cuts(0, 0, 0), 0);
        assert_eq!(expect_cuts(0, 63, 1), 0);
        assert_eq!(expect_cuts(0, 64, 1), 1);
        assert_eq!(expect_cuts(1, 65, 3), 2);
        assert_eq!(expect_cuts(41, 300, 46), 45);
        assert_eq!(expect_cuts(0xffff, 256, 0x1_0003), 0x1_0003);
        assert_eq!(expect_cuts(0xffff_fffb, 257, 0x1_0000_0000), 0xffff_ffff);
        // The second part of the last cut is empty, and starts at 2^32.
        assert_eq!(expect_cuts(0xffff_fffb, 320, 0x1_0000_0000), 0x1_0000_0000);
        assert_eq!(expect_cuts(0xffff_ffff, 64, 0x1_0000_0000), 0x1_0000_0000);
        assert_eq!(expect_cuts(0x1_0000_0000, 0, 0x1_0000_0000), 0x1_0000_0000);
    }
}
