//! ChaCha20 of the archive beside the second implementation.

mod common;

use common::pairs::{chacha20 as stream_from, streamed};
use common::{times, up_to, LONGEST_TEXT};
use second::cases::chacha::PUBLISHED;
use second::chacha::{stream, Streamed};
use second::random::Random;
use vespruldo::{slices, KeyStream, Nonce, Refusal, StreamKey, UsedNonce};

/// Counters are below this, and here a stream may stop.
const END: u64 = 1 << 32;

/// The last start from which `blocks` blocks are not refused.
fn last_start(blocks: usize) -> u64 {
    END - blocks as u64
}

/// The answer of a call that is done.
fn done(next: u64) -> Streamed {
    Streamed { number: 0, next }
}

/// The answer of a refusal.
fn refused(number: u32, start: u64) -> Streamed {
    Streamed {
        number,
        next: start,
    }
}

/// Lengths at the borders of words and blocks.
const TEXT_LENGTHS: [usize; 20] = [
    0, 1, 3, 4, 5, 15, 16, 17, 31, 32, 33, 63, 64, 65, 127, 128, 129, 191, 192, 193,
];

/// Starts at which whoever keeps too few bits of the counter, or takes the
/// highest one for a sign, goes wrong within a few blocks.
const STARTS: [u64; 12] = [
    0,
    1,
    0xff,
    0xffff,
    0xff_ffff,
    0x7fff_fffe,
    0x7fff_ffff,
    0x8000_0000,
    0xffff_0000,
    END - 3,
    END - 2,
    END - 1,
];

/// A start that the counter has.
fn any_start(random: &mut Random) -> u64 {
    random.next_u64() >> 32
}

/// A start on either side of 2^32, of 2^63 or of 2^64, behind which it is 0 again,
/// or any of 64 bits.
fn border_start(random: &mut Random) -> u64 {
    let (few, any) = (up_to(random, 24) as u64, random.next_u64());
    match up_to(random, 3) {
        0 => END - 12 + few,
        1 => (1 << 63) - 12 + few,
        2 => few.wrapping_sub(12),
        _ => any,
    }
}

/// A length, often of no bytes or of whole blocks.
fn text_len(random: &mut Random, longest: usize) -> usize {
    let any = up_to(random, longest);
    match up_to(random, 3) {
        0 => 0,
        1 => any - any % 64,
        _ => any,
    }
}

#[test]
fn all_lengths_agree_and_nothing_else_changes() {
    let mut random = Random::new(20);
    for start in STARTS {
        for key_len in [0, 1, 16, 31, 32, 33, 64] {
            for nonce_len in [0, 1, 8, 11, 12, 13, 24] {
                for text_len in TEXT_LENGTHS {
                    stream_from(start).compare(&mut random, [key_len, nonce_len], [text_len]);
                }
            }
        }
    }
    // The one pair of lengths that is not refused, with every short text.
    for text_len in 0..=300 {
        stream_from(any_start(&mut random)).compare(&mut random, [32, 12], [text_len]);
    }
}

fn compare_random_texts(seed: u64) {
    let mut random = Random::new(seed);
    for _ in 0..times(28_000) {
        let text_len = up_to(&mut random, 700);
        stream_from(any_start(&mut random)).compare(&mut random, [32, 12], [text_len]);
    }
    for _ in 0..times(3000) {
        let text_len = text_len(&mut random, 700);
        stream_from(border_start(&mut random)).compare(&mut random, [32, 12], [text_len]);
    }
}

// Two halves, so that two processors share the work.
#[test]
fn random_texts_agree() {
    compare_random_texts(21);
}

#[test]
fn more_random_texts_agree() {
    compare_random_texts(22);
}

/// Starts from which the text ends at, just before or just after the counter's
/// end.
#[test]
fn starts_at_the_counters_end_agree() {
    let mut random = Random::new(23);
    for _ in 0..times(6000) {
        let text_len = 1 + up_to(&mut random, 699);
        let last = last_start(text_len.div_ceil(64));
        stream_from(last).compare(&mut random, [32, 12], [text_len]);
        stream_from(last - 1).compare(&mut random, [32, 12], [text_len]);
        stream_from(last + 1).compare(&mut random, [32, 12], [text_len]);
    }
}

/// Texts at the borders of blocks, and the blocks that each uses.
const TEXTS: [(usize, u64); 7] = [
    (0, 0),
    (1, 1),
    (63, 1),
    (64, 1),
    (65, 2),
    (128, 2),
    (129, 3),
];

/// How many of these texts are done from a start; all others are refused with 8.
const DONE_FROM: [(u64, usize); 9] = [
    (0, 7),
    (1, 7),
    (END - 2, 6),
    (END - 1, 4),
    (END, 1),
    (END + 1, 0),
    (END + 2, 0),
    (1 << 63, 0),
    (u64::MAX, 0),
];

#[test]
fn the_counters_end_is_the_documents() {
    let mut random = Random::new(24);
    for (start, how_many) in DONE_FROM {
        for (place, (text_len, blocks)) in TEXTS.into_iter().enumerate() {
            let answer = if place < how_many {
                done(start + blocks)
            } else {
                refused(8, start)
            };
            stream_from(start).answer(answer, &mut random, [32, 12], [text_len]);
        }
        // A slice of nothing lies nowhere.
        let outcome = slices::chacha20(&[0; 32], &[0; 12], start, &mut []);
        let too_long = (how_many == 0).then_some(Refusal::StreamTooLong);
        assert_eq!(outcome, too_long.map_or(Ok(start), Err));
    }
    let last = last_start(LONGEST_TEXT / 64);
    for (start, text_len, answer) in [
        (last, LONGEST_TEXT, done(END)),
        (last, LONGEST_TEXT - 63, done(END)),
        (last, LONGEST_TEXT - 64, done(END - 1)),
        (last + 1, LONGEST_TEXT, refused(8, last + 1)),
        (0, LONGEST_TEXT, done(16_384)),
    ] {
        stream_from(start).answer(answer, &mut random, [32, 12], [text_len]);
    }
}

/// Every choice of what is refused, with starts that are refused or not by
/// themselves. The bytes of a text that is refused are what they were.
#[test]
fn every_refusal_answers_the_start() {
    let mut text = vec![7; LONGEST_TEXT + 1];
    for choice in 1..16_u32 {
        let is_wrong = |n: u32| choice >> n & 1 == 1;
        let number = 1 << choice.trailing_zeros();
        let key = &[1; 33][..32 + usize::from(is_wrong(0))];
        let nonce = &[2; 12][..12 - usize::from(is_wrong(1))];
        let text_len = if is_wrong(2) { LONGEST_TEXT + 1 } else { 65 };
        let starts = if is_wrong(3) {
            [END - 1, END, END + 1, 1 << 63, u64::MAX]
        } else {
            [0, 1, 0x7fff_ffff, 0x8000_0000, END - 2]
        };
        for start in starts {
            let answer = streamed(key, nonce, start, &mut text[..text_len]);
            assert_eq!(answer, refused(number, start), "choice {choice}");
        }
    }
    assert!(text.iter().all(|&byte| byte == 7));
}

#[test]
fn long_buffers_agree_and_nothing_else_changes() {
    let mut random = Random::new(25);
    let starts = [0, 1, last_start(LONGEST_TEXT / 64), END - 1];
    for start in starts {
        for text_len in [LONGEST_TEXT - 1, LONGEST_TEXT, LONGEST_TEXT + 1] {
            for read_lens in [[32, 12], [32, 11], [31, 12], [33, 13]] {
                stream_from(start).compare(&mut random, read_lens, [text_len]);
            }
        }
    }
    // Lengths that are allowed to whoever keeps only their low bits.
    for more in [1 << 8, 1 << 16, 1 << 24] {
        for (read_lens, text_len) in [
            ([more + 32, 12], 64),
            ([32, more + 12], 64),
            ([more + 32, more + 12], LONGEST_TEXT + 1),
        ] {
            stream_from(0).compare(&mut random, read_lens, [text_len]);
        }
    }
    stream_from(0).compare(&mut random, [32, 12], [(1 << 24) + 64]);
}

#[test]
#[cfg(target_pointer_width = "64")]
fn lengths_of_2_to_the_32_and_more_are_refused() {
    stream_from(1).refuse_huge([32, 12], [64]);
}

#[test]
fn damaged_inputs_agree_and_change_the_result() {
    let mut random = Random::new(26);
    for text_len in [16, 64, 65, 100, 128, 130] {
        let [key, nonce] = [random.bytes(32), random.bytes(12)];
        let text = random.bytes(text_len);
        let pair = stream_from(any_start(&mut random));
        pair.damage_read([&key, &nonce], [&text]);
        // A stream: the damaged bit and no other differs in the result.
        pair.damage_worked([&key, &nonce], [&text], |[undamaged], [damaged]| {
            let differing = undamaged
                .iter()
                .zip(damaged)
                .map(|(a, b)| (a ^ b).count_ones());
            differing.sum::<u32>() == 1
        });
    }
}

#[test]
fn another_start_changes_the_result() {
    let mut random = Random::new(27);
    let [key, nonce, text] = [random.bytes(32), random.bytes(12), random.bytes(64)];
    let start = any_start(&mut random);
    let undamaged = stream_from(start).done([&key, &nonce], [&text]);
    for i in 0..32 {
        let damaged = stream_from(start ^ 1 << i).done([&key, &nonce], [&text]);
        assert_ne!(damaged, undamaged, "bit {i}");
    }
    // No bit of it is lost.
    for i in 32..64 {
        stream_from(start ^ 1 << i).refused(8, [&key, &nonce], [&text]);
    }
}

/// A key, a nonce, a start from which the text is done, often to the counter's
/// end, and the text.
struct Case {
    key: [u8; 32],
    nonce: [u8; 12],
    start: u64,
    text: Vec<u8>,
}

impl Case {
    fn random(random: &mut Random, longest: usize) -> Case {
        let text_len = text_len(random, longest);
        let last = last_start(text_len.div_ceil(64));
        let start = match up_to(random, 3) {
            0 => 0,
            1 => last,
            _ => any_start(random) % (last + 1),
        };
        let mut case = Case {
            key: [0; 32],
            nonce: [0; 12],
            start,
            text: random.bytes(text_len),
        };
        random.fill(&mut case.key);
        random.fill(&mut case.nonce);
        case
    }

    /// What one call of the archive, which must be done, makes of a text from a
    /// start, and where it stops.
    fn call(&self, start: u64, text: &[u8]) -> (Vec<u8>, u64) {
        let mut text = text.to_vec();
        let next = slices::chacha20(&self.key, &self.nonce, start, &mut text);
        (text, next.expect("done"))
    }

    /// What the second implementation makes of the whole text in one call.
    fn seconds(&self) -> (Vec<u8>, u64) {
        let mut text = self.text.clone();
        let answer = stream(&self.key, &self.nonce, self.start, &mut text);
        assert_eq!(answer.number, 0);
        (text, answer.next)
    }

    /// Cuts the text after whole blocks into bursts of up to so many, empty ones
    /// too, and a last part of any length.
    fn bursts(&self, random: &mut Random, most: usize) -> (Vec<Vec<[u8; 64]>>, &[u8]) {
        let mut left = &self.text[..];
        let mut bursts = Vec::new();
        loop {
            let len = 64 * up_to(random, most);
            if len > left.len() {
                return (bursts, left);
            }
            let (burst, rest) = left.split_at(len);
            let blocks = burst.chunks(64).map(|block| block.try_into());
            bursts.push(blocks.collect::<Result<_, _>>().expect("whole blocks"));
            left = rest;
        }
    }
}

#[test]
fn cut_in_two_after_whole_blocks_the_stream_is_the_same() {
    let mut random = Random::new(28);
    for _ in 0..times(4000) {
        let case = Case::random(&mut random, 700);
        let whole = case.seconds();
        assert_eq!(case.call(case.start, &case.text), whole);
        for blocks in 0..=case.text.len() / 64 {
            let (first, second) = case.text.split_at(64 * blocks);
            let (first, next) = case.call(case.start, first);
            let (second, next) = case.call(next, second);
            let both = ([first, second].concat(), next);
            assert_eq!(both, whole, "{} {blocks}", case.start);
        }
    }
}

/// Each burst starts where the one before stopped.
#[test]
fn in_bursts_the_stream_is_the_same() {
    let mut random = Random::new(30);
    for _ in 0..times(10_000) {
        let case = Case::random(&mut random, 2000);
        let most = 1 + up_to(&mut random, 7);
        let (bursts, last) = case.bursts(&mut random, most);
        let (mut text, mut next) = (Vec::new(), case.start);
        for burst in &bursts {
            let (added, stopped) = case.call(next, burst.as_flattened());
            text.extend(added);
            next = stopped;
        }
        let (added, next) = case.call(next, last);
        text.extend(added);
        assert_eq!((text, next), case.seconds(), "{}", case.start);
    }
}

/// What a key stream makes of the text in bursts of up to so many blocks. Now and
/// then it is dropped, and another goes on from what was known of it.
fn key_stream_over(random: &mut Random, case: &Case, most: usize) -> Vec<u8> {
    let key = StreamKey::from(case.key);
    let (mut stream, nonce) = KeyStream::start(&key, Nonce::never_used(case.nonce));
    if case.start != 0 {
        stream = KeyStream::again(&key, &nonce, case.start);
    }
    let (bursts, last) = case.bursts(random, most);
    let mut text = Vec::new();
    for mut burst in bursts {
        stream.add(&mut burst).expect("done");
        text.extend(burst.as_flattened());
        let used = text.len() as u64 / 64;
        assert_eq!(stream.next_block(), case.start + used);
        if up_to(random, 3) == 0 {
            stream = KeyStream::again(&key, &stream.nonce(), stream.next_block());
        }
    }
    let mut last = last.to_vec();
    let stopped = stream.finish(&mut last).expect("done");
    text.extend(last);
    assert_eq!(stopped, case.start + text.len().div_ceil(64) as u64);
    text
}

#[test]
fn a_key_stream_in_bursts_is_the_same() {
    let mut random = Random::new(31);
    for _ in 0..times(10_000) {
        let case = Case::random(&mut random, 2000);
        let most = 1 + up_to(&mut random, 7);
        let added = key_stream_over(&mut random, &case, most);
        assert_eq!(added, case.seconds().0, "{}", case.start);
    }
}

/// A burst with a block too many is refused and changes nothing; without that
/// block it is done, and the stream stops at the counter's end.
#[test]
fn a_key_stream_goes_on_after_a_refusal() {
    for blocks in 0..=20 {
        let case = Case {
            key: [1; 32],
            nonce: [2; 12],
            start: last_start(blocks),
            text: vec![7; 64 * blocks],
        };
        let key = StreamKey::from(case.key);
        let mut stream = KeyStream::again(&key, &UsedNonce::from(case.nonce), case.start);
        let mut burst = vec![[7; 64]; blocks + 1];
        assert_eq!(stream.add(&mut burst), Err(Refusal::StreamTooLong));
        assert_eq!(burst, vec![[7; 64]; blocks + 1]);
        assert_eq!(stream.next_block(), case.start);

        assert_eq!(stream.add(&mut burst[..blocks]), Ok(()));
        let added = burst[..blocks].concat();
        assert_eq!((added, stream.next_block()), case.seconds());
        assert_eq!(burst[blocks], [7; 64]);
    }
}

#[test]
fn done_twice_the_text_comes_back() {
    let mut random = Random::new(29);
    for text_len in 0..=300 {
        let [key, nonce, text] = [random.bytes(32), random.bytes(12), random.bytes(text_len)];
        let pair = stream_from(any_start(&mut random) % last_start(5));
        let [once] = pair.done([&key, &nonce], [&text]);
        assert_eq!(pair.done([&key, &nonce], [&once]), [text]);
    }
}

#[test]
fn published_streams_both_ways() {
    for published in PUBLISHED {
        let [key, nonce, result] = [published.key(), published.nonce(), published.result()];
        let pair = stream_from(published.start);
        let there = pair.done([&key, &nonce], [published.text]);
        assert_eq!(there, [&result[..]], "{}", published.place);
        let back = pair.done([&key, &nonce], [&result]);
        assert_eq!(back, [published.text], "{}", published.place);
    }
}
