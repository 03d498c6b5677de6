//! The reader of lesson packs of the archive beside the second implementation.

mod common;

use common::packs::{
    compare_judges, compare_next, compare_walks, no_card, raw_judge, raw_next, Lesson, Placed,
};
use common::{emulated, times, up_to, Guarded};
use second::pack::{Answer, Judged};
use second::random::Random;
use vespruldo::sizes::PACK_MAX;
use vespruldo::{slices, Pack};

/// The document's own: one word, no song.
const CAT: &[u8] = &[0x01, 0x03, 0x63, 0x61, 0x74, 0x00, 0x01, 0x00];

/// Two words, a song, and the shuffle.
const TWO: &[u8] = b"\x02\x02ox\x01I\x01\x03\0la-\x02\x01\0";

/// Three words, and the shuffle.
const THREE: &[u8] = b"\x03\x01a\x02no\x01I\0\x03\x01\x02\0";

const LONGEST_WORD: usize = 40;
const LONGEST_SONG: usize = 16_384;

/// Both walk a copy of the pack with guards. Nothing there changes.
fn compare(pack: &[u8]) -> Judged {
    let mut lent = Guarded::around(pack);
    let before = lent.clone();
    let judged = compare_walks(lent.lent());
    assert!(lent == before, "the pack, or its guards");
    judged
}

fn judged(number: u32, cards: usize) -> Judged {
    Judged {
        number,
        cards,
        bad: 0,
    }
}

fn bad_shuffle(cards: usize, bad: usize) -> Judged {
    Judged {
        number: 14,
        cards,
        bad,
    }
}

/// What is said of a pack with these cards that is cut to so many bytes.
fn cut(cards: &[Placed], len: usize) -> Judged {
    let whole = cards.iter().filter(|(_, bytes)| bytes.end <= len);
    judged(12, whole.count())
}

/// The answer that gives this card at its place.
fn given(place: usize, (kind, bytes): &Placed) -> Answer {
    Answer {
        number: 0,
        kind: *kind,
        start: bytes.start,
        length: bytes.len(),
        bad: 0,
        next: place + 1,
    }
}

/// The pack gives these cards, and then is done.
fn gives(pack: &[u8], cards: &[Placed]) {
    assert_eq!(compare(pack), judged(0, cards.len()));
    for (place, card) in cards.iter().enumerate() {
        assert_eq!(raw_next(pack, place), given(place, card), "{pack:?}");
    }
}

/// All that stands before the shuffle's count in a pack with this many words and
/// no song.
fn words(random: &mut Random, count: usize) -> Vec<u8> {
    let lens: Vec<usize> = (0..count).map(|n| 1 + n % 3).collect();
    let mut pack = Lesson::new(random, &lens, None).pack();
    pack.truncate(pack.len() - count - 1);
    pack
}

/// Places to ask for: all that a walk comes to, a few more, those that are small to
/// whoever keeps only their low bits, and the last ones, whose next is none.
fn places() -> impl Iterator<Item = usize> {
    let powers = [8, 16, 31, 32, 63].map(|power| 1 << power);
    let far = powers.into_iter().flat_map(|power| power..power + 4);
    (0..=20).chain(far).chain(usize::MAX - 2..=usize::MAX)
}

/// Each place behind the cards that are given answers the end, and keeps itself.
fn compare_places(pack: &[u8]) {
    let Judged { number, cards, bad } = compare(pack);
    for place in places() {
        let answer = compare_next(pack, place);
        if place < cards {
            assert_eq!((answer.number, answer.next), (0, place + 1), "{pack:?}");
        } else {
            assert_eq!(answer, no_card(number, bad, place), "{pack:?}");
        }
    }
}

#[test]
fn the_documents_pack_has_one_word_and_the_shuffle() {
    gives(CAT, &[(1, 2..5), (3, 7..8)]);
}

#[test]
fn packs_written_by_hand_give_their_cards() {
    gives(TWO, &[(1, 2..4), (1, 5..6), (2, 9..12), (3, 13..15)]);
    gives(THREE, &[(1, 2..3), (1, 4..6), (1, 7..8), (3, 10..13)]);
}

#[test]
fn random_packs_agree() {
    let mut random = Random::new(240);
    for _ in 0..times(20_000) {
        let (pack, cards) = Lesson::random(&mut random).laid_out();
        gives(&pack, &cards);
    }
}

#[test]
fn random_damaged_packs_agree() {
    let mut random = Random::new(241);
    let mut numbers = [0; 16];
    for _ in 0..times(60_000) {
        let pack = Lesson::random(&mut random).damaged(&mut random);
        numbers[compare(&pack).number as usize] += 1;
    }
    // Each refusal came often, and so did packs that are right after all.
    for number in [0, 12, 13, 14, 15] {
        assert!(numbers[number] > times(3_000), "{number}: {numbers:?}");
    }
}

/// Bytes that nobody laid out, of which the first are often counts and lengths
/// that are allowed.
#[test]
fn random_bytes_agree() {
    let mut random = Random::new(242);
    for _ in 0..times(60_000) {
        let most = random.pick(&[1, 2, 3, 13, 255]);
        let len = up_to(&mut random, 30);
        let pack: Vec<u8> = (0..len).map(|_| up_to(&mut random, most) as u8).collect();
        compare(&pack);
    }
}

#[test]
fn every_byte_of_a_pack_at_every_value_agrees() {
    for pack in [CAT, TWO, THREE] {
        let mut lent = Guarded::around(pack);
        for (place, &byte) in pack.iter().enumerate() {
            for value in 0..=u8::MAX {
                lent.lent()[place] = value;
                compare_walks(lent.lent());
            }
            lent.lent()[place] = byte;
        }
        assert!(lent == Guarded::around(pack), "the pack, or its guards");
    }
}

/// What is cut off is missing, whatever the bytes are that are left: the cards
/// that are whole are given.
#[test]
fn every_cut_is_seen() {
    let mut random = Random::new(243);
    let mut lessons = vec![Lesson::new(&mut random, &[1], Some(1))];
    lessons.extend((0..times(200)).map(|_| Lesson::random(&mut random)));
    for lesson in lessons {
        let (pack, cards) = lesson.laid_out();
        for len in 0..pack.len() {
            assert_eq!(compare(&pack[..len]), cut(&cards, len), "{pack:?}, {len}");
        }
    }
}

#[test]
fn bytes_behind_the_shuffle_are_left_over() {
    let mut random = Random::new(244);
    for pack in [CAT, TWO, THREE] {
        let cards = compare(pack).cards;
        for more in [1, 2, 8, 255, 256, 65_536] {
            let longer = [pack, &random.bytes(more)].concat();
            assert_eq!(compare(&longer), judged(15, cards));
        }
        // A second pack is left over too.
        assert_eq!(compare(&[pack, pack].concat()), judged(15, cards));
    }
}

#[test]
fn every_place_has_its_answer() {
    let mut random = Random::new(245);
    let most_cards = Lesson::new(&mut random, &[1; 12], Some(1)).pack();
    for pack in [CAT, TWO, THREE, &most_cards] {
        compare_places(pack);
        compare_places(&[pack, &[0]].concat());
        for len in 0..pack.len() {
            compare_places(&pack[..len]);
        }
    }
    for _ in 0..times(2_000) {
        compare_places(&Lesson::random(&mut random).damaged(&mut random));
    }
}

/// Also where the count stands alone: it is wholly there.
#[test]
fn every_count_of_words_is_judged() {
    let mut random = Random::new(246);
    for count in 0..=u8::MAX {
        let words = usize::from(count);
        let allowed = (1..=12).contains(&words);
        let pack = Lesson::new(&mut random, &vec![1; words], None).pack();
        let [whole, alone] = if allowed {
            [judged(0, words + 1), judged(12, 0)]
        } else {
            [judged(13, 0), judged(13, 0)]
        };
        assert_eq!(compare(&pack), whole, "{count}");
        assert_eq!(compare(&pack[..1]), alone, "{count}");
    }
}

/// How many bytes to put behind a length: none, too few by one, just enough, and
/// one more.
fn behind(len: usize) -> [usize; 4] {
    [0, len.saturating_sub(1), len, len + 1]
}

/// A length that is not allowed is cut short all the same, where fewer bytes
/// follow than it says.
#[test]
fn every_length_of_a_word_is_judged() {
    for before in [0, 3, 11] {
        let words = [&[before as u8 + 1][..], &b"\x02ox".repeat(before)].concat();
        for len in 0..=usize::from(u8::MAX) {
            for rest in behind(len) {
                // One more is a count of 255 songs.
                let pack = [&words[..], &[len as u8], &vec![255; rest]].concat();
                let expected = match len {
                    _ if rest < len => judged(12, before),
                    0 | 41.. => judged(13, before),
                    _ if rest == len => judged(12, before + 1),
                    _ => judged(13, before + 1),
                };
                assert_eq!(compare(&pack), expected, "{len} with {rest} after {before}");
            }
        }
    }
}

#[test]
fn every_count_of_songs_is_judged() {
    let mut random = Random::new(247);
    for count in 0..=u8::MAX {
        let mut pack = words(&mut random, 4);
        *pack.last_mut().expect("the count") = count;
        let number = if count > 1 { 13 } else { 12 };
        assert_eq!(compare(&pack), judged(number, 4), "{count}");
    }
}

/// At both ends of what is allowed, and where the two bytes could be exchanged.
#[test]
fn lengths_of_a_song_are_judged() {
    let mut random = Random::new(248);
    let mut pack = words(&mut random, 2);
    *pack.last_mut().expect("the count") = 1;
    for byte in 0..=u8::MAX {
        let half = [&pack[..], &[byte]].concat();
        assert_eq!(compare(&half), judged(12, 2), "{byte}");
    }
    let few = [0, 1, 2, 64, 255, 256, 257, 320];
    let many = [16_383, 16_384, 16_385, 16_640, 32_768, 65_535];
    for len in few.into_iter().chain(many) {
        for rest in behind(len) {
            // One more is a shuffle of no entries.
            let length = (len as u16).to_le_bytes();
            let pack = [&pack[..], &length, &vec![0; rest]].concat();
            let expected = match len {
                _ if rest < len => judged(12, 2),
                0 | 16_385.. => judged(13, 2),
                _ if rest == len => judged(12, 3),
                _ => judged(13, 3),
            };
            assert_eq!(compare(&pack), expected, "{len} with {rest}");
        }
    }
}

#[test]
fn every_count_of_entries_is_judged() {
    let mut random = Random::new(249);
    for count in [1, 4, 12] {
        let words = words(&mut random, count);
        for len in 0..=usize::from(u8::MAX) {
            for rest in behind(len) {
                let entries: Vec<u8> = (0..rest).map(|entry| entry as u8).collect();
                let pack = [&words[..], &[len as u8], &entries].concat();
                let expected = match len {
                    _ if rest < len => judged(12, count),
                    _ if len != count => judged(13, count),
                    _ if rest == len => judged(0, count + 1),
                    _ => judged(15, count + 1),
                };
                assert_eq!(compare(&pack), expected, "{len} with {rest} of {count}");
            }
        }
    }
}

/// The place of the first entry that repeats an earlier one or is too large.
fn first_bad(entries: &[u8]) -> Option<usize> {
    let is_bad = |place: &usize| {
        let (before, rest) = entries.split_at(*place);
        before.contains(&rest[0]) || usize::from(rest[0]) >= entries.len()
    };
    (0..entries.len()).find(is_bad)
}

/// Both judge a shuffle behind these words, in the pack and as its card.
fn compare_shuffle(words: &[u8], entries: &[u8]) {
    let count = entries.len();
    let pack = [words, &[count as u8], entries].concat();
    let card = (3, pack.len() - count..pack.len());
    let (whole, answer) = match first_bad(entries) {
        None => (judged(0, count + 1), given(count, &card)),
        Some(bad) => (bad_shuffle(count, bad), no_card(14, bad, count)),
    };
    assert_eq!(compare_judges(&pack), whole, "{entries:?}");
    assert_eq!(compare_next(&pack, count), answer, "{entries:?}");
}

#[test]
fn every_shuffle_of_a_few_words_is_judged() {
    let mut random = Random::new(250);
    for count in 1..=5 {
        let words = words(&mut random, count);
        for choice in 0..6_usize.pow(count as u32) {
            let entry = |n| (choice / 6_usize.pow(n) % 6) as u8;
            let entries: Vec<u8> = (0..count as u32).map(entry).collect();
            compare_shuffle(&words, &entries);
        }
    }
}

/// Each entry at every value, alone and as the last one too: of several that are
/// bad the first is told.
#[test]
fn every_entry_of_long_shuffles_is_judged() {
    let mut random = Random::new(251);
    for count in [6, 12] {
        let words = words(&mut random, count);
        let shuffle = Lesson::new(&mut random, &vec![1; count], None).shuffle;
        for place in 0..count {
            for value in 0..=u8::MAX {
                let mut entries = shuffle.clone();
                entries[place] = value;
                compare_shuffle(&words, &entries);
                entries[count - 1] = value;
                compare_shuffle(&words, &entries);
            }
        }
    }
}

#[test]
fn largest_pack_is_read_to_its_end() {
    let mut random = Random::new(252);
    let largest = Lesson::new(&mut random, &[LONGEST_WORD; 12], Some(LONGEST_SONG));
    let (pack, cards) = largest.laid_out();
    assert_eq!((pack.len(), cards.len()), (PACK_MAX, 14));
    gives(&pack, &cards);
    compare_places(&pack);
    assert_eq!(compare(&[&pack[..], &[0]].concat()), judged(15, 14));
    let step = if emulated() { 97 } else { 7 };
    for len in (0..pack.len()).step_by(step).chain([pack.len() - 1]) {
        assert_eq!(compare(&pack[..len]), cut(&cards, len), "{len}");
    }
    // The last entry is the first one again.
    let mut bad = largest.clone();
    bad.shuffle[11] = bad.shuffle[0];
    assert_eq!(compare(&bad.pack()), bad_shuffle(13, 11));
}

#[test]
fn a_byte_or_a_word_more_than_the_most_is_refused() {
    let mut random = Random::new(253);
    let largest = Lesson::new(&mut random, &[LONGEST_WORD; 12], Some(LONGEST_SONG));
    for place in 0..12 {
        let mut longer = largest.clone();
        longer.words[place].push(0);
        assert_eq!(compare(&longer.pack()), judged(13, place));
    }
    let mut longer = largest.clone();
    longer.song.as_mut().expect("a song").push(0);
    assert_eq!(compare(&longer.pack()), judged(13, 12));
    let mut more = largest.clone();
    more.words.push(vec![0]);
    more.shuffle.push(12);
    assert_eq!(compare(&more.pack()), judged(13, 0));
}

/// Neither a pack nor its guards change by one call alone; a second one might
/// undo what the first wrote.
#[test]
fn packs_are_only_read() {
    let mut bad = TWO.to_vec();
    bad[14] = 1;
    for pack in [CAT, TWO, THREE, &bad, &TWO[..11], b"", b"\x0d"] {
        let mut lent = Guarded::around(pack);
        let before = lent.clone();
        for place in (0..6).chain([usize::MAX]) {
            raw_next(lent.lent(), place);
            assert!(lent == before, "the archive, place {place}");
            let _ = slices::pack_next(lent.lent(), place);
            assert!(lent == before, "the safe function, place {place}");
        }
        raw_judge(lent.lent());
        assert!(lent == before, "the archive judges");
        let _ = Pack::new(lent.lent()).judge();
        assert!(lent == before, "the safe function judges");
    }
}

/// Lengths whose low 32 bits are those of a whole pack. Hardly any of the memory
/// is ever touched, so the system need not provide it.
#[test]
#[cfg(target_pointer_width = "64")]
fn lengths_of_2_to_the_32_and_more_are_left_over() {
    for pack in [CAT, TWO] {
        let mut huge = vec![0; (1 << 32) + pack.len()];
        huge[..pack.len()].copy_from_slice(pack);
        let Judged { number, cards, .. } = raw_judge(pack);
        assert_eq!(number, 0);
        assert_eq!(raw_judge(&huge), judged(15, cards));
        for place in 0..cards {
            assert_eq!(raw_next(&huge, place), raw_next(pack, place));
        }
        assert_eq!(raw_next(&huge, cards), no_card(15, 0, cards));
    }
}
