//! The reader of a lesson pack (document 02, K1). Quotations are from there.
//!
//! A pack is a row of items. An item is a count byte, a length with the bytes
//! that it counts, or the shuffle's count with its entries; its place is where
//! it starts. "12 cut short, 13 count or length not allowed, 14 bad shuffle, 15
//! bytes left over; the first met from the left, and 12 before 13 at one place":
//! an item that is not wholly there is 12, whatever it counts.

use std::ops::RangeInclusive;

/// "A byte counts the words, 1 to 12".
const WORDS: RangeInclusive<usize> = 1..=12;

/// "Each is a length byte, 1 to 40, and its bytes."
const WORD_BYTES: RangeInclusive<usize> = 1..=40;

/// "A byte counts the songs, 0 or 1".
const SONGS: RangeInclusive<usize> = 0..=1;

/// "A song is a two-byte little-endian length, 1 to 16,384, and its bytes."
const SONG_BYTES: RangeInclusive<usize> = 1..=16_384;

/// The kinds of cards, by number.
pub const WORD: u32 = 1;
pub const SONG: u32 = 2;
pub const SHUFFLE: u32 = 3;

/// The kind of an answer without a card: done, or a refusal.
pub const NO_CARD: u32 = 0;

/// "A card answers its kind, and start and length of its bytes."
struct Card {
    kind: u32,
    start: usize,
    length: usize,
}

/// What comes after the last card, each time: 0 done, or the number of the
/// refusal. "A bad shuffle also answers the place" of an entry, `bad`; it is 0
/// with every other number.
struct End {
    number: u32,
    bad: usize,
}

const DONE: End = End { number: 0, bad: 0 };
const CUT_SHORT: End = End { number: 12, bad: 0 };
const NOT_ALLOWED: End = End { number: 13, bad: 0 };
const LEFT_OVER: End = End { number: 15, bad: 0 };

fn bad_shuffle(bad: usize) -> End {
    End { number: 14, bad }
}

/// A pack, and the place of the next item in it.
struct Items<'a> {
    pack: &'a [u8],
    place: usize,
}

impl<'a> Items<'a> {
    /// The bytes that no item has taken yet.
    fn rest(&self) -> &'a [u8] {
        &self.pack[self.place..]
    }

    /// Takes this many bytes.
    fn take(&mut self, length: usize) -> Result<&'a [u8], End> {
        let bytes = self.rest().get(..length).ok_or(CUT_SHORT)?;
        self.place += length;
        Ok(bytes)
    }

    /// Takes a number in this many bytes, little-endian.
    fn take_number(&mut self, width: usize) -> Result<usize, End> {
        let bytes = self.take(width)?;
        let number = |high: usize, &low: &u8| 256 * high + usize::from(low);
        Ok(bytes.iter().rev().fold(0, number))
    }

    /// Takes an item that is a count byte.
    fn count(&mut self, allowed: RangeInclusive<usize>) -> Result<usize, End> {
        let count = self.take_number(1)?;
        judge_number(count, allowed)?;
        Ok(count)
    }

    /// Takes an item that is a number in `width` bytes and as many bytes as it
    /// says. It is judged when these are there.
    fn counted(
        &mut self,
        kind: u32,
        width: usize,
        allowed: RangeInclusive<usize>,
    ) -> Result<Card, End> {
        let length = self.take_number(width)?;
        let start = self.place;
        self.take(length)?;
        judge_number(length, allowed)?;
        Ok(Card {
            kind,
            start,
            length,
        })
    }
}

/// "13 count or length not allowed".
fn judge_number(number: usize, allowed: RangeInclusive<usize>) -> Result<(), End> {
    if allowed.contains(&number) {
        Ok(())
    } else {
        Err(NOT_ALLOWED)
    }
}

/// "The place, from 0, of the first entry that repeats an earlier one or is too
/// large"; nothing if the entries are "every word's place from 0 once". There
/// are as many entries as words.
fn bad_entry(entries: &[u8]) -> Option<usize> {
    let is_bad = |&place: &usize| {
        let entry = entries[place];
        entries[..place].contains(&entry) || usize::from(entry) >= entries.len()
    };
    (0..entries.len()).find(is_bad)
}

/// Adds the pack's cards to `cards`, up to the first refusal: "cards are each
/// word, the song if any, then the shuffle as one".
fn add_cards(pack: &[u8], cards: &mut Vec<Card>) -> Result<(), End> {
    let mut items = Items { pack, place: 0 };
    let words = items.count(WORDS)?;
    for _ in 0..words {
        cards.push(items.counted(WORD, 1, WORD_BYTES)?);
    }
    let songs = items.count(SONGS)?;
    for _ in 0..songs {
        cards.push(items.counted(SONG, 2, SONG_BYTES)?);
    }
    // "A byte counts the shuffle's entries, as many as words".
    let shuffle = items.counted(SHUFFLE, 1, words..=words)?;
    let entries = &pack[shuffle.start..][..shuffle.length];
    if let Some(bad) = bad_entry(entries) {
        return Err(bad_shuffle(bad));
    }
    cards.push(shuffle);
    // "After the last card comes done, each time, or 15."
    if items.rest().is_empty() {
        Ok(())
    } else {
        Err(LEFT_OVER)
    }
}

/// All cards that a walk over the pack gives, and what comes after them.
fn walked(pack: &[u8]) -> (Vec<Card>, End) {
    let mut cards = Vec::new();
    let end = match add_cards(pack, &mut cards) {
        Ok(()) => DONE,
        Err(refusal) => refusal,
    };
    (cards, end)
}

/// What a reader answers: the document's number, 0 for a card and for done; the
/// card's kind, and where in the pack its bytes are, all 0 without a card; with
/// 14 the place of the bad entry, else 0; and the reader's place afterwards.
#[derive(Clone, Copy, Debug, PartialEq, Eq)]
pub struct Answer {
    pub number: u32,
    pub kind: u32,
    pub start: usize,
    pub length: usize,
    pub bad: usize,
    pub next: usize,
}

/// Asks "a reader that holds the pack and its place" for the next card. The
/// place is how many cards were given before. "A refusal keeps the reader's
/// place and is given again", and so is done. Places at which no walk arrives
/// get the same answer, and are kept too.
pub fn next(pack: &[u8], place: usize) -> Answer {
    let (cards, end) = walked(pack);
    match cards.get(place) {
        Some(card) => Answer {
            number: 0,
            kind: card.kind,
            start: card.start,
            length: card.length,
            bad: 0,
            next: place + 1,
        },
        None => Answer {
            number: end.number,
            kind: NO_CARD,
            start: 0,
            length: 0,
            bad: end.bad,
            next: place,
        },
    }
}

/// What a walk over a whole pack comes to: 0 if it ends with done, else the
/// number of the refusal; how many cards were given before; and with 14 the
/// place of the bad entry, else 0.
#[derive(Clone, Copy, Debug, PartialEq, Eq)]
pub struct Judged {
    pub number: u32,
    pub cards: usize,
    pub bad: usize,
}

/// Walks the pack to its end.
pub fn judge(pack: &[u8]) -> Judged {
    let (cards, end) = walked(pack);
    Judged {
        number: end.number,
        cards: cards.len(),
        bad: end.bad,
    }
}

#[cfg(test)]
mod tests {
    use super::*;
    use crate::random::Random;

    /// "The bytes 01 03 63 61 74 00 01 00 are a pack with one word, no song."
    const BY_DOCUMENT: [u8; 8] = [0x01, 0x03, 0x63, 0x61, 0x74, 0x00, 0x01, 0x00];

    /// A pack written out by hand: three words, a song, a shuffle.
    #[rustfmt::skip]
    const BY_HAND: [u8; 19] = [
        3,
        1, 10,
        2, 20, 21,
        3, 30, 31, 32,
        1,
        2, 0, 40, 41,
        3, 2, 0, 1,
    ];

    /// The cards of that pack: kind, start and length.
    const ITS_CARDS: [(u32, usize, usize); 5] =
        [(1, 2, 1), (1, 4, 2), (1, 7, 3), (2, 13, 2), (3, 16, 3)];

    /// Expects that the reader gives these cards and then this number and bad
    /// entry, each time and at every place beyond.
    fn expect(pack: &[u8], cards: &[(u32, usize, usize)], number: u32, bad: usize) {
        let shown = &pack[..pack.len().min(60)];
        for (place, &(kind, start, length)) in cards.iter().enumerate() {
            let card = Answer {
                number: 0,
                kind,
                start,
                length,
                bad: 0,
                next: place + 1,
            };
            assert_eq!(next(pack, place), card, "{shown:?} at {place}");
        }
        for place in (cards.len()..=20).chain([256, 65_536, usize::MAX - 1, usize::MAX]) {
            let end = Answer {
                number,
                kind: 0,
                start: 0,
                length: 0,
                bad,
                next: place,
            };
            assert_eq!(next(pack, place), end, "{shown:?} at {place}");
        }
        let judged = Judged {
            number,
            cards: cards.len(),
            bad,
        };
        assert_eq!(judge(pack), judged, "{shown:?}");
    }

    /// Expects that the pack is refused with this number, which is not 14,
    /// after this many of the cards of the pack written out by hand.
    fn expect_after(cards: usize, number: u32, pack: &[u8]) {
        expect(pack, &ITS_CARDS[..cards], number, 0);
    }

    #[test]
    fn pack_of_the_document_has_a_word_and_a_shuffle() {
        expect(&BY_DOCUMENT, &[(1, 2, 3), (3, 7, 1)], 0, 0);
        expect(&BY_HAND, &ITS_CARDS, 0, 0);
    }

    #[test]
    fn any_pack_is_refused_when_cut_short_or_with_bytes_left_over() {
        expect(&[], &[], 12, 0);
        for len in 0..8 {
            let cards: &[_] = if len < 5 { &[] } else { &[(1, 2, 3)] };
            expect(&BY_DOCUMENT[..len], cards, 12, 0);
        }
        // Cards are given where their last byte is there.
        for (len, cards) in (0..19).zip([0, 0, 0, 1, 1, 1, 2, 2, 2, 2, 3, 3, 3, 3, 3, 4, 4, 4, 4]) {
            expect_after(cards, 12, &BY_HAND[..len]);
        }
        for more in [&[0][..], &[1], &[255], &[0; 300], &BY_DOCUMENT] {
            expect_after(5, 15, &[&BY_HAND, more].concat());
            let pack = [&BY_DOCUMENT, more].concat();
            expect(&pack, &[(1, 2, 3), (3, 7, 1)], 15, 0);
        }
    }

    #[test]
    fn word_count_is_1_to_12_whatever_follows() {
        for count in [0, 13, 14, 128, 255] {
            for behind in [0, 1, 300] {
                let pack = [&[count][..], &vec![1; behind]].concat();
                expect(&pack, &[], 13, 0);
            }
            let mut pack = BY_HAND;
            pack[0] = count;
            expect(&pack, &[], 13, 0);
        }
        for count in 1..=12_u8 {
            // So many words of one byte each, and no song.
            let words = [1, 77].repeat(count.into());
            let shuffle: Vec<u8> = (0..count).collect();
            let pack = [&[count], &words[..], &[0, count], &shuffle].concat();
            let cards = (0..count).map(|n| (1, 2 + 2 * usize::from(n), 1));
            let count = usize::from(count);
            let cards: Vec<_> = cards.chain([(3, 3 + 2 * count, count)]).collect();
            expect(&pack, &cards, 0, 0);
        }
    }

    /// The pack that breaks off after a word with this length byte and so many
    /// bytes behind it.
    fn lone(length: u8, behind: usize) -> Vec<u8> {
        [&[1, length], &vec![7; behind][..]].concat()
    }

    #[test]
    fn word_that_is_not_wholly_there_is_12_before_it_is_13() {
        expect(&lone(41, 0), &[], 12, 0);
        expect(&lone(41, 1), &[], 12, 0);
        expect(&lone(41, 40), &[], 12, 0);
        expect(&lone(41, 41), &[], 13, 0);
        expect(&lone(41, 42), &[], 13, 0);
        expect(&lone(255, 254), &[], 12, 0);
        expect(&lone(255, 255), &[], 13, 0);
        expect(&lone(0, 0), &[], 13, 0);
        expect(&lone(0, 1), &[], 13, 0);
        expect(&lone(0, 50), &[], 13, 0);
        expect(&lone(40, 39), &[], 12, 0);
        // The count of songs is missing, or 7.
        expect(&lone(40, 40), &[(1, 2, 40)], 12, 0);
        expect(&lone(40, 41), &[(1, 2, 40)], 13, 0);
        expect(&lone(1, 1), &[(1, 2, 1)], 12, 0);
        expect(&lone(1, 2), &[(1, 2, 1)], 13, 0);
    }

    #[test]
    fn later_words_are_judged_in_the_same_way() {
        for (place, cards) in [(1, 0), (3, 1), (6, 2)] {
            let mut pack = BY_HAND;
            pack[place] = 0;
            expect_after(cards, 13, &pack);
            expect_after(cards, 13, &pack[..=place]);
            expect_after(cards, 12, &pack[..place]);
            pack[place] = 41;
            expect_after(cards, 12, &pack);
            let longer = |zeros: usize| [&pack[..=place], &vec![0; zeros]].concat();
            expect_after(cards, 12, &longer(40));
            expect_after(cards, 13, &longer(41));
        }
    }

    #[test]
    fn song_count_is_0_or_1_whatever_follows() {
        for count in [2, 3, 13, 255] {
            let mut pack = BY_HAND;
            pack[10] = count;
            expect_after(3, 13, &pack);
            expect_after(3, 13, &pack[..11]);
        }
        expect_after(3, 12, &BY_HAND[..10]);
        let pack = [&BY_HAND[..10], &[0], &BY_HAND[15..]].concat();
        expect(&pack, &[(1, 2, 1), (1, 4, 2), (1, 7, 3), (3, 12, 3)], 0, 0);
    }

    /// The pack that breaks off after a song of which so many bytes are there.
    fn with_song(length: u16, there: usize) -> Vec<u8> {
        [&BY_HAND[..11], &length.to_le_bytes(), &vec![9; there]].concat()
    }

    #[test]
    fn song_that_is_not_wholly_there_is_12_before_it_is_13() {
        expect_after(3, 12, &[&BY_HAND[..11], &[0]].concat());
        expect_after(3, 13, &with_song(0, 0));
        expect_after(3, 13, &with_song(0, 1));
        for length in [16_385, 16_640, 32_768, 65_535] {
            expect_after(3, 12, &with_song(length, 0));
            expect_after(3, 12, &with_song(length, usize::from(length) - 1));
            expect_after(3, 13, &with_song(length, usize::from(length)));
            expect_after(3, 13, &with_song(length, usize::from(length) + 1));
        }
        let three = &ITS_CARDS[..3];
        for length in [1, 255, 256, 16_383, 16_384] {
            let there = usize::from(length);
            expect_after(3, 12, &with_song(length, there - 1));
            let cards = [three, &[(2, 13, there)]].concat();
            expect(&with_song(length, there), &cards, 12, 0);
            let pack = [&with_song(length, there)[..], &[3, 2, 0, 1]].concat();
            let cards = [three, &[(2, 13, there), (3, 14 + there, 3)]].concat();
            expect(&pack, &cards, 0, 0);
        }
        // The low byte comes first: a length of 256 and one of 1.
        assert_eq!(with_song(256, 0)[11..], [0, 1]);
        assert_eq!(with_song(1, 0)[11..], [1, 0]);
    }

    #[test]
    fn shuffle_that_is_not_wholly_there_is_12_before_it_is_13_or_14() {
        let pack = |shuffle: &[u8]| [&BY_HAND[..15], shuffle].concat();
        expect_after(4, 12, &pack(&[]));
        // Another count than three.
        expect_after(4, 13, &pack(&[0]));
        expect_after(4, 13, &pack(&[0, 0, 1, 2]));
        expect_after(4, 12, &pack(&[1]));
        expect_after(4, 13, &pack(&[1, 0]));
        expect_after(4, 12, &pack(&[2, 0]));
        expect_after(4, 13, &pack(&[2, 0, 1]));
        expect_after(4, 13, &pack(&[2, 0, 1, 2]));
        expect_after(4, 12, &pack(&[4, 0, 1, 2]));
        expect_after(4, 13, &pack(&[4, 0, 1, 2, 3]));
        expect_after(4, 12, &pack(&[255, 0]));
        expect_after(4, 12, &pack(&[255; 255]));
        expect_after(4, 13, &pack(&[255; 256]));
        // Also where its entries are bad.
        expect_after(4, 13, &pack(&[2, 9, 9]));
        expect_after(4, 12, &pack(&[3]));
        expect_after(4, 12, &pack(&[3, 9, 9]));
        expect(&pack(&[3, 9, 9, 9]), &ITS_CARDS[..4], 14, 0);
        // And 14 comes before 15.
        expect(&pack(&[3, 0, 1, 1, 2]), &ITS_CARDS[..4], 14, 2);
        expect_after(5, 15, &pack(&[3, 0, 1, 2, 3]));
    }

    #[test]
    fn shuffles_of_three_are_the_six_orders() {
        let mut seen = [0; 4];
        for n in 0..64_u8 {
            let [a, b, c] = [n / 16, n / 4 % 4, n % 4];
            let mut pack = BY_HAND;
            pack[16..].copy_from_slice(&[a, b, c]);
            let bad = if a == 3 {
                0
            } else if b == 3 || b == a {
                1
            } else if c == 3 || c == a || c == b {
                2
            } else {
                3
            };
            seen[bad] += 1;
            match bad {
                3 => expect_after(5, 0, &pack),
                bad => expect(&pack, &ITS_CARDS[..4], 14, bad),
            }
        }
        assert_eq!(seen, [16, 3 * 2 * 4, 3 * 2 * 3, 6]);
    }

    #[test]
    fn first_bad_entry_counts() {
        assert_eq!(bad_entry(&[]), None);
        assert_eq!(bad_entry(&[0]), None);
        assert_eq!(bad_entry(&[1]), Some(0));
        assert_eq!(bad_entry(&[0, 0, 255]), Some(1));
        assert_eq!(bad_entry(&[0, 255, 0]), Some(1));
        let orders: [[u8; 12]; 3] = [
            [0, 1, 2, 3, 4, 5, 6, 7, 8, 9, 10, 11],
            [11, 10, 9, 8, 7, 6, 5, 4, 3, 2, 1, 0],
            [5, 0, 11, 6, 1, 10, 7, 2, 9, 8, 3, 4],
        ];
        for order in orders {
            assert_eq!(bad_entry(&order), None);
            for place in 0..12 {
                let mut entries = order;
                entries[place] = 12;
                assert_eq!(bad_entry(&entries), Some(place));
                // An entry that repeats another: the later one of the two.
                for other in (0..12).filter(|&other| other != place) {
                    let mut entries = order;
                    entries[place] = entries[other];
                    assert_eq!(bad_entry(&entries), Some(place.max(other)));
                }
            }
        }
    }

    /// Twelve words of 40 bytes, a song of 16,384 and a shuffle of 12:
    /// 1 + 12·41 = 493, 493 + 1 + 2 + 16,384 = 16,880, and 13 more.
    #[test]
    fn largest_pack_has_16893_bytes() {
        let word = [&[40][..], &[7; 40]].concat();
        let song = [&[1, 0, 64][..], &[9; 16_384]].concat();
        let shuffle = [12, 11, 10, 9, 8, 7, 6, 5, 4, 3, 2, 1, 0];
        let pack = [&[12], &word.repeat(12)[..], &song, &shuffle].concat();
        assert_eq!(pack.len(), 16_893);
        let words = (0..12).map(|n| (1, 2 + 41 * n, 40));
        let others = [(2, 496, 16_384), (3, 16_881, 12)];
        let cards: Vec<_> = words.chain(others).collect();
        expect(&pack, &cards, 0, 0);
        expect(&pack[..16_892], &cards[..13], 12, 0);
        expect(&[&pack[..], &[0]].concat(), &cards, 15, 0);
        // The song's last byte is at 16,879, the last word's at 492.
        expect(&pack[..16_880], &cards[..13], 12, 0);
        expect(&pack[..16_879], &cards[..12], 12, 0);
        expect(&pack[..493], &cards[..12], 12, 0);
        expect(&pack[..492], &cards[..11], 12, 0);
    }

    /// What the document says of a pack with the words, the song and the
    /// shuffle that the reader gave.
    fn written_back(pack: &[u8]) -> Vec<u8> {
        let Judged { cards, .. } = judge(pack);
        let of_kind = |kind: u32| -> Vec<&[u8]> {
            (0..cards)
                .map(|place| next(pack, place))
                .filter(|card| card.kind == kind)
                .map(|card| &pack[card.start..card.start + card.length])
                .collect()
        };
        let words = of_kind(WORD);
        let mut written = vec![words.len() as u8];
        for word in words {
            written.push(word.len() as u8);
            written.extend(word);
        }
        let songs = of_kind(SONG);
        written.push(songs.len() as u8);
        for song in songs {
            written.extend((song.len() as u16).to_le_bytes());
            written.extend(song);
        }
        for shuffle in of_kind(SHUFFLE) {
            written.push(shuffle.len() as u8);
            written.extend(shuffle);
        }
        written
    }

    /// The lists of ten bytes or fewer, each 0, 1 or 2. A word has one byte or
    /// two, and so has a song, since a length with 1 or 2 for its high byte is
    /// longer than the list. A word of one byte makes the least pack, 6 bytes
    /// long; a second byte in it, 7; a song of one byte, 9; of two or with a
    /// second byte in the word, 10. Two words of one byte are 9 bytes, with a
    /// second byte in either 10, and have two orders. A byte of a word or of a
    /// song is any of three.
    #[test]
    fn accepted_packs_are_as_many_as_the_document_has_and_no_others() {
        let nine = 3 * 3 + 2 * 3 * 3;
        let ten = 3 * 9 + 9 * 3 + 2 * 2 * 27;
        let expected = [0, 0, 0, 0, 0, 0, 3, 9, 0, nine, ten];
        for (len, expected) in expected.into_iter().enumerate() {
            let mut accepted = 0;
            for n in 0..3_usize.pow(len as u32) {
                let digit = |place: usize| (n / 3_usize.pow(place as u32) % 3) as u8;
                let pack: Vec<u8> = (0..len).map(digit).collect();
                if judge(&pack).number == 0 {
                    assert_eq!(written_back(&pack), pack);
                    accepted += 1;
                }
            }
            assert_eq!(accepted, expected, "{len} bytes");
        }
    }

    /// Packs that are right but for a few bytes, and lists of any bytes: cards
    /// lie in the pack one behind another, and a walk comes to what was judged.
    #[test]
    fn every_list_of_bytes_has_its_answers() {
        let mut random = Random::new(71);
        for n in 0..20_000 {
            let mut pack = if n % 2 == 0 {
                let len = random.below(60);
                random.bytes(len)
            } else {
                BY_HAND.to_vec()
            };
            for _ in 0..random.below(4) {
                let place = random.below(pack.len().max(1));
                if let Some(byte) = pack.get_mut(place) {
                    *byte = random.pick(&[0, 1, 2, 3, 4, 12, 13, 40, 41, 255]);
                }
            }
            pack.truncate(random.pick(&[5, 12, 18, 60, 60]));
            let mut answer = next(&pack, 0);
            let (mut cards, mut from) = (0, 0);
            while answer.kind != NO_CARD {
                assert_eq!((answer.number, answer.bad, answer.next), (0, 0, cards + 1));
                assert!(from < answer.start && answer.length > 0);
                from = answer.start + answer.length;
                assert!(from <= pack.len());
                cards = answer.next;
                answer = next(&pack, cards);
            }
            let Answer { number, bad, .. } = answer;
            assert_eq!(judge(&pack), Judged { number, cards, bad });
            assert!([0, 12, 13, 14, 15].contains(&number));
            assert!(number == 14 || bad == 0);
            expect_ends_alike(&pack, answer);
        }
    }

    /// Expects that a place beyond gets the same answer, and keeps that place.
    fn expect_ends_alike(pack: &[u8], end: Answer) {
        for place in [end.next + 1, 20, usize::MAX] {
            let expected = Answer { next: place, ..end };
            assert_eq!(next(pack, place), expected, "{pack:?}");
        }
    }
}
