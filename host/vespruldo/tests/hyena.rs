//! HyENA of the archive beside the second implementation.

mod common;

use std::collections::BTreeSet;

use common::cards::{Card, Parts};
use common::pairs::{choices_of_lengths, judged, open, open_short, seal, seal_short};
use common::{emulated, number, times, up_to, with_flip, LONGEST_DATA, LONGEST_TEXT};
use second::random::Random;

/// All four on random-looking bytes of these lengths; the short forms, which
/// take no data, where the data is empty.
fn compare(random: &mut Random, [key, nonce, data, text, tag, room]: [usize; 6]) {
    seal().compare(random, [key, nonce, data, text], [room, tag]);
    open().compare(random, [key, nonce, data, text, tag], [room]);
    if data == 0 {
        seal_short().compare(random, [key, nonce, text], [room, tag]);
        open_short().compare(random, [key, nonce, text, tag], [room]);
    }
}

/// As many bytes of what room holds before, and a few more.
fn room_for(random: &mut Random, len: usize) -> Vec<u8> {
    let more = up_to(random, 20);
    random.bytes(len + more)
}

impl Card {
    /// Both seal random-looking bytes and open them again.
    fn random(random: &mut Random, data_len: usize, text_len: usize) -> Card {
        let given = [16, 12, data_len, text_len].map(|len| random.bytes(len));
        let card = Card::sealed(random, given);
        card.opens(random);
        card
    }

    /// Both seal, and the rest of longer room keeps its bytes. Where the data is
    /// empty, the short form gives the same.
    fn sealed(random: &mut Random, [key, nonce, data, text]: [Vec<u8>; 4]) -> Card {
        let before = room_for(random, text.len());
        let tag_before = random.bytes(16);
        let lent: [&[u8]; 2] = [&before, &tag_before];
        let [mut room, tag] = seal().done([&key, &nonce, &data, &text], lent);
        if data.is_empty() {
            let [room_short, tag_short] = seal_short().done([&key, &nonce, &text], lent);
            assert!(room_short == room, "text {}", text.len());
            assert_eq!(tag_short, tag, "text {}", text.len());
        }
        let rest = room.split_off(text.len());
        assert_eq!(rest, before[text.len()..]);
        Card {
            key,
            nonce,
            data,
            text,
            ciphertext: room,
            tag,
        }
    }

    /// Both open it to its text, and the rest of longer room keeps its bytes.
    fn opens(&self, random: &mut Random) {
        let before = room_for(random, self.text.len());
        let [room] = open().done(self.parts(), [&before]);
        let [key, nonce, data, ciphertext, tag] = self.parts();
        if data.is_empty() {
            let [room_short] = open_short().done([key, nonce, ciphertext, tag], [&before]);
            assert!(room_short == room, "text {}", self.text.len());
        }
        let (text, rest) = room.split_at(self.text.len());
        assert!(text == self.text, "text {}", self.text.len());
        assert_eq!(rest, &before[self.text.len()..]);
    }
}

/// Both refuse to open these with 7, in the short form too where the data is
/// empty.
fn refuse(random: &mut Random, parts: Parts) {
    let [key, nonce, data, ciphertext, tag] = parts;
    let before = room_for(random, ciphertext.len());
    if data.is_empty() {
        open_short().refused(7, [key, nonce, ciphertext, tag], [&before]);
    }
    open().refused(7, parts, [&before]);
}

#[test]
fn every_short_length_is_sealed_and_opened_again() {
    let mut random = Random::new(60);
    // More than two blocks in any case.
    let most = if emulated() { 34 } else { 70 };
    for data_len in 0..=most {
        for text_len in 0..=most {
            Card::random(&mut random, data_len, text_len);
        }
    }
}

/// Each card is opened again, and refused with one bit changed: of the key, the
/// nonce, the data, the ciphertext and the tag.
fn compare_random_cards(seed: u64) {
    let mut random = Random::new(seed);
    for _ in 0..times(4000) {
        let [data_len, text_len] = [100, 200].map(|most| up_to(&mut random, most));
        let card = Card::random(&mut random, data_len, text_len);
        for (n, part) in card.parts().into_iter().enumerate() {
            if !part.is_empty() {
                let flipped = with_flip(part, up_to(&mut random, 8 * part.len() - 1));
                refuse(&mut random, card.with(n, &flipped));
            }
        }
    }
}

// Two halves, so that two processors share the work.
#[test]
fn random_cards_agree_and_damage_is_refused() {
    compare_random_cards(61);
}

#[test]
fn more_random_cards_agree_and_damage_is_refused() {
    compare_random_cards(62);
}

/// Under an emulator a wrong tag on the longest text is left to tests/guarded,
/// which does it too.
fn refuses_too(text_len: usize) -> bool {
    text_len < LONGEST_TEXT || !emulated()
}

/// The short forms by themselves: both seal, open again and refuse another tag.
fn compare_short_forms(random: &mut Random, text_len: usize) {
    let [key, nonce, text, room] = [16, 12, text_len, text_len].map(|len| random.bytes(len));
    let [ciphertext, tag] = seal_short().done([&key, &nonce, &text], [&room, &[0; 16]]);
    let [opened] = open_short().done([&key, &nonce, &ciphertext, &tag], [&room]);
    assert!(opened == text, "text {text_len}");
    if refuses_too(text_len) {
        let wrong_tag = with_flip(&tag, up_to(random, 127));
        open_short().refused(7, [&key, &nonce, &ciphertext, &wrong_tag], [&room]);
    }
}

#[test]
fn random_cards_without_data_agree_and_other_tags_are_refused() {
    let mut random = Random::new(78);
    for _ in 0..times(12_000) {
        let text_len = up_to(&mut random, 24);
        compare_short_forms(&mut random, text_len);
    }
}

#[test]
fn cards_of_a_few_hundred_and_a_few_thousand_bytes_agree() {
    let mut random = Random::new(63);
    for _ in 0..times(150) {
        let [data_len, text_len] = [600, 900].map(|most| up_to(&mut random, most));
        Card::random(&mut random, data_len, text_len);
    }
    for data_len in [0, 5, 16] {
        for text_len in [4095, 4096, 4097] {
            Card::random(&mut random, data_len, text_len);
            Card::random(&mut random, text_len, data_len);
        }
    }
}

/// Bytes that are all alike, in every combination.
#[test]
fn extreme_bytes_agree() {
    let mut random = Random::new(64);
    let extremes = [0x00, 0xff, 0x80, 0x01];
    for key in extremes {
        for nonce in extremes {
            for data in extremes {
                for text in extremes {
                    let given = [
                        vec![key; 16],
                        vec![nonce; 12],
                        vec![data; 20],
                        vec![text; 33],
                    ];
                    Card::sealed(&mut random, given).opens(&mut random);
                }
            }
        }
    }
}

/// Lengths of data and text at the borders of halves and blocks.
const BORDERS: [(usize, usize); 11] = [
    (0, 0),
    (0, 1),
    (1, 0),
    (0, 16),
    (16, 0),
    (7, 8),
    (8, 7),
    (16, 16),
    (15, 17),
    (17, 32),
    (33, 40),
];

#[test]
fn every_bit_that_is_opened_counts() {
    let mut random = Random::new(65);
    for (data_len, text_len) in BORDERS {
        let card = Card::random(&mut random, data_len, text_len);
        for (n, part) in card.parts().into_iter().enumerate() {
            for i in 0..8 * part.len() {
                refuse(&mut random, card.with(n, &with_flip(part, i)));
            }
        }
    }
}

/// Every bit read changes ciphertext and tag. The texts are long enough that no
/// chance leaves a ciphertext as it was. What room and tag held before is no
/// input.
#[test]
fn every_bit_that_is_sealed_counts() {
    let mut random = Random::new(66);
    for (data_len, text_len) in [(0, 0), (20, 0), (0, 16), (16, 17), (17, 32), (9, 40)] {
        let [key, nonce, data, text] = [16, 12, data_len, text_len].map(|len| random.bytes(len));
        let before: [&[u8]; 2] = [&random.bytes(text_len), &random.bytes(16)];
        let read: [&[u8]; 4] = [&key, &nonce, &data, &text];
        seal().damage_read(read, before);
        seal().damage_worked(read, before, |undamaged, damaged| damaged == undamaged);
        if data_len == 0 {
            let read: [&[u8]; 3] = [&key, &nonce, &text];
            seal_short().damage_read(read, before);
            seal_short().damage_worked(read, before, |undamaged, damaged| damaged == undamaged);
        }
    }
}

/// The parts of a card put together in another way.
#[test]
fn cards_put_together_wrongly_are_refused() {
    let mut random = Random::new(67);
    for _ in 0..times(500) {
        let [data_len, text_len] = [50, 70].map(|most| 1 + up_to(&mut random, most));
        let card = Card::random(&mut random, data_len, text_len);
        let [key, nonce, data, ciphertext, tag] = card.parts();
        let (first, others) = ciphertext.split_first().expect("a byte");
        let (last, front) = data.split_last().expect("a byte");
        let byte = random.next_u64() as u8;
        for (data, ciphertext) in [
            // A byte more or less, at either end.
            (data.to_vec(), [ciphertext, &[byte]].concat()),
            (data.to_vec(), [ciphertext, &[0]].concat()),
            (data.to_vec(), [&[byte], ciphertext].concat()),
            (data.to_vec(), ciphertext[..text_len - 1].to_vec()),
            (data.to_vec(), others.to_vec()),
            (data.to_vec(), vec![]),
            ([data, &[byte]].concat(), ciphertext.to_vec()),
            ([data, &[0]].concat(), ciphertext.to_vec()),
            (front.to_vec(), ciphertext.to_vec()),
            (vec![], ciphertext.to_vec()),
            // The border between data and ciphertext moved, or both exchanged.
            ([data, &[*first]].concat(), others.to_vec()),
            (front.to_vec(), [&[*last], ciphertext].concat()),
            ([data, ciphertext].concat(), vec![]),
            (vec![], [data, ciphertext].concat()),
            (ciphertext.to_vec(), data.to_vec()),
        ] {
            if (&data, &ciphertext) != (&card.data, &card.ciphertext) {
                refuse(&mut random, [key, nonce, &data, &ciphertext, tag]);
            }
        }
    }
}

/// Nothing but the recomputed tag will do: not one that differs in any bit or
/// any two bits, and none that holds the same bytes otherwise.
#[test]
fn every_other_tag_is_refused() {
    let mut random = Random::new(68);
    // Under an emulator each bit is paired with some of the others only.
    let step = if emulated() { 20 } else { 1 };
    for (data_len, text_len) in [(0, 0), (3, 5)] {
        let card = Card::random(&mut random, data_len, text_len);
        let mut refuse = |tag: &[u8]| refuse(&mut random, card.with(4, tag));
        for i in 0..128 {
            let one_bit = with_flip(&card.tag, i);
            refuse(&one_bit);
            for j in (i % step..i).step_by(step) {
                refuse(&with_flip(&one_bit, j));
            }
        }
        for n in 1..16 {
            let mut tag = card.tag.clone();
            tag.rotate_left(n);
            refuse(&tag);
            // The first bytes or the last ones alone are right.
            let inverted: Vec<u8> = card.tag.iter().map(|byte| !byte).collect();
            refuse(&[&card.tag[..n], &inverted[n..]].concat());
            refuse(&[&inverted[..n], &card.tag[n..]].concat());
        }
        let reversed: Vec<u8> = card.tag.iter().rev().copied().collect();
        for tag in [&reversed[..], &[0; 16], &[0xff; 16], &[0x55; 16]] {
            refuse(tag);
        }
    }
}

/// Seals all texts under one key, nonce and data. Beyond the front that they
/// share, no two ciphertexts are alike, and no two tags; and none opens under
/// its neighbour's tag.
fn tags_differ(random: &mut Random, data_len: usize, front: &[u8], lasts: BTreeSet<Vec<u8>>) {
    let [key, nonce, data] = [16, 12, data_len].map(|len| random.bytes(len));
    let cards: Vec<Card> = lasts
        .iter()
        .map(|last| {
            let text = [front, last].concat();
            Card::sealed(random, [key.clone(), nonce.clone(), data.clone(), text])
        })
        .collect();
    for (card, neighbour) in cards.iter().zip(cards.iter().cycle().skip(1)) {
        let fronts = [card, neighbour].map(|card| &card.ciphertext[..front.len()]);
        assert_eq!(fronts[0], fronts[1]);
        refuse(random, card.with(4, &neighbour.tag));
    }
    for part in [3, 4] {
        let different: BTreeSet<&[u8]> = cards.iter().map(|card| card.parts()[part]).collect();
        assert_eq!(different.len(), cards.len(), "part {part}");
    }
}

/// Ciphertexts that differ in the last block alone, both partial (perhaps of
/// different lengths) or both full, have different tags.
#[test]
fn cards_that_differ_in_the_last_block_have_different_tags() {
    let mut random = Random::new(69);
    for (data_len, blocks) in [(0, 0), (5, 1), (16, 2)] {
        let front = random.bytes(16 * blocks);
        let mut partial: BTreeSet<Vec<u8>> = (0..=255).map(|byte| vec![byte]).collect();
        partial.extend((2..16).flat_map(|len| {
            // With the mark of a shorter block, or without.
            [0, 1].map(|byte| [vec![7; len - 1], vec![byte]].concat())
        }));
        partial.extend((0..100).map(|n| random.bytes(2 + n % 14)));
        tags_differ(&mut random, data_len, &front, partial);

        let block = random.bytes(16);
        let mut full: BTreeSet<Vec<u8>> = (0..128).map(|i| with_flip(&block, i)).collect();
        full.extend((0..128).map(|_| random.bytes(16)));
        tags_differ(&mut random, data_len, &front, full);
    }
}

#[test]
fn all_lengths_agree_and_nothing_else_changes() {
    let mut random = Random::new(70);
    for key in [0, 1, 15, 16, 17, 32] {
        for nonce in [0, 1, 11, 12, 13, 16, 24] {
            for tag in [0, 1, 8, 15, 16, 17, 32] {
                for (data, text) in [(0, 0), (0, 1), (1, 16), (16, 17)] {
                    for room in [0, 1, 15, 16, 17, 32] {
                        compare(&mut random, [key, nonce, data, text, tag, room]);
                    }
                }
            }
        }
    }
    // Each length in turn, the others right.
    for len in 0..=64 {
        compare(&mut random, [len, 12, 0, 20, 16, 20]);
        compare(&mut random, [16, len, 0, 20, 16, 20]);
        compare(&mut random, [16, 12, 0, 20, len, 20]);
        for text in [0, 1, 15, 16, 17, 31, 32, 33, 48] {
            compare(&mut random, [16, 12, 0, text, 16, len]);
            compare(&mut random, [16, 12, len, text, 16, text]);
        }
    }
}

/// The smallest number is given.
#[test]
fn refusals_come_in_the_order_of_the_numbers() {
    let mut random = Random::new(71);
    for ([key, nonce, data, text, tag], smallest) in choices_of_lengths() {
        // Room that is long enough, and that is not.
        let rooms = [(text, 0), (text + 1, 0), (text - 1, 6), (0, 6)];
        for (room, last) in rooms {
            let lens = [key, nonce, data, text, tag, room];
            let expected = if smallest == 0 { last } else { smallest };
            assert_eq!(judged(lens), expected, "{lens:?}");
            compare(&mut random, lens);
        }
    }
}

/// A slice of nothing lies nowhere.
#[test]
fn empty_slices_are_judged_and_taken() {
    let (key, nonce) = ([1; 16], [2; 12]);
    let mut tag = [0; 16];
    let sealed = vespruldo::slices::seal(&key, &nonce, &[], &[], &mut [], &mut tag);
    assert_eq!(number(sealed), 0);
    let opened = vespruldo::slices::open(&key, &nonce, &[], &[], &tag, &mut []);
    assert_eq!(number(opened), 0);
    let opened = vespruldo::slices::open_short(&key, &nonce, &[], &tag, &mut []);
    assert_eq!(number(opened), 0);
    let mut tag_short = [0; 16];
    let sealed = vespruldo::slices::seal_short(&key, &nonce, &[], &mut [], &mut tag_short);
    assert_eq!(number(sealed), 0);
    assert_eq!(tag_short, tag);

    let refused = vespruldo::slices::open(&key, &nonce, &[], &[], &[7; 16], &mut []);
    assert_eq!(number(refused), 7);
    let refused = vespruldo::slices::open(&key, &nonce, &[], &[], &[], &mut []);
    assert_eq!(number(refused), 5);
    let refused = vespruldo::slices::seal(&key, &nonce, &[], &[1], &mut [], &mut tag);
    assert_eq!(number(refused), 6);
    let refused = vespruldo::slices::seal(&key, &[], &[], &[], &mut [], &mut []);
    assert_eq!(number(refused), 2);
    let refused = vespruldo::slices::open_short(&[], &[], &[], &[], &mut []);
    assert_eq!(number(refused), 1);
}

#[test]
fn longest_data_is_sealed_and_opened_again() {
    let mut random = Random::new(72);
    for data_len in [LONGEST_DATA - 1, LONGEST_DATA] {
        for text_len in [0, 17] {
            let card = Card::random(&mut random, data_len, text_len);
            let last_bit = 8 * data_len - 1;
            refuse(&mut random, card.with(2, &with_flip(&card.data, last_bit)));
        }
    }
    for text_len in [0, 17] {
        compare(&mut random, [16, 12, LONGEST_DATA + 1, text_len, 16, 17]);
    }
}

/// More than 2^16 bytes, but not many more; without data in the short forms too.
#[test]
fn long_texts_are_sealed_and_opened_again() {
    let mut random = Random::new(73);
    for (data_len, text_len) in [(3, 65_535), (0, 65_536), (3, 65_537), (0, 70_003)] {
        let card = Card::random(&mut random, data_len, text_len);
        let flipped = with_flip(&card.ciphertext, 8 * text_len - 1);
        refuse(&mut random, card.with(3, &flipped));
    }
}

#[test]
fn longest_text_is_sealed_and_opened_again() {
    let mut random = Random::new(74);
    let card = Card::random(&mut random, LONGEST_DATA, LONGEST_TEXT);
    if refuses_too(LONGEST_TEXT) {
        refuse(&mut random, card.with(4, &with_flip(&card.tag, 0)));
    }
    let too_long = LONGEST_TEXT + 1;
    compare(&mut random, [16, 12, LONGEST_DATA, too_long, 16, too_long]);
}

#[test]
fn longest_text_is_sealed_and_opened_again_in_the_short_forms() {
    let mut random = Random::new(75);
    compare_short_forms(&mut random, LONGEST_TEXT);
    let too_long = LONGEST_TEXT + 1;
    compare(&mut random, [16, 12, 0, too_long, 16, too_long]);
}

/// Lengths that are another thing to whoever keeps only their low bits: the
/// first ones are not allowed, the last ones are, room being longer than text.
#[test]
fn no_length_is_cut_before_it_is_judged() {
    let mut random = Random::new(76);
    for more in [1 << 8, 1 << 16, 1 << 24] {
        compare(&mut random, [more + 16, 12, 0, 20, 16, 20]);
        compare(&mut random, [16, more + 12, 0, 20, 16, 20]);
        compare(&mut random, [16, 12, 0, 20, more + 16, 20]);
        compare(&mut random, [16, 12, 0, 20, 16, more]);
        compare(&mut random, [16, 12, 0, 20, 16, more + 19]);
    }
    compare(&mut random, [16, 12, (1 << 24) + 5, 20, 16, 20]);
    compare(&mut random, [16, 12, 0, (1 << 24) + 20, 16, 20]);
    compare(&mut random, [16, 12, 0, (1 << 24) + 20, 16, (1 << 24) + 20]);
}

#[test]
#[cfg(target_pointer_width = "64")]
fn lengths_of_2_to_the_32_and_more_are_refused() {
    // All but sealing's room, which may be as long as one likes.
    for n in [0, 1, 2, 3, 5] {
        seal().refuse_one_huge(n, [16, 12, 5, 20], [20, 16]);
    }
    for n in [0, 1, 2, 4] {
        seal_short().refuse_one_huge(n, [16, 12, 20], [20, 16]);
    }
    for n in 0..5 {
        open().refuse_one_huge(n, [16, 12, 5, 20, 16], [20]);
    }
    for n in 0..4 {
        open_short().refuse_one_huge(n, [16, 12, 20, 16], [20]);
    }
}

/// Room of 2^32 bytes and more, zeros before, holds these bytes first and zeros
/// at both ends of its rest.
#[cfg(target_pointer_width = "64")]
fn assert_first(room: &[u8], written: &[u8]) {
    let (first, rest) = room.split_at(written.len());
    assert_eq!(first, written);
    let ends = [&rest[..4096], &rest[rest.len() - 4096..]];
    assert!(ends.concat().iter().all(|&byte| byte == 0));
}

/// The low 32 bits of this room's length are less than the text's. Hardly any
/// of the memory is ever touched, so the system need not provide it.
#[test]
#[cfg(target_pointer_width = "64")]
fn room_of_2_to_the_32_bytes_and_more_is_taken() {
    let mut random = Random::new(77);
    let card = Card::random(&mut random, 0, 20);
    let [key, nonce, data, ciphertext, tag] = card.parts();
    let wrong_tag = with_flip(tag, 127);
    let mut room = vec![0; (1 << 32) + 19];
    let mut tag_room = [0; 16];

    let sealed = vespruldo::slices::seal(key, nonce, data, &card.text, &mut room, &mut tag_room);
    assert_eq!(number(sealed), 0);
    assert_first(&room, ciphertext);
    assert_eq!(tag_room, tag);
    let opened = vespruldo::slices::open(key, nonce, data, ciphertext, tag, &mut room);
    assert_eq!(number(opened), 0);
    assert_first(&room, &card.text);
    let refused = vespruldo::slices::open(key, nonce, data, ciphertext, &wrong_tag, &mut room);
    assert_eq!(number(refused), 7);
    assert_first(&room, &[0; 20]);

    tag_room.fill(0);
    let sealed = vespruldo::slices::seal_short(key, nonce, &card.text, &mut room, &mut tag_room);
    assert_eq!(number(sealed), 0);
    assert_first(&room, ciphertext);
    assert_eq!(tag_room, tag);
    let opened = vespruldo::slices::open_short(key, nonce, ciphertext, tag, &mut room);
    assert_eq!(number(opened), 0);
    assert_first(&room, &card.text);
    let refused = vespruldo::slices::open_short(key, nonce, ciphertext, &wrong_tag, &mut room);
    assert_eq!(number(refused), 7);
    assert_first(&room, &[0; 20]);
}
