//! Batches of the archive beside the second implementation.

mod common;

use std::collections::BTreeMap;

use common::pairs::{self, batched};
use common::{emulated, times, up_to, with_flip, Guarded, LONGEST_DATA, LONGEST_TEXT};
use second::drawer::{self, Drawer};
use second::random::Random;
use vespruldo::{open, seal, seal_batch, seal_batch_into, slices, Data, Key, Refusal, Sealed, Tag};

/// How many bytes texts of these lengths have together.
fn sum(lengths: &[u64]) -> usize {
    lengths.iter().sum::<u64>() as usize
}

/// A drawer in which so many draws are left.
fn with_draws(left: u64) -> Drawer {
    drawer::start(0x0a0b_0c0d, u64::MAX - left)
}

/// A drawer with 14 draws at least, often one whose count carries over soon or
/// that is soon spent.
fn any_drawer(random: &mut Random) -> Drawer {
    let (few, any) = (up_to(random, 12) as u64, random.next_u64());
    let count = match up_to(random, 3) {
        0 => (1 << (8 + 8 * up_to(random, 6))) - 1 - few,
        1 => u64::MAX - 14 - few,
        _ => any >> up_to(random, 63),
    };
    drawer::start(random.next_u64() as u32, count)
}

/// As many lengths, some of them 0, few above a hundred.
fn any_lengths(random: &mut Random, cards: usize) -> Vec<u64> {
    let length = |_| match up_to(random, 9) {
        0 | 1 => 0,
        2 => up_to(random, 200) as u64,
        _ => up_to(random, 34) as u64,
    };
    (0..cards).map(length).collect()
}

/// Random texts of these lengths.
fn texts_of(random: &mut Random, lengths: &[u64]) -> Vec<Vec<u8>> {
    let text = |&len| random.bytes(len as usize);
    lengths.iter().map(text).collect()
}

/// Both agree on texts of these lengths, with right lengths of all else; answers
/// the number.
fn compare(random: &mut Random, lengths: &[u64], drawer: Drawer, more_room: usize) -> u32 {
    let (len, data) = (sum(lengths), up_to(random, 40));
    let lens = [len + more_room, 16 * lengths.len()];
    pairs::seal_batch(lengths, drawer).compare(random, [16, data, len], lens)
}

#[test]
fn batches_of_every_count_agree() {
    let mut random = Random::new(300);
    for cards in 0..=14 {
        let number = if (1..=12).contains(&cards) { 0 } else { 18 };
        for length in [0, 1, 7, 8, 9, 15, 16, 17, 32, 33] {
            let lengths = vec![length; cards];
            for more_room in [0, 1, 40] {
                let drawer = any_drawer(&mut random);
                let answer = compare(&mut random, &lengths, drawer, more_room);
                assert_eq!(answer, number, "{lengths:?}");
            }
        }
        // One empty card among others, and one card among empty ones.
        for place in 0..cards {
            for [length, other] in [[0, 5], [5, 0], [16, 0], [0, 16]] {
                let mut lengths = vec![other; cards];
                lengths[place] = length;
                let drawer = any_drawer(&mut random);
                assert_eq!(compare(&mut random, &lengths, drawer, 3), number);
            }
        }
    }
}

fn compare_random_batches(seed: u64) {
    let mut random = Random::new(seed);
    for _ in 0..times(4000) {
        let cards = 1 + up_to(&mut random, 11);
        let lengths = any_lengths(&mut random, cards);
        let drawer = any_drawer(&mut random);
        let more_room = up_to(&mut random, 1) * up_to(&mut random, 40);
        assert_eq!(compare(&mut random, &lengths, drawer, more_room), 0);
    }
}

// Two halves, so that two processors share the work.
#[test]
fn random_batches_agree() {
    compare_random_batches(301);
}

#[test]
fn more_random_batches_agree() {
    compare_random_batches(302);
}

/// `len`, or one wrong by a little.
fn about(random: &mut Random, len: usize) -> usize {
    let by = [1, 1, 2, 16][up_to(random, 3)];
    match up_to(random, 5) {
        0 => len + by,
        1 => len.saturating_sub(by),
        2 => up_to(random, len),
        _ => len,
    }
}

/// Everything may be wrong by a little, and is so at most in a few places.
#[test]
fn damaged_batches_agree() {
    let mut random = Random::new(303);
    let mut tally = BTreeMap::new();
    for _ in 0..times(20_000) {
        let cards = [up_to(&mut random, 15), 1 + up_to(&mut random, 3)][up_to(&mut random, 1)];
        let mut lengths = any_lengths(&mut random, cards);
        let right = [16, 9, sum(&lengths), sum(&lengths), 16 * cards];
        let mut lens = right;
        let mut drawer = any_drawer(&mut random);
        for _ in 0..=up_to(&mut random, 2) {
            let place = up_to(&mut random, 7);
            match place {
                0..=4 if place != 1 => lens[place] = about(&mut random, right[place]),
                1 if up_to(&mut random, 3) == 0 => lens[1] = LONGEST_DATA + 1,
                5 => drawer = with_draws(up_to(&mut random, cards + 1) as u64),
                6 if cards > 0 => {
                    let long = [LONGEST_TEXT as u64 + 1, 1 << 32, u64::MAX, 0];
                    lengths[up_to(&mut random, cards - 1)] = long[up_to(&mut random, 3)];
                }
                _ => lens[2] += 1,
            }
        }
        let [key, data, texts, room, tags] = lens;
        let pair = pairs::seal_batch(&lengths, drawer);
        let number = pair.compare(&mut random, [key, data, texts], [room, tags]);
        *tally.entry(number).or_insert(0) += 1;
    }
    assert!(tally.keys().eq(&[0, 1, 3, 4, 5, 6, 9, 18]), "{tally:?}");
    assert!(tally.values().all(|&seen| seen >= times(200)), "{tally:?}");
}

/// The ways in which a batch has no right form: the lengths, and how long the
/// texts are.
const BAD_FORMS: [(&[u64], usize); 5] = [
    (&[], 0),
    (&[], 1),
    (&[3; 13], 39),
    (&[3, 0, 5], 7),
    (&[3, 0, 5], 9),
];

/// Every choice of refusals that can apply together: the first is given, whatever
/// else is wrong.
#[test]
fn every_choice_of_refusals_answers_the_first() {
    let mut random = Random::new(304);
    let numbers = [1, 3, 4, 5, 6, 9, 18];
    let mut seen = 0;
    for choice in 0..1_u32 << 7 {
        let is_wrong = |number| {
            let place = numbers.iter().position(|n| *n == number);
            choice >> place.expect("a refusal") & 1 == 1
        };
        let first = numbers.into_iter().find(|number| is_wrong(*number));
        let right_form: [(&[u64], usize); 1] = [(&[3, 0, 5], 8)];
        let forms = if is_wrong(18) {
            &BAD_FORMS[..]
        } else {
            &right_form
        };
        for &(lengths, mut texts) in forms {
            let mut lengths = lengths.to_vec();
            // Without cards no length is too long, and no draw is missing; and
            // without a text no room is too short.
            if lengths.is_empty() && (is_wrong(4) || is_wrong(9)) || texts == 0 && is_wrong(6) {
                continue;
            }
            if is_wrong(4) {
                let last = lengths.len() - 1;
                lengths[last] = LONGEST_TEXT as u64 + 1;
                // So that the lengths add up, if they are to.
                texts = if is_wrong(18) { texts } else { sum(&lengths) };
            }
            let wrong = |number| usize::from(is_wrong(number));
            let read = [16 - wrong(1), wrong(3) * (LONGEST_DATA + 1), texts];
            let tags = 16 * lengths.len() + wrong(5);
            let written = [texts - wrong(6), tags];
            let drawer = with_draws((lengths.len() - wrong(9)) as u64);
            let pair = pairs::seal_batch(&lengths, drawer);
            let number = pair.compare(&mut random, read, written);
            assert_eq!(number, first.unwrap_or(0), "{choice:#b}, {lengths:?}");
            seen += 1;
        }
    }
    // Of the bad forms three can be wrong in all ways, and those without cards in
    // three or four others.
    assert_eq!(seen, 64 + 3 * 64 + 8 + 16);
}

/// Each length is judged by itself and as it stands, wherever it stands, also
/// beyond twelve; a sum that was cut to 64 or 32 bits would often be right.
#[test]
fn every_length_is_judged() {
    let mut random = Random::new(305);
    let longest = LONGEST_TEXT as u64;
    let mut refused = |number, lengths: &[u64], texts: usize| {
        let pair = pairs::seal_batch(lengths, with_draws(100_000));
        let lens = [texts, 16 * lengths.len()];
        assert_eq!(
            pair.compare(&mut random, [16, 0, texts], lens),
            number,
            "{lengths:?}"
        );
    };
    for cards in [1, 2, 12, 13, 20] {
        for place in 0..cards {
            for length in [longest + 1, 1 << 32, 1 << 63, u64::MAX] {
                let mut lengths = vec![2; cards];
                lengths[place] = length;
                refused(4, &lengths, 2 * cards - 2);
            }
        }
    }
    // Sums that are 5 to whoever cuts them.
    refused(4, &[u64::MAX, 6], 5);
    refused(4, &[6, u64::MAX], 5);
    refused(4, &[1 << 63, 5, 1 << 63], 5);
    refused(4, &[(1 << 32) + 5], 5);
    refused(18, &[longest; 13], 5);
    refused(18, &[longest, 5], 5);
    refused(18, &[5, longest], 5);
    // Lists as long as allowed, to whoever cuts their count.
    refused(18, &[0; 256 + 2], 0);
    refused(18, &vec![0; 65_536 + 2], 0);
}

#[test]
fn draws_left_are_counted() {
    let mut random = Random::new(306);
    for left in [0, 1, 2, 11, 12, 13, 14] {
        for cards in 0..=14 {
            let drawer = with_draws(left);
            let number = compare(&mut random, &vec![3; cards], drawer, 0);
            let expected = match cards {
                0 => 18,
                _ if cards as u64 > left => 9,
                1..=12 => 0,
                _ => 18,
            };
            assert_eq!(number, expected, "{left} left, {cards} cards");
        }
    }
}

#[test]
fn data_of_every_kind_of_length_agree() {
    let mut random = Random::new(307);
    for (data, number) in [(0, 0), (16, 0), (LONGEST_DATA, 0), (LONGEST_DATA + 1, 3)] {
        let pair = pairs::seal_batch(&[3, 4], with_draws(2));
        assert_eq!(pair.compare(&mut random, [16, data, 7], [7, 32]), number);
    }
}

#[test]
#[cfg(target_pointer_width = "64")]
fn lengths_of_2_to_the_32_and_more_are_refused() {
    // All but the room, which may be longer.
    for place in [0, 1, 2, 4] {
        let pair = pairs::seal_batch(&[3, 4], with_draws(2));
        pair.refuse_one_huge(place, [16, 9, 7], [7, 32]);
    }
}

#[test]
fn damaged_inputs_change_the_result() {
    let mut random = Random::new(308);
    let lengths = [5, 0, 17];
    let read = [16, 5, 22].map(|len| random.bytes(len));
    let read = read.each_ref().map(|part| &part[..]);
    let before: [&[u8]; 2] = [&[7; 22], &[7; 48]];
    let drawer = drawer::start(0x0a0b_0c0d, 0x0102_0304_0506_0708);
    pairs::seal_batch(&lengths, drawer).damage_read(read, before);

    let undamaged = pairs::seal_batch(&lengths, drawer).done(read, before);
    for bit in 0..96 {
        let other = match bit {
            0..32 => drawer::start(drawer.reader ^ 1 << bit, drawer.count),
            _ => drawer::start(drawer.reader, drawer.count ^ 1 << (bit - 32)),
        };
        let damaged = pairs::seal_batch(&lengths, other).done(read, before);
        assert_ne!(damaged, undamaged, "bit {bit}");
    }
}

/// What the archive makes of a batch, by card.
fn by_card(key: &[u8], texts: &[Vec<u8>], drawer: Drawer) -> Vec<(Vec<u8>, Vec<u8>)> {
    let lengths: Vec<u64> = texts.iter().map(|text| text.len() as u64).collect();
    let mut room = vec![0; sum(&lengths)];
    let mut tags = vec![0; 16 * texts.len()];
    let read = [key, b"class 7", &texts.concat()];
    let answer = batched(read, (&lengths, drawer), [&mut room, &mut tags]);
    assert_eq!(answer.number, 0);
    let mut room = room.into_iter();
    let card = |(text, tag): (&Vec<u8>, &[u8])| {
        let ciphertext = room.by_ref().take(text.len()).collect();
        (ciphertext, tag.to_vec())
    };
    texts.iter().zip(tags.chunks(16)).map(card).collect()
}

/// "Changing one card's text changes no other card's ciphertext or tag", and
/// changes its own.
#[test]
fn one_cards_text_changes_no_other_card() {
    let mut random = Random::new(309);
    for _ in 0..times(200) {
        let cards = 1 + up_to(&mut random, 11);
        let lengths = any_lengths(&mut random, cards);
        let texts = texts_of(&mut random, &lengths);
        let (key, drawer) = (random.bytes(16), any_drawer(&mut random));
        let before = by_card(&key, &texts, drawer);
        for place in (0..cards).filter(|place| lengths[*place] > 0) {
            let mut changed = texts.clone();
            let bit = up_to(&mut random, 8 * changed[place].len() - 1);
            changed[place] = match up_to(&mut random, 1) {
                0 => with_flip(&changed[place], bit),
                _ => changed[place].iter().map(|byte| !byte).collect(),
            };
            let after = by_card(&key, &changed, drawer);
            for (other, (before, after)) in before.iter().zip(&after).enumerate() {
                let same = [before.0 == after.0, before.1 == after.1];
                assert_eq!(
                    same,
                    [other != place; 2],
                    "{place} and {other} of {lengths:?}"
                );
            }
        }
    }
}

/// The whole text may be longer than any card's, up to twelve of the longest.
#[test]
fn the_whole_text_may_be_longer_than_a_card() {
    let mut random = Random::new(310);
    let longest = LONGEST_TEXT as u64;
    // Two that are too long for one card take an emulator long enough.
    let lengths = if emulated() {
        vec![longest / 2, longest / 2 + 1]
    } else {
        vec![longest; 12]
    };
    let cards = lengths.len();
    let texts = random.bytes(sum(&lengths));
    let (key, drawer) = ([1; 16], drawer::start(5, 6));
    let mut room = Guarded::new(&mut random, texts.len());
    let mut tags = Guarded::new(&mut random, 16 * cards);
    let written = [room.lent(), tags.lent()];
    let answer = batched([&key, b"class 7", &texts], (&lengths, drawer), written);
    assert_eq!(answer.number, 0);
    assert_eq!(answer.next, drawer::start(5, 6 + cards as u64));

    // The first and the last as each is sealed singly; to seal all again would
    // take as long.
    for card in [0, cards - 1] {
        let start = sum(&lengths[..card]);
        let place = start..start + lengths[card] as usize;
        let nonce = drawer::draw(drawer::start(5, 6 + card as u64)).bytes;
        let (mut ciphertext, mut tag) = (vec![0; place.len()], [0; 16]);
        let text = &texts[place.clone()];
        let sealed = slices::seal(&key, &nonce, b"class 7", text, &mut ciphertext, &mut tag);
        assert_eq!(sealed, Ok(()));
        assert!(room.lent()[place] == ciphertext);
        assert_eq!(tags.lent()[16 * card..16 * card + 16], tag);
    }
}

/// The typed form answers the cards that sealing one by one answers, and moves the
/// drawer on as far.
#[test]
fn typed_batches_are_cards_sealed_one_by_one() {
    let mut random = Random::new(311);
    for case in 0..times(800) {
        let cards = 1 + case % 12;
        let lengths = any_lengths(&mut random, cards);
        let texts = texts_of(&mut random, &lengths);
        let key = Key::try_from(&random.bytes(16)[..]).expect("16 bytes");
        let data_len = up_to(&mut random, 40);
        let data = random.bytes(data_len);
        let Drawer { reader, count } = any_drawer(&mut random);
        let [mut drawer, mut other] = [(); 2].map(|()| vespruldo::Drawer::start(reader, count));

        let batch = seal_batch(&key, &mut drawer, Data(&data), &texts).expect("sealed");
        assert_eq!(batch.len(), cards);
        for (card, text) in batch.iter().zip(&texts) {
            let nonce = other.draw().expect("a draw");
            let singly = seal(&key, nonce, Data(&data), text).expect("sealed");
            assert_eq!(card.nonce, singly.nonce);
            assert_eq!(card.ciphertext, singly.ciphertext);
            assert_eq!(card.tag.as_bytes(), singly.tag.as_bytes());
            assert_eq!(open(&key, Data(&data), card).as_ref(), Ok(text));
        }
        assert_eq!(drawer, other);
    }
}

/// The lent form answers the same cards.
#[test]
fn lent_batches_are_the_typed_ones() {
    let mut random = Random::new(312);
    for _ in 0..times(300) {
        let cards = 1 + up_to(&mut random, 11);
        let lengths = any_lengths(&mut random, cards);
        let texts = texts_of(&mut random, &lengths);
        let key = Key::from([1; 16]);
        let Drawer { reader, count } = any_drawer(&mut random);
        let [mut drawer, mut other] = [(); 2].map(|()| vespruldo::Drawer::start(reader, count));
        let batch = seal_batch(&key, &mut drawer, Data(b"class 7"), &texts).expect("sealed");

        let all = texts.concat();
        let (mut room, mut tags) = (vec![0; all.len() + 1], vec![[0; 16]; cards]);
        let data = Data(b"class 7");
        let nonces = seal_batch_into(&key, &mut other, data, &all, &lengths, &mut room, &mut tags);
        let nonces = nonces.expect("sealed");
        assert_eq!(other, drawer);
        assert!(nonces.eq(batch.iter().map(|card| card.nonce)));
        let of_batch: Vec<u8> = batch
            .iter()
            .flat_map(|card| card.ciphertext.clone())
            .collect();
        assert_eq!(room, [&of_batch[..], &[0]].concat());
        let of_batch = batch.iter().map(|card: &Sealed| *card.tag.as_bytes());
        assert!(tags
            .into_iter()
            .map(|tag| *Tag::from(tag).as_bytes())
            .eq(of_batch));
    }
}

/// What the typed form refuses these texts with; the drawer is what it was.
fn typed_refusal(data: &[u8], left: u64, texts: &[&[u8]]) -> Option<Refusal> {
    let key = Key::from([1; 16]);
    let mut drawer = vespruldo::Drawer::start(5, u64::MAX - left);
    let outcome = seal_batch(&key, &mut drawer, Data(data), texts);
    let drawn = outcome.as_ref().map_or(0, Vec::len) as u64;
    assert_eq!(drawer, vespruldo::Drawer::start(5, u64::MAX - left + drawn));
    outcome.err()
}

/// Texts that are too long or too many are not copied, and refused as if they were.
#[test]
fn typed_refusals_are_the_documents() {
    let long = vec![7; LONGEST_TEXT + 1];
    let too_long = |cards: usize, place: usize| {
        let mut texts = vec![&long[..3]; cards];
        texts[place] = &long;
        texts
    };
    let data = &long[..=LONGEST_DATA];
    for cards in [1, 2, 12, 13, 30] {
        for place in [0, cards - 1] {
            let texts = too_long(cards, place);
            assert_eq!(typed_refusal(data, 0, &texts), Some(Refusal::DataLength));
            assert_eq!(typed_refusal(b"", 0, &texts), Some(Refusal::TextLength));
            assert_eq!(typed_refusal(b"", 50, &texts), Some(Refusal::TextLength));
        }
        let texts = vec![&long[..3]; cards];
        assert_eq!(typed_refusal(data, 0, &texts), Some(Refusal::DataLength));
        let left = cards as u64;
        let spent = Some(Refusal::DrawerSpent);
        assert_eq!(typed_refusal(b"", left - 1, &texts), spent);
        let many = (cards > 12).then_some(Refusal::BatchForm);
        assert_eq!(typed_refusal(b"", left, &texts), many);
    }
    assert_eq!(typed_refusal(data, 0, &[]), Some(Refusal::DataLength));
    assert_eq!(typed_refusal(b"", 0, &[]), Some(Refusal::BatchForm));
    assert_eq!(typed_refusal(b"", 12, &[&[][..]; 12]), None);
    let many = typed_refusal(b"", 13, &[&[][..]; 13]);
    assert_eq!(many, Some(Refusal::BatchForm));
}

/// The lent form refuses what the types do not rule out.
#[test]
fn lent_refusals_are_the_documents() {
    let key = Key::from([1; 16]);
    let refused = |texts: &[u8], lengths: &[u64], room: usize, tags: usize, left: u64| {
        let (mut room, mut tags) = (vec![7; room], vec![[7; 16]; tags]);
        let before = (room.clone(), tags.clone());
        let start = || vespruldo::Drawer::start(5, u64::MAX - left);
        let mut drawer = start();
        let data = Data(b"class 7");
        let outcome = seal_batch_into(
            &key,
            &mut drawer,
            data,
            texts,
            lengths,
            &mut room,
            &mut tags,
        );
        let refusal = outcome.err();
        assert_eq!((drawer == start(), (room, tags) == before), (true, true));
        refusal.expect("refused")
    };
    let long = LONGEST_TEXT as u64 + 1;
    assert_eq!(refused(b"catox", &[3, long], 4, 1, 1), Refusal::TextLength);
    assert_eq!(refused(b"catox", &[3, 1], 4, 1, 1), Refusal::TagLength);
    assert_eq!(refused(b"catox", &[3, 1], 4, 2, 1), Refusal::RoomLength);
    assert_eq!(refused(b"catox", &[3, 1], 5, 2, 1), Refusal::DrawerSpent);
    assert_eq!(refused(b"catox", &[3, 1], 5, 2, 2), Refusal::BatchForm);
    assert_eq!(refused(b"catox", &[], 5, 0, 0), Refusal::BatchForm);
}
