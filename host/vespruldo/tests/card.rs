//! Whole cards of the archive beside the second implementation, and beside what
//! the crate's root makes of the same bytes.

mod common;

use common::pairs::{card_open, card_seal, judged_card_open};
use common::{
    emulated, number, times, up_to, with_flip, Guarded, CARD_EXTRA, LONGEST_CARD_TEXT,
    LONGEST_DATA, LONGEST_TEXT,
};
use second::random::Random;
use vespruldo::{open, seal, slices, Data, Key, Nonce, Refusal, Sealed, Tag, UsedNonce};

/// A card, and what it was made from.
#[derive(Clone)]
struct Card {
    key: Vec<u8>,
    data: Vec<u8>,
    text: Vec<u8>,
    bytes: Vec<u8>,
}

impl Card {
    /// Both seal random-looking bytes, and so does the crate's root; the rest of
    /// longer room keeps its bytes.
    fn random(random: &mut Random, data_len: usize, text_len: usize) -> Card {
        let [key, nonce, data, text] = [16, 12, data_len, text_len].map(|len| random.bytes(len));
        let more = up_to(random, 20);
        let before = random.bytes(text_len + CARD_EXTRA + more);
        let [mut bytes] = card_seal().done([&key, &nonce, &data, &text], [&before]);
        let rest = bytes.split_off(text_len + CARD_EXTRA);
        assert_eq!(rest, before[text_len + CARD_EXTRA..]);

        let fresh = Nonce::never_used(nonce[..].try_into().expect("a nonce"));
        let sealed = seal(&key_of(&key), fresh, Data(&data), &text).expect("sealed");
        let stored = sealed.to_bytes().expect("a card");
        assert!(stored == bytes, "text {text_len}");
        let fresh = Nonce::never_used(nonce[..].try_into().expect("a nonce"));
        let mut room = before.clone();
        let len = vespruldo::card_seal(&key_of(&key), fresh, Data(&data), &text, &mut room);
        assert_eq!(len, Ok(text_len + CARD_EXTRA));
        assert!(room[..text_len + CARD_EXTRA] == bytes, "text {text_len}");
        Card {
            key,
            data,
            text,
            bytes,
        }
    }

    /// Both open it to its text, and so does the crate's root; the rest of longer
    /// room keeps its bytes.
    fn opens(&self, random: &mut Random) {
        let more = up_to(random, 20);
        let before = random.bytes(self.text.len() + more);
        let [mut room] = card_open().done([&self.key, &self.data, &self.bytes], [&before]);
        let rest = room.split_off(self.text.len());
        assert!(room == self.text, "text {}", self.text.len());
        assert_eq!(rest, before[self.text.len()..]);
        let opened = self.at_root(&self.bytes).expect("opened");
        assert!(opened == self.text, "text {}", self.text.len());
    }

    /// What the crate's root makes of these bytes in place of the card's, with
    /// room that is lent and by taking them apart; then they come back as they
    /// were.
    fn at_root(&self, bytes: &[u8]) -> Result<Vec<u8>, Refusal> {
        let mut room = bytes.to_vec();
        let key = key_of(&self.key);
        let lent = vespruldo::card_open(&key, Data(&self.data), bytes, &mut room);
        let apart = self.apart(bytes);
        assert_eq!(lent.map(|len| room[..len].to_vec()), apart);
        apart
    }

    fn apart(&self, bytes: &[u8]) -> Result<Vec<u8>, Refusal> {
        let sealed = Sealed::from_bytes(bytes).inspect_err(|why| {
            assert!([12, 15].contains(&why.number()), "{why}");
        })?;
        assert!(sealed.to_bytes().expect("a card") == bytes);
        open(&key_of(&self.key), Data(&self.data), &sealed)
    }

    /// Both judge these bytes in place of the card's, with room for any text, and
    /// the crate's root judges them in the same way. Answers the number.
    fn tried(&self, random: &mut Random, bytes: &[u8]) -> u32 {
        let read = [&self.key, &self.data, bytes].map(|part| Guarded::holding(random, part));
        let room = Guarded::new(random, bytes.len());
        let (answered, _) = card_open().run(read, [room]);
        assert_eq!(number(self.at_root(bytes)), answered, "{}", bytes.len());
        answered
    }

    /// All refuse these bytes in place of the card's, which say that their text
    /// has `said` bytes and whose tag is wrong. Answers the number.
    fn refused(&self, random: &mut Random, bytes: &[u8], said: usize) -> u32 {
        let judged = judged_card_open([16, self.data.len(), bytes.len()], said, bytes.len());
        let expected = if judged == 0 { 7 } else { judged };
        assert_eq!(self.tried(random, bytes), expected, "{}", bytes.len());
        expected
    }
}

fn key_of(bytes: &[u8]) -> Key {
    Key::try_from(bytes).expect("a key")
}

/// The length that a card says.
fn said(card: &[u8]) -> usize {
    usize::from(u16::from_le_bytes([card[12], card[13]]))
}

#[test]
fn every_short_length_is_sealed_and_opened_again() {
    let mut random = Random::new(200);
    let most = if emulated() { 18 } else { 40 };
    for data_len in 0..=most {
        for text_len in 0..=most {
            Card::random(&mut random, data_len, text_len).opens(&mut random);
        }
    }
}

/// The borders of blocks and of the two bytes of the length.
#[test]
fn edges_are_sealed_and_opened_again() {
    let mut random = Random::new(201);
    for (data_len, text_len) in [
        (0, 0),
        (7, 1),
        (0, 15),
        (7, 16),
        (0, 17),
        (7, 255),
        (0, 256),
        (7, 257),
        (0, LONGEST_CARD_TEXT),
        (LONGEST_DATA, 17),
    ] {
        let card = Card::random(&mut random, data_len, text_len);
        assert_eq!(said(&card.bytes), text_len);
        card.opens(&mut random);
    }
}

#[test]
fn random_cards_agree_and_damage_is_refused() {
    let mut random = Random::new(202);
    for _ in 0..times(4000) {
        let [data_len, text_len] = [60, 300].map(|most| up_to(&mut random, most));
        let card = Card::random(&mut random, data_len, text_len);
        card.opens(&mut random);
        let bit = up_to(&mut random, 8 * card.bytes.len() - 1);
        let flipped = with_flip(&card.bytes, bit);
        card.refused(&mut random, &flipped, said(&flipped));
    }
}

/// A bit of the length makes a card cut short or longer than it says; any other
/// bit, of key or data too, makes its tag a wrong one. Of the longest card, whose
/// length has two bytes that count, the beginning is tried.
#[test]
fn every_flipped_bit_is_refused() {
    let mut random = Random::new(203);
    for text_len in [0, 1, 16, 17, 256] {
        let card = Card::random(&mut random, 5, text_len);
        for bit in 0..8 * card.bytes.len().min(60) {
            let flipped = with_flip(&card.bytes, bit);
            let refused = card.refused(&mut random, &flipped, said(&flipped));
            let of_length = [12, 13].contains(&(bit / 8));
            assert_eq!(refused == 7, !of_length, "text {text_len}, bit {bit}");
        }
        for bit in 0..8 * (16 + 5_usize) {
            let mut other = card.clone();
            match bit.checked_sub(8 * 16) {
                None => other.key = with_flip(&card.key, bit),
                Some(bit) => other.data = with_flip(&card.data, bit),
            }
            assert_eq!(other.tried(&mut random, &card.bytes), 7, "bit {bit}");
        }
    }
}

/// Every beginning of a card, and what begins with one.
#[test]
fn cards_of_another_length_than_they_say_are_refused() {
    let mut random = Random::new(204);
    for text_len in [0, 1, 2, 15, 16, 17, 255, 256, 300] {
        let card = Card::random(&mut random, 3, text_len);
        for len in 0..card.bytes.len() {
            let cut = &card.bytes[..len];
            assert_eq!(card.tried(&mut random, cut), 12, "text {text_len}, {len}");
        }
        for more in [1, 2, 16, 30, 255, 256, 65_536] {
            let longer = [&card.bytes[..], &random.bytes(more)].concat();
            assert_eq!(card.tried(&mut random, &longer), 15, "{text_len}, {more}");
        }
        // A byte of the ciphertext lost or put in, and the length changed with it.
        let mut shorter = card.bytes.clone();
        shorter.remove(14);
        if text_len > 0 {
            shorter[12..14].copy_from_slice(&(text_len as u16 - 1).to_le_bytes());
            assert_eq!(card.tried(&mut random, &shorter), 7, "text {text_len}");
        }
        let mut longer = card.bytes.clone();
        longer.insert(14, 0);
        longer[12..14].copy_from_slice(&(text_len as u16 + 1).to_le_bytes());
        assert_eq!(card.tried(&mut random, &longer), 7, "text {text_len}");
    }
}

/// Bytes of every short length that say every kind of length; those beyond the
/// end count as 0.
#[test]
fn any_bytes_are_judged_alike() {
    let mut random = Random::new(205);
    let maker = Card::random(&mut random, 3, 0);
    for len in 0..=120 {
        for length in [0, 1, len.max(CARD_EXTRA) - CARD_EXTRA, 90, 256, 65_535] {
            let mut bytes = random.bytes(len);
            let said = (length as u16).to_le_bytes();
            for (place, byte) in (12..14).zip(said) {
                if place < len {
                    bytes[place] = byte;
                }
            }
            maker.refused(&mut random, &bytes, if len < 14 { 0 } else { length });
        }
    }
    for _ in 0..times(20_000) {
        let len = 14 + up_to(&mut random, 400);
        let mut bytes = random.bytes(len);
        bytes[13] = up_to(&mut random, 1) as u8;
        maker.refused(&mut random, &bytes, said(&bytes));
    }
    for len in 0..14 {
        assert_eq!(maker.tried(&mut random, &vec![0xff; len]), 12, "{len}");
    }
}

#[test]
fn longest_cards_are_damaged_cut_and_lengthened() {
    let mut random = Random::new(206);
    let card = Card::random(&mut random, 0, LONGEST_CARD_TEXT);
    for bit in [0, 8 * 14, 8 * card.bytes.len() - 1] {
        let flipped = with_flip(&card.bytes, bit);
        assert_eq!(card.tried(&mut random, &flipped), 7, "bit {bit}");
    }
    let cut = &card.bytes[..card.bytes.len() - 1];
    assert_eq!(card.tried(&mut random, cut), 12);
    // Longer than any card can be, whatever it says.
    let longer = [&card.bytes[..], &[0]].concat();
    for length in [0, 1, LONGEST_CARD_TEXT] {
        let mut longer = longer.clone();
        longer[12..14].copy_from_slice(&(length as u16).to_le_bytes());
        assert_eq!(card.tried(&mut random, &longer), 15, "{length}");
    }
}

#[test]
fn all_lengths_agree_in_sealing_and_nothing_else_changes() {
    let mut random = Random::new(207);
    for key in [0, 1, 15, 16, 17, 32] {
        for nonce in [0, 1, 11, 12, 13, 24] {
            for (data, text) in [(0, 0), (0, 1), (1, 16), (16, 17)] {
                for room in [0, 16, 29, 30, 31, 45, 46, 47, 60] {
                    card_seal().compare(&mut random, [key, nonce, data, text], [room]);
                }
            }
        }
    }
    for room in 0..=80 {
        for text in [0, 1, 15, 16, 17, 33] {
            card_seal().compare(&mut random, [16, 12, 3, text], [room]);
        }
    }
    for (number, text, room) in [
        (0, LONGEST_CARD_TEXT, LONGEST_CARD_TEXT + CARD_EXTRA),
        (6, LONGEST_CARD_TEXT, LONGEST_CARD_TEXT + CARD_EXTRA - 1),
        (4, LONGEST_CARD_TEXT + 1, LONGEST_CARD_TEXT + CARD_EXTRA + 1),
        (4, LONGEST_TEXT, LONGEST_TEXT + CARD_EXTRA),
        (4, LONGEST_TEXT + 1, 0),
    ] {
        card_seal().answer(number, &mut random, [16, 12, 0, text], [room]);
    }
    card_seal().answer(0, &mut random, [16, 12, LONGEST_DATA, 3], [33]);
    card_seal().answer(3, &mut random, [16, 12, LONGEST_DATA + 1, 3], [33]);
}

/// Every choice of what is wrong, in sealing: the first of 1, 2, 3, 4 and 6.
#[test]
fn refusals_of_sealing_come_in_their_order() {
    let mut random = Random::new(208);
    let numbers = [1, 2, 3, 4, 6];
    for choice in 0..1 << numbers.len() {
        let is_wrong = |n: usize| choice >> n & 1 == 1;
        let first = (0..numbers.len()).find(|&n| is_wrong(n));
        let len = |n, right, wrong| if is_wrong(n) { wrong } else { right };
        let text = len(3, 20, LONGEST_CARD_TEXT + 1);
        let read_lens = [
            len(0, 16, 17),
            len(1, 12, 11),
            len(2, 5, LONGEST_DATA + 1),
            text,
        ];
        let room = len(4, text + CARD_EXTRA, text + CARD_EXTRA - 1);
        let number = first.map_or(0, |n| numbers[n]);
        card_seal().answer(number, &mut random, read_lens, [room]);
    }
}

/// The same in opening: the first of 1, 3, 12, 15, 6 and 7. No card is both cut
/// short and longer than it says.
#[test]
fn refusals_of_opening_come_in_their_order() {
    let mut random = Random::new(209);
    let card = Card::random(&mut random, 5, 20);
    let long = vec![5; LONGEST_DATA + 1];
    let cut = &card.bytes[..card.bytes.len() - 1];
    let longer = [&card.bytes[..], &[7]].concat();
    let flipped = with_flip(&card.bytes, 8 * 14);
    for (key, of_key) in [(&card.key[..], 0), (&card.key[1..], 1)] {
        for (data, of_data) in [(&card.data[..], 0), (&long, 3)] {
            for (bytes, of_card, of_tag) in [
                (&card.bytes[..], 0, 0),
                (cut, 12, 0),
                (&longer, 15, 0),
                (&flipped, 0, 7),
            ] {
                for (room, of_room) in [([9; 20].as_slice(), 0), (&[9; 19], 6)] {
                    let all = [of_key, of_data, of_card, of_room, of_tag];
                    match all.into_iter().find(|number| *number != 0) {
                        Some(number) => card_open().refused(number, [key, data, bytes], [room]),
                        None => assert_eq!(
                            card_open().done([key, data, bytes], [room]),
                            [&card.text[..]]
                        ),
                    }
                }
            }
        }
    }
}

/// Room of every length, for cards that open and for cards that do not.
#[test]
fn room_for_the_text_is_judged() {
    let mut random = Random::new(210);
    for text_len in [0, 1, 16, 17] {
        let card = Card::random(&mut random, 3, text_len);
        let damaged = with_flip(&card.bytes, 3);
        for room_len in 0..=40 {
            let room = random.bytes(room_len);
            let read: [&[u8]; 3] = [&card.key, &card.data, &card.bytes];
            if room_len < text_len {
                card_open().refused(6, read, [&room]);
            } else {
                card_open().done(read, [&room]);
            }
            let number = if room_len < text_len { 6 } else { 7 };
            card_open().refused(number, [&card.key, &card.data, &damaged], [&room]);
        }
    }
}

#[test]
fn every_bit_that_is_sealed_counts() {
    let mut random = Random::new(211);
    for (data_len, text_len) in [(0, 16), (9, 17), (20, 40)] {
        let [key, nonce, data, text] = [16, 12, data_len, text_len].map(|len| random.bytes(len));
        let before = random.bytes(text_len + CARD_EXTRA);
        let read: [&[u8]; 4] = [&key, &nonce, &data, &text];
        card_seal().damage_read(read, [&before]);
        card_seal().damage_worked(read, [&before], |undamaged, damaged| damaged == undamaged);
    }
}

/// Lengths that are allowed to whoever keeps only their low bits.
#[test]
fn no_length_is_cut_before_it_is_judged() {
    let mut random = Random::new(212);
    let card = Card::random(&mut random, 5, 20);
    for more in [1 << 8, 1 << 16, 1 << 24] {
        for lens in [[more + 16, 12, 5, 20], [16, more + 12, 5, 20]] {
            card_seal().compare(&mut random, lens, [50]);
        }
        let zeros = vec![0; more];
        let key = [&card.key[..], &zeros].concat();
        card_open().refused(1, [&key, &card.data, &card.bytes], [&[9; 20]]);
        let longer = [&card.bytes[..], &zeros].concat();
        card_open().refused(15, [&card.key, &card.data, &longer], [&[9; 20]]);
    }
    for more in [1 << 16, 1 << 24] {
        card_seal().answer(4, &mut random, [16, 12, 5, more + 20], [more + 50]);
        card_seal().answer(0, &mut random, [16, 12, 5, 20], [more]);
        card_seal().answer(0, &mut random, [16, 12, 5, 20], [more + 49]);
    }
    card_seal().answer(3, &mut random, [16, 12, (1 << 24) + 5, 20], [50]);
}

#[test]
#[cfg(target_pointer_width = "64")]
fn lengths_of_2_to_the_32_and_more_are_refused() {
    // All but the room, which may be as long as one likes.
    for n in 0..4 {
        card_seal().refuse_one_huge(n, [16, 12, 5, 20], [50]);
    }
    for n in 0..3 {
        card_open().refuse_one_huge(n, [16, 5, 50], [20]);
    }
}

/// The low 32 bits of this room's length are less than what is needed.
#[test]
#[cfg(target_pointer_width = "64")]
fn room_of_2_to_the_32_bytes_and_more_is_taken() {
    let mut random = Random::new(213);
    let card = Card::random(&mut random, 5, 20);
    let mut room = vec![0; (1 << 32) + 19];
    let opened = slices::card_open(&card.key, &card.data, &card.bytes, &mut room);
    assert_eq!(opened, Ok(()));
    assert_eq!(room[..20], card.text);
    room[..20].fill(0);
    let nonce = &card.bytes[..12];
    let sealed = slices::card_seal(&card.key, nonce, &card.data, &card.text, &mut room);
    assert_eq!(sealed, Ok(()));
    assert_eq!(room[..50], card.bytes);
    let ends = [&room[50..4096], &room[room.len() - 4096..]];
    assert!(ends.concat().iter().all(|&byte| byte == 0));
}

/// A slice of nothing lies nowhere.
#[test]
fn empty_slices_are_judged_and_taken() {
    let (key, nonce) = ([1; 16], [2; 12]);
    let mut card = [0; CARD_EXTRA];
    assert_eq!(slices::card_seal(&key, &nonce, &[], &[], &mut card), Ok(()));
    assert_eq!(slices::card_open(&key, &[], &card, &mut []), Ok(()));
    let refused = slices::card_open(&key, &[], &[], &mut []);
    assert_eq!(refused, Err(Refusal::CutShort));
    let refused = slices::card_seal(&key, &nonce, &[], &[], &mut []);
    assert_eq!(refused, Err(Refusal::RoomLength));
    let refused = slices::card_seal(&[], &[], &[], &[], &mut []);
    assert_eq!(refused, Err(Refusal::KeyLength));
    let refused = slices::card_open(&[], &[], &[], &mut []);
    assert_eq!(refused, Err(Refusal::KeyLength));
}

/// What was sealed by hand, of any length that a card can have and one more.
#[test]
fn cards_as_bytes_are_nonce_length_ciphertext_and_tag() {
    let mut random = Random::new(214);
    for len in [0, 1, 15, 16, 17, 255, 256, LONGEST_CARD_TEXT] {
        let [nonce, ciphertext, tag] = [12, len, 16].map(|len| random.bytes(len));
        let sealed = Sealed {
            nonce: UsedNonce::try_from(&nonce[..]).expect("a nonce"),
            ciphertext: ciphertext.clone(),
            tag: Tag::try_from(&tag[..]).expect("a tag"),
        };
        let bytes = sealed.clone().to_bytes().expect("a card");
        let length = [(len % 256) as u8, (len / 256) as u8];
        assert!(bytes == [&nonce[..], &length, &ciphertext, &tag].concat());
        for taken in [Sealed::from_bytes(&bytes), Sealed::try_from(&bytes[..])] {
            let taken = taken.expect("a card");
            assert_eq!(taken.nonce, sealed.nonce);
            assert!(taken.ciphertext == ciphertext);
            assert_eq!(taken.tag.as_ref(), tag);
        }
    }
    let too_long = Sealed {
        nonce: UsedNonce::from([1; 12]),
        ciphertext: vec![2; LONGEST_CARD_TEXT + 1],
        tag: Tag::from([3; 16]),
    };
    assert_eq!(too_long.to_bytes(), Err(Refusal::TextLength));
}
