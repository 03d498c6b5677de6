//! HyENA in one buffer: the archive beside the second implementation, and both
//! beside sealing and opening from one buffer to another.

mod common;

use common::cards::{Card, Parts};
use common::pairs::{choices_of_lengths, judged, open_in_place, seal_in_place};
use common::{emulated, times, up_to, with_flip, LONGEST_DATA, LONGEST_TEXT};
use second::random::Random;
use vespruldo::{slices, Data, Key, Nonce, Refusal, Tag, UsedNonce};

/// Under an emulator the longest text is held to the archive's sealing from one
/// buffer to another alone, and a wrong tag on it is left to tests/guarded.
fn with_second(text_len: usize) -> bool {
    text_len < LONGEST_TEXT || !emulated()
}

impl Card {
    /// Random-looking bytes, sealed from one buffer to another, which tests/hyena.rs
    /// compares. Both seal them in place with the same outcome, and open them
    /// again; so does the crate's root.
    fn random(random: &mut Random, data_len: usize, text_len: usize) -> Card {
        let [key, nonce, data, text] = [16, 12, data_len, text_len].map(|len| random.bytes(len));
        let (mut ciphertext, mut tag) = (vec![0; text_len], vec![0; 16]);
        let sealed = slices::seal(&key, &nonce, &data, &text, &mut ciphertext, &mut tag);
        assert_eq!(sealed, Ok(()));
        let card = Card {
            key,
            nonce,
            data,
            text,
            ciphertext,
            tag,
        };
        card.is_that_of_the_root();
        if with_second(text_len) {
            card.is_sealed(&random.bytes(16));
            card.opens();
        }
        card
    }

    fn is_sealed(&self, tag_before: &[u8]) {
        let read: [&[u8]; 3] = [&self.key, &self.nonce, &self.data];
        let [buffer, tag] = seal_in_place().done(read, [&self.text, tag_before]);
        assert!(buffer == self.ciphertext, "text {}", self.text.len());
        assert_eq!(tag, self.tag);
    }

    fn opens(&self) {
        let read: [&[u8]; 4] = [&self.key, &self.nonce, &self.data, &self.tag];
        let [opened] = open_in_place().done(read, [&self.ciphertext]);
        assert!(opened == self.text, "text {}", self.text.len());
    }

    fn is_that_of_the_root(&self) {
        let key = Key::try_from(&self.key[..]).expect("a key");
        let nonce = Nonce::never_used(self.nonce[..].try_into().expect("a nonce"));
        let mut buffer = self.text.clone();
        let sealed = vespruldo::seal_in_place(&key, nonce, Data(&self.data), &mut buffer);
        let (used, tag) = sealed.expect("sealed");
        assert!(buffer == self.ciphertext, "text {}", self.text.len());
        assert_eq!(used.as_ref(), self.nonce);
        assert_eq!(tag.as_ref(), self.tag);
        let opened = vespruldo::open_in_place(&key, &used, Data(&self.data), &mut buffer, &tag);
        assert_eq!(opened, Ok(()));
        assert!(buffer == self.text, "text {}", self.text.len());
    }
}

/// Both refuse to open these with 7, which leaves zeros: `refused` looks at every
/// byte. So does the crate's root.
fn refuse([key, nonce, data, ciphertext, tag]: Parts) {
    open_in_place().refused(7, [key, nonce, data, tag], [ciphertext]);
    let key = Key::try_from(key).expect("a key");
    let nonce = UsedNonce::try_from(nonce).expect("a nonce");
    let tag = Tag::try_from(tag).expect("a tag");
    let mut buffer = ciphertext.to_vec();
    let refused = vespruldo::open_in_place(&key, &nonce, Data(data), &mut buffer, &tag);
    assert_eq!(refused, Err(Refusal::WrongTag));
    assert!(buffer.iter().all(|&byte| byte == 0));
}

/// Both on random-looking bytes of these lengths.
fn compare(random: &mut Random, [key, nonce, data, buffer, tag]: [usize; 5]) {
    seal_in_place().compare(random, [key, nonce, data], [buffer, tag]);
    open_in_place().compare(random, [key, nonce, data, tag], [buffer]);
}

#[test]
fn every_short_length_is_sealed_and_opened_again() {
    let mut random = Random::new(220);
    let most = if emulated() { 34 } else { 70 };
    for data_len in 0..=most {
        for text_len in 0..=most {
            Card::random(&mut random, data_len, text_len);
        }
    }
}

#[test]
fn random_cards_agree_and_damage_is_refused() {
    let mut random = Random::new(221);
    for _ in 0..times(4000) {
        let [data_len, text_len] = [100, 200].map(|most| up_to(&mut random, most));
        let card = Card::random(&mut random, data_len, text_len);
        for (n, part) in card.parts().into_iter().enumerate() {
            if !part.is_empty() {
                let flipped = with_flip(part, up_to(&mut random, 8 * part.len() - 1));
                refuse(card.with(n, &flipped));
            }
        }
    }
}

/// The last two are texts of several blocks of which none is partial, and of one
/// that is.
#[test]
fn every_bit_that_is_opened_counts() {
    let mut random = Random::new(222);
    for (data_len, text_len) in [
        (0, 0),
        (1, 1),
        (16, 15),
        (7, 16),
        (15, 17),
        (0, 32),
        (17, 40),
    ] {
        let card = Card::random(&mut random, data_len, text_len);
        for (n, part) in card.parts().into_iter().enumerate() {
            for i in 0..8 * part.len() {
                refuse(card.with(n, &with_flip(part, i)));
            }
        }
    }
}

/// Every bit read, and every bit of the text, changes ciphertext and tag. What
/// the tag's room held before is no input.
#[test]
fn every_bit_that_is_sealed_counts() {
    let mut random = Random::new(223);
    for (data_len, text_len) in [(0, 16), (16, 17), (9, 40)] {
        let [key, nonce, data, text, tag] =
            [16, 12, data_len, text_len, 16].map(|len| random.bytes(len));
        let read: [&[u8]; 3] = [&key, &nonce, &data];
        seal_in_place().damage_read(read, [&text, &tag]);
        let undamaged = seal_in_place().done(read, [&text, &tag]);
        for i in 0..8 * text_len {
            let damaged = seal_in_place().done(read, [&with_flip(&text, i), &tag]);
            assert_ne!(damaged[0], undamaged[0], "bit {i}");
            assert_ne!(damaged[1], undamaged[1], "bit {i}");
        }
        for i in 0..128 {
            let damaged = seal_in_place().done(read, [&text, &with_flip(&tag, i)]);
            assert_eq!(damaged, undamaged, "bit {i}");
        }
    }
}

#[test]
fn all_lengths_agree_and_nothing_else_changes() {
    let mut random = Random::new(224);
    for key in [0, 1, 15, 16, 17, 32] {
        for nonce in [0, 1, 11, 12, 13, 16, 24] {
            for tag in [0, 1, 8, 15, 16, 17, 32] {
                for (data, buffer) in [(0, 0), (0, 1), (1, 16), (16, 17)] {
                    compare(&mut random, [key, nonce, data, buffer, tag]);
                }
            }
        }
    }
    for len in 0..=64 {
        compare(&mut random, [len, 12, 0, 20, 16]);
        compare(&mut random, [16, len, 0, 20, 16]);
        compare(&mut random, [16, 12, 0, 20, len]);
        compare(&mut random, [16, 12, len, 20, 16]);
        compare(&mut random, [16, 12, 5, len, 16]);
    }
}

/// The smallest number is given.
#[test]
fn refusals_come_in_the_order_of_the_numbers() {
    let mut random = Random::new(225);
    for (lens, smallest) in choices_of_lengths() {
        let [key, nonce, data, buffer, tag] = lens;
        let number = judged([key, nonce, data, buffer, tag, buffer]);
        assert_eq!(number, smallest, "{lens:?}");
        compare(&mut random, lens);
    }
}

#[test]
fn longest_data_and_texts_are_sealed_and_opened_again() {
    let mut random = Random::new(226);
    for (data_len, text_len) in [(LONGEST_DATA, 17), (3, 65_536), (0, LONGEST_TEXT)] {
        let card = Card::random(&mut random, data_len, text_len);
        if with_second(text_len) {
            refuse(card.with(4, &with_flip(&card.tag, 127)));
        }
    }
    compare(&mut random, [16, 12, LONGEST_DATA + 1, 17, 16]);
    compare(&mut random, [16, 12, 0, LONGEST_TEXT + 1, 16]);
}

/// At the crate's root too, where nothing else can be refused.
#[test]
fn lengths_beyond_the_documents_are_refused_and_leave_the_buffer() {
    let key = Key::from([1; 16]);
    let long = vec![7; LONGEST_TEXT + 1];
    let data = Data(&long[..=LONGEST_DATA]);
    for (data, len, refusal) in [
        (Data(&[]), LONGEST_TEXT + 1, Refusal::TextLength),
        (data, 20, Refusal::DataLength),
        (data, LONGEST_TEXT + 1, Refusal::DataLength),
    ] {
        let mut buffer = long[..len].to_vec();
        let nonce = Nonce::never_used([2; 12]);
        let refused = vespruldo::seal_in_place(&key, nonce, data, &mut buffer);
        assert_eq!(refused.err(), Some(refusal));
        let (nonce, tag) = (UsedNonce::from([2; 12]), Tag::from([3; 16]));
        let refused = vespruldo::open_in_place(&key, &nonce, data, &mut buffer, &tag);
        assert_eq!(refused, Err(refusal));
        assert!(buffer == long[..len], "{len}");
    }
}

/// Lengths that are allowed to whoever keeps only their low bits.
#[test]
fn no_length_is_cut_before_it_is_judged() {
    let mut random = Random::new(227);
    for more in [1 << 8, 1 << 16, 1 << 24] {
        compare(&mut random, [more + 16, 12, 0, 20, 16]);
        compare(&mut random, [16, more + 12, 0, 20, 16]);
        compare(&mut random, [16, 12, 0, 20, more + 16]);
    }
    compare(&mut random, [16, 12, (1 << 24) + 5, 20, 16]);
    compare(&mut random, [16, 12, 0, (1 << 24) + 20, 16]);
}

#[test]
#[cfg(target_pointer_width = "64")]
fn lengths_of_2_to_the_32_and_more_are_refused() {
    seal_in_place().refuse_huge([16, 12, 5], [20, 16]);
    open_in_place().refuse_huge([16, 12, 5, 16], [20]);
}

/// A slice of nothing lies nowhere.
#[test]
fn empty_slices_are_judged_and_taken() {
    let (key, nonce) = ([1; 16], [2; 12]);
    let mut tag = [0; 16];
    let sealed = slices::seal_in_place(&key, &nonce, &[], &mut [], &mut tag);
    assert_eq!(sealed, Ok(()));
    assert_eq!(
        slices::open_in_place(&key, &nonce, &[], &mut [], &tag),
        Ok(())
    );
    let refused = slices::open_in_place(&key, &nonce, &[], &mut [], &[7; 16]);
    assert_eq!(refused, Err(Refusal::WrongTag));
    let refused = slices::open_in_place(&key, &nonce, &[], &mut [], &[]);
    assert_eq!(refused, Err(Refusal::TagLength));
    let refused = slices::seal_in_place(&key, &[], &[], &mut [], &mut []);
    assert_eq!(refused, Err(Refusal::NonceLength));
    let refused = slices::open_in_place(&[], &[], &[], &mut [], &[]);
    assert_eq!(refused, Err(Refusal::KeyLength));
}
