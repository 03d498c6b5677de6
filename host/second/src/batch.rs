//! Sealing up to twelve cards in one call (document 02, K3). Quotations are from
//! there.

use std::ops::RangeInclusive;

use crate::drawer::{draw, Drawer};
use crate::hyena::{self, LONGEST_AD};
use crate::LONGEST_TEXT;

/// "One call takes 1 to 12 texts end to end".
const CARDS: RangeInclusive<usize> = 1..=12;

/// The bytes in "a tag for each" (document 01, Sizes).
const TAG: usize = 16;

/// What a batch answers: the document's number, and the drawer that is handed
/// back.
#[derive(Clone, Copy, Debug, PartialEq, Eq)]
pub struct Batch {
    pub number: u32,
    pub next: Drawer,
}

/// The number of the first refusal that applies, in the order 1, 3, 4, 5, 6, 9,
/// 18, or 0. Lengths are counted and added in 128 bits, which they cannot fill.
fn refusal(
    key: &[u8],
    data: &[u8],
    texts: &[u8],
    lengths: &[u64],
    drawer: Drawer,
    room: &[u8],
    tags: &[u8],
) -> u32 {
    let listed = lengths.len() as u128;
    if key.len() != 16 {
        return 1;
    }
    if data.len() > LONGEST_AD {
        return 3;
    }
    // "4 for any single length above 1,048,576, never for the whole text".
    if lengths.iter().any(|&length| length > LONGEST_TEXT as u64) {
        return 4;
    }
    // "5 when the tag room isn't 16 bytes for each length listed".
    if tags.len() as u128 != TAG as u128 * listed {
        return 5;
    }
    // "6 when the room is shorter than the whole text".
    if room.len() < texts.len() {
        return 6;
    }
    // "9 here exactly when fewer draws remain than lengths listed". The last
    // count that is drawn is 2^64−2.
    if u128::from(u64::MAX - drawer.count) < listed {
        return 9;
    }
    // "18, last in order, when there are no cards, more than 12, or lengths that
    // don't add up to the text".
    let sum: u128 = lengths.iter().map(|&length| u128::from(length)).sum();
    if !CARDS.contains(&lengths.len()) || sum != texts.len() as u128 {
        return 18;
    }
    0
}

/// Seals the texts that lie end to end in `texts` and have these lengths, all
/// with the associated data `data`: "it equals sealing them singly in order with
/// the next draws". Writes "ciphertexts end to end" to the front of `room` "and
/// a tag for each" to `tags`. Answers 0 done, 1 key has a wrong length, 3
/// associated data too long, 4 a length too long, 5 tags not 16 bytes for each
/// length, 6 room shorter than the texts, 9 too few draws remain, 18 not 1 to 12
/// lengths that add up to the texts. "A refused batch draws nothing and writes
/// nothing."
pub fn seal(
    key: &[u8],
    data: &[u8],
    texts: &[u8],
    lengths: &[u64],
    drawer: Drawer,
    room: &mut [u8],
    tags: &mut [u8],
) -> Batch {
    let number = refusal(key, data, texts, lengths, drawer, room, tags);
    let (mut next, mut place) = (drawer, 0);
    if number != 0 {
        return Batch { number, next };
    }
    for (&length, tag) in lengths.iter().zip(tags.chunks_mut(TAG)) {
        let end = place + usize::try_from(length).expect("at most 1,048,576");
        let (text, ciphertext) = (&texts[place..end], &mut room[place..end]);
        let drawn = draw(next);
        let sealed = hyena::seal(key, &drawn.bytes, data, text, ciphertext, tag);
        assert_eq!((drawn.number, sealed), (0, 0), "all of it was judged");
        (next, place) = (drawn.next, end);
    }
    Batch { number, next }
}

#[cfg(test)]
mod tests {
    use super::*;
    use crate::drawer::start;
    use crate::random::Random;

    /// What is lent for a batch.
    #[derive(Clone, Debug)]
    struct Lent {
        key: Vec<u8>,
        data: Vec<u8>,
        texts: Vec<u8>,
        lengths: Vec<u64>,
        drawer: Drawer,
        room: Vec<u8>,
        tags: Vec<u8>,
    }

    /// What a batch answers, and what room and tags hold then.
    type Sealed = (Batch, Vec<u8>, Vec<u8>);

    impl Lent {
        /// Texts of these lengths, with all that they need and room to spare.
        fn of(lengths: &[u64]) -> Lent {
            let mut random = Random::new(80);
            let len = lengths.iter().sum::<u64>() as usize;
            let [key, data, texts] = [16, 7, len].map(|len| random.bytes(len));
            Lent {
                key,
                data,
                texts,
                lengths: lengths.to_vec(),
                drawer: start(0x0a0b_0c0d, 0xfffe),
                room: vec![0xa5; len + 3],
                tags: vec![0x5a; 16 * lengths.len()],
            }
        }

        /// The same with a drawer in which this many draws remain.
        fn with_draws(mut self, left: u64) -> Lent {
            self.drawer.count = u64::MAX - left;
            self
        }

        fn seal(&self) -> Sealed {
            let (mut room, mut tags) = (self.room.clone(), self.tags.clone());
            let batch = seal(
                &self.key,
                &self.data,
                &self.texts,
                &self.lengths,
                self.drawer,
                &mut room,
                &mut tags,
            );
            (batch, room, tags)
        }

        /// The parts of `bytes` that belong to each card, and the rest.
        fn cut<'a>(&self, mut bytes: &'a [u8]) -> (Vec<&'a [u8]>, &'a [u8]) {
            let mut parts = Vec::new();
            for &length in &self.lengths {
                let (part, rest) = bytes.split_at(length as usize);
                parts.push(part);
                bytes = rest;
            }
            (parts, bytes)
        }

        /// "Sealing them singly in order with the next draws."
        fn singly(&self) -> Sealed {
            let (mut next, mut room, mut tags) = (self.drawer, Vec::new(), Vec::new());
            for text in self.cut(&self.texts).0 {
                let (mut ciphertext, mut tag) = (vec![0; text.len()], [0; 16]);
                let nonce = draw(next);
                let (key, data) = (&self.key, &self.data);
                let number = hyena::seal(key, &nonce.bytes, data, text, &mut ciphertext, &mut tag);
                assert_eq!((nonce.number, number), (0, 0));
                room.extend(ciphertext);
                tags.extend(tag);
                next = nonce.next;
            }
            room.extend(&self.room[self.texts.len()..]);
            (Batch { number: 0, next }, room, tags)
        }

        /// Expects what sealing singly gives.
        fn expect_done(&self) {
            // Not assert_eq, which would print a longest text.
            assert!(self.seal() == self.singly(), "{:?}", self.lengths);
        }

        /// "A refused batch draws nothing and writes nothing."
        fn expect_refused(&self, number: u32) {
            let next = self.drawer;
            let unchanged = (self.room.clone(), self.tags.clone());
            let (batch, room, tags) = self.seal();
            let (len, listed) = (self.texts.len(), self.lengths.len());
            let case = format!("{listed} listed, {len} bytes, {next:?}");
            assert_eq!(batch, Batch { number, next }, "{case}");
            assert!((room, tags) == unchanged, "{case}");
        }

        /// Expects done for 0, and otherwise this refusal.
        fn expect(&self, number: u32) {
            if number == 0 {
                self.expect_done();
            } else {
                self.expect_refused(number);
            }
        }
    }

    /// Three cards under draws that are written out: reader number, then count,
    /// both little-endian.
    #[test]
    fn three_cards_worked_by_hand() {
        let (key, data) = ([0x11; 16], [0x22; 5]);
        let card = |text: &[u8], nonce: [u8; 12]| {
            let (mut ciphertext, mut tag) = (vec![0; text.len()], vec![0; 16]);
            let number = hyena::seal(&key, &nonce, &data, text, &mut ciphertext, &mut tag);
            assert_eq!(number, 0);
            (ciphertext, tag)
        };
        let (cat, cat_tag) = card(b"cat", [4, 3, 2, 1, 0xfe, 0, 0, 0, 0, 0, 0, 0]);
        let (goose, goose_tag) = card(b"goose", [4, 3, 2, 1, 0xff, 0, 0, 0, 0, 0, 0, 0]);
        let (ox, ox_tag) = card(b"ox", [4, 3, 2, 1, 0, 1, 0, 0, 0, 0, 0, 0]);
        let (mut room, mut tags) = ([0xa5; 14], [0x5a; 48]);
        let batch = seal(
            &key,
            &data,
            b"catgooseox",
            &[3, 5, 2],
            start(0x0102_0304, 0xfe),
            &mut room,
            &mut tags,
        );
        assert_eq!((batch.number, batch.next), (0, start(0x0102_0304, 0x101)));
        assert_eq!(room[..], [cat, goose, ox, vec![0xa5; 4]].concat());
        assert_eq!(tags[..], [cat_tag, goose_tag, ox_tag].concat());
    }

    #[test]
    fn batches_equal_sealing_singly() {
        let mut random = Random::new(81);
        for listed in 1..=12 {
            for data_len in [0, 1, 16, 33] {
                let lengths: Vec<u64> = (0..listed).map(|_| random.below(40) as u64).collect();
                let mut lent = Lent::of(&lengths);
                lent.data = random.bytes(data_len);
                lent.expect_done();
                // Room without any to spare.
                lent.room.truncate(lent.texts.len());
                lent.expect_done();
            }
        }
    }

    #[test]
    fn empty_cards_are_sealed_among_others() {
        for lengths in [
            &[0][..],
            &[0, 0],
            &[0; 12],
            &[0, 17],
            &[17, 0],
            &[0, 16, 0, 0, 1, 0],
            &[5, 0, 0, 0, 0, 0, 0, 0, 0, 0, 0, 5],
        ] {
            for data_len in [0, 7] {
                let mut lent = Lent::of(lengths);
                lent.data.truncate(data_len);
                lent.expect_done();
                // Every card has a draw of its own, so no tag comes twice.
                let (_, _, tags) = lent.seal();
                let mut tags: Vec<&[u8]> = tags.chunks(16).collect();
                tags.sort_unstable();
                tags.dedup();
                assert_eq!(tags.len(), lengths.len(), "{lengths:?}");
            }
        }
    }

    #[test]
    fn cards_open_again_by_themselves() {
        let lent = Lent::of(&[16, 0, 3, 17, 40, 1]);
        let (_, room, tags) = lent.seal();
        let ciphertexts = lent.cut(&room).0;
        let mut drawer = lent.drawer;
        for (n, text) in lent.cut(&lent.texts).0.into_iter().enumerate() {
            let nonce = draw(drawer);
            let (ciphertext, tag) = (ciphertexts[n], &tags[16 * n..16 * n + 16]);
            let mut opened = vec![0xa5; text.len()];
            let (key, data) = (&lent.key, &lent.data);
            let number = hyena::open(key, &nonce.bytes, data, ciphertext, tag, &mut opened);
            assert_eq!((number, &opened[..]), (0, text), "{n}");
            drawer = nonce.next;
        }
    }

    /// "Changing one card's text changes no other card's ciphertext or tag."
    #[test]
    fn a_changed_text_changes_no_other_card() {
        let lent = Lent::of(&[16, 0, 3, 17, 33, 1]);
        let (batch, room, tags) = lent.seal();
        let mut place = 0;
        for (card, &length) in lent.lengths.iter().enumerate() {
            for _ in 0..length {
                let mut changed = lent.clone();
                changed.texts[place] ^= 0x20;
                let (other_batch, other_room, other_tags) = changed.seal();
                assert_eq!(other_batch, batch);
                let (before, after) = (lent.cut(&room).0, lent.cut(&other_room).0);
                for n in 0..lent.lengths.len() {
                    let tag = 16 * n..16 * n + 16;
                    let same = (before[n], &tags[tag.clone()]) == (after[n], &other_tags[tag]);
                    assert_eq!(same, n != card, "byte {place}, card {n}");
                }
                place += 1;
            }
        }
        assert_eq!(place, lent.texts.len());
    }

    /// "4 for any single length above 1,048,576, never for the whole text."
    #[test]
    fn the_whole_text_may_be_longer_than_the_longest() {
        Lent::of(&[3, 1_048_576]).expect_done();
        let mut lent = Lent::of(&[1, 1]);
        lent.texts = vec![0; 1_048_577];
        lent.expect_refused(6);
        lent.room = vec![0; 1_048_577];
        lent.expect_refused(18);
    }

    #[test]
    fn every_listed_length_is_judged() {
        for listed in [1, 2, 12, 13, 40] {
            for place in 0..listed {
                for (length, number) in [
                    (1_048_575, 18),
                    (1_048_576, 18),
                    (1_048_577, 4),
                    // In their lowest 24 and 32 bits these are right.
                    (0x0100_0001, 4),
                    (0x1_0000_0001, 4),
                    (1 << 63, 4),
                    (u64::MAX, 4),
                ] {
                    let mut lent = Lent::of(&vec![1; listed]);
                    lent.lengths[place] = length;
                    lent.expect_refused(number);
                }
            }
        }
    }

    /// Lengths whose sum in 64 bits is that of the texts.
    #[test]
    fn no_sum_of_lengths_wraps() {
        for (lengths, len) in [
            (&[u64::MAX, 1][..], 0),
            (&[u64::MAX, 6], 5),
            (&[6, u64::MAX], 5),
            (&[1 << 63, 1 << 63], 0),
            (&[1 << 63, 5, 1 << 63], 5),
            (&[1 << 32, 5], 5),
        ] {
            let mut lent = Lent::of(&vec![0; lengths.len()]);
            lent.texts = vec![0; len];
            lent.room = vec![0; len];
            lent.lengths = lengths.to_vec();
            lent.expect_refused(4);
        }
        // 4,096 times 2^20 is 2^32, and 16 times as much is 2^36.
        for listed in [4096, 65_536] {
            let mut lent = Lent::of(&vec![0; listed]);
            lent.lengths.fill(1_048_576);
            lent.expect_refused(18);
        }
    }

    #[test]
    fn lengths_add_up_to_the_text_and_to_nothing_else() {
        let lent = Lent::of(&[3, 5, 0, 8]);
        for len in 0..=40 {
            let mut other = lent.clone();
            other.texts.resize(len, 9);
            other.room.resize(40, 9);
            other.expect(if len == 16 { 0 } else { 18 });
        }
        for place in 0..4 {
            let mut longer = lent.clone();
            longer.lengths[place] += 1;
            longer.expect_refused(18);
        }
        // "The whole text" is what is lent, not what the lengths come to.
        let mut longer = lent.clone();
        longer.texts.resize(17, 9);
        longer.room.truncate(16);
        longer.expect_refused(6);
        let mut shorter = lent;
        shorter.texts.truncate(15);
        shorter.room.truncate(15);
        shorter.expect_refused(18);
    }

    #[test]
    fn key_data_tags_and_room_are_judged() {
        let lent = Lent::of(&[9, 0, 11]);
        for len in 0..=70 {
            let unless = |right: bool, number: u32| if right { 0 } else { number };
            let mut other = lent.clone();
            other.key.resize(len, 9);
            other.expect(unless(len == 16, 1));
            let mut other = lent.clone();
            other.tags.resize(len, 9);
            other.expect(unless(len == 48, 5));
            let mut other = lent.clone();
            other.room.resize(len, 9);
            other.expect(unless(len >= 20, 6));
        }
        for (len, number) in [(65_536, 0), (65_537, 3)] {
            let mut other = lent.clone();
            other.data.resize(len, 9);
            other.expect(number);
        }
    }

    /// "No cards, more than 12".
    #[test]
    fn one_to_twelve_cards_are_sealed() {
        for listed in 0..=40 {
            let number = if (1..=12).contains(&listed) { 0 } else { 18 };
            Lent::of(&vec![1; listed]).expect(number);
            Lent::of(&vec![0; listed]).expect(number);
        }
        // As many as one in the lowest 8 and 16 bits.
        for listed in [257, 65_537] {
            Lent::of(&vec![1; listed]).expect_refused(18);
        }
    }

    /// "5 when the tag room isn't 16 bytes for each length listed", also where
    /// their number is not allowed.
    #[test]
    fn tags_are_counted_for_every_listed_length() {
        for (listed, tags, number) in [
            (0, 0, 18),
            (0, 1, 5),
            (0, 16, 5),
            (13, 192, 5),
            (13, 207, 5),
            (13, 208, 18),
            (13, 209, 5),
            (16, 0, 5),
            (16, 256, 18),
            (4096, 0, 5),
            (4096, 65_536, 18),
        ] {
            let mut lent = Lent::of(&vec![1; listed]);
            lent.tags = vec![9; tags];
            lent.expect_refused(number);
        }
    }

    const LEFT: [u64; 6] = [0, 1, 11, 12, 13, u64::MAX];

    /// How many lengths are listed, and the number where so many draws remain.
    const DRAWS: [(usize, [u32; 6]); 5] = [
        (0, [18, 18, 18, 18, 18, 18]),
        (1, [9, 0, 0, 0, 0, 0]),
        (2, [9, 9, 0, 0, 0, 0]),
        (12, [9, 9, 9, 0, 0, 0]),
        (13, [9, 9, 9, 9, 18, 18]),
    ];

    #[test]
    fn every_card_needs_a_draw() {
        for (listed, numbers) in DRAWS {
            for (left, number) in LEFT.into_iter().zip(numbers) {
                let lent = Lent::of(&vec![2; listed]).with_draws(left);
                lent.expect(number);
                if number == 0 {
                    let after = lent.clone().with_draws(left - listed as u64);
                    assert_eq!(lent.seal().0.next, after.drawer);
                }
            }
        }
        // As many as none in the lowest 8 and 16 bits.
        for listed in [256, 65_536] {
            let lent = Lent::of(&vec![0; listed as usize]);
            for left in [0, 1, listed - 1] {
                lent.clone().with_draws(left).expect_refused(9);
            }
            lent.with_draws(listed).expect_refused(18);
        }
    }

    /// "9 here exactly when fewer draws remain than lengths listed": one of as
    /// many single draws is then refused.
    #[test]
    fn nine_is_given_exactly_when_a_single_draw_would_be() {
        for listed in 0..=14 {
            for left in 0..=14 {
                let lent = Lent::of(&vec![0; listed]).with_draws(left);
                let mut drawer = lent.drawer;
                let refused = (0..listed).any(|_| {
                    let drawn = draw(drawer);
                    drawer = drawn.next;
                    drawn.number == 9
                });
                assert_eq!(lent.seal().0.number == 9, refused, "{listed}, {left}");
            }
        }
    }

    /// The refusals before 18, in order.
    const ORDER: [u32; 6] = [1, 3, 4, 5, 6, 9];

    /// The same with every refusal whose bit is set in `wrong`, bit n for that at
    /// place n of the order.
    fn wronged(lent: &Lent, wrong: u32) -> Lent {
        let mut lent = lent.clone();
        let is_wrong = |n: u32| (wrong >> n) & 1 == 1;
        if is_wrong(0) {
            lent.key.push(9);
        }
        if is_wrong(1) {
            lent.data.resize(65_537, 9);
        }
        if is_wrong(2) {
            *lent.lengths.last_mut().expect("a length") = 1_048_577;
        }
        if is_wrong(3) {
            lent.tags.push(9);
        }
        if is_wrong(4) {
            lent.room.truncate(lent.texts.len() - 1);
        }
        if is_wrong(5) {
            let too_few = lent.lengths.len() as u64 - 1;
            lent = lent.with_draws(too_few);
        }
        lent
    }

    /// Every choice of refusals, with each of the three reasons for 18 and
    /// without any.
    #[test]
    fn refusals_come_in_order_and_change_nothing() {
        let right = Lent::of(&[9, 11]);
        let mut no_sum = right.clone();
        no_sum.texts.pop();
        let too_many = Lent::of(&[1; 13]);
        for (lent, last) in [(right, 0), (no_sum, 18), (too_many, 18)] {
            lent.expect(last);
            for wrong in 1_u32..64 {
                let number = ORDER[wrong.trailing_zeros() as usize];
                wronged(&lent, wrong).expect_refused(number);
            }
        }
        // Without cards there is no length for 4, nor too few draws for 9.
        let mut no_cards = Lent::of(&[]).with_draws(0);
        no_cards.texts.push(9);
        for wrong in (0_u32..64).filter(|wrong| wrong & 0b10_0100 == 0) {
            let number = ORDER.get(wrong.trailing_zeros() as usize).unwrap_or(&18);
            wronged(&no_cards, wrong).expect_refused(*number);
        }
    }
}
