//! Lesson packs: words, a song and a shuffle, read card by card.

use core::error::Error;
use core::fmt;
use core::iter::FusedIterator;

use crate::refusal::Refusal;
use crate::slices;

/// A lesson pack: words, perhaps a song, and a shuffle of the words. It borrows
/// its bytes, and so do its cards: nothing is copied.
///
/// A byte counts the words, 1 to 12; each is a length byte, 1 to 40, and its
/// bytes. A byte counts the songs, 0 or 1; a song is a length of two bytes,
/// little-endian, 1 to 16,384, and its bytes. A byte counts the shuffle's entries,
/// as many as words; each is a byte, and every word's place, from 0, is there
/// once.
///
/// ```
/// use vespruldo::{Pack, PackCard};
///
/// // One word, no song, and the shuffle.
/// let pack = Pack::new(&[0x01, 0x03, 0x63, 0x61, 0x74, 0x00, 0x01, 0x00]);
/// assert_eq!(pack.judge()?, 2);
///
/// let mut cards = pack.cards();
/// assert_eq!(cards.next(), Some(Ok(PackCard::Word(b"cat"))));
/// assert_eq!(cards.next(), Some(Ok(PackCard::Shuffle(&[0]))));
/// assert_eq!(cards.next(), None);
/// # Ok::<(), vespruldo::PackRefusal>(())
/// ```
///
/// A card is given before what stands behind it has been looked at. Firmware that
/// shall play a whole pack or nothing judges it first:
///
/// ```
/// use vespruldo::{Pack, PackCard, Refusal};
///
/// // The shuffle has the second word twice.
/// let pack = Pack::new(b"\x02\x03cat\x03dog\x00\x02\x01\x01");
/// let refused = pack.judge().unwrap_err();
/// assert_eq!(refused.refusal, Refusal::BadShuffle);
/// assert_eq!(refused.cards, 2);
/// assert_eq!(refused.bad_entry, Some(1));
/// assert_eq!(refused.to_string(), "bad shuffle: entry 1, after 2 cards");
///
/// // Whoever does not judge has both words before the refusal comes.
/// let mut cards = pack.cards();
/// assert_eq!(cards.next(), Some(Ok(PackCard::Word(b"cat"))));
/// assert_eq!(cards.next(), Some(Ok(PackCard::Word(b"dog"))));
/// assert_eq!(cards.next(), Some(Err(refused)));
/// assert_eq!(cards.next(), None);
/// ```
#[derive(Clone, Copy, Debug, PartialEq, Eq)]
pub struct Pack<'a>(&'a [u8]);

impl<'a> Pack<'a> {
    /// Takes any bytes for a pack. Nothing is looked at before
    /// [`judge`](Pack::judge) or [`cards`](Pack::cards).
    #[must_use]
    pub fn new(bytes: &'a [u8]) -> Pack<'a> {
        Pack(bytes)
    }

    /// The bytes that it borrows.
    #[must_use]
    pub fn as_bytes(self) -> &'a [u8] {
        self.0
    }

    /// Walks the whole pack, and answers how many cards there are.
    ///
    /// # Errors
    ///
    /// The first of these that is met from the left: [`Refusal::CutShort`] if a
    /// count, or a length with the bytes that it counts, or the shuffle's count
    /// with its entries, is not wholly there, [`Refusal::CountOrLength`] if it is,
    /// and is not allowed, [`Refusal::BadShuffle`] if an entry repeats an earlier
    /// one or is too large, [`Refusal::LeftOver`] if there are bytes behind the
    /// shuffle.
    pub fn judge(self) -> Result<usize, PackRefusal> {
        slices::pack_judge(self.0)
    }

    /// A reader that gives the cards one by one: each word, the song if there is
    /// one, and the shuffle as one. Where [`judge`](Pack::judge) would refuse, it
    /// gives the cards before that, then the refusal, and then nothing more.
    pub fn cards(self) -> PackCards<'a> {
        PackCards {
            pack: self.0,
            place: 0,
            ended: false,
        }
    }
}

/// A card of a lesson pack, with its bytes, which lie in the pack. (The cards that
/// are sealed and opened are others.)
#[derive(Clone, Copy, Debug, PartialEq, Eq)]
pub enum PackCard<'a> {
    /// A word, of 1 to 40 bytes.
    Word(&'a [u8]),
    /// The song, of 1 to 16,384 bytes.
    Song(&'a [u8]),
    /// The shuffle: the place of each word, from 0, once.
    Shuffle(&'a [u8]),
}

impl<'a> PackCard<'a> {
    /// The bytes, of whichever kind the card is.
    #[must_use]
    pub fn as_bytes(self) -> &'a [u8] {
        match self {
            PackCard::Word(bytes) | PackCard::Song(bytes) | PackCard::Shuffle(bytes) => bytes,
        }
    }
}

/// A reader of a lesson pack: it holds the pack and its place. [`Pack::cards`]
/// makes one.
#[derive(Clone, Debug)]
#[must_use = "a reader gives nothing unless it is asked"]
pub struct PackCards<'a> {
    pack: &'a [u8],
    /// How many cards have been given.
    place: usize,
    /// Whether the last answer was no card. The archive gives a refusal again; a
    /// loop over the cards would then never end.
    ended: bool,
}

impl<'a> Iterator for PackCards<'a> {
    type Item = Result<PackCard<'a>, PackRefusal>;

    fn next(&mut self) -> Option<Self::Item> {
        if self.ended {
            return None;
        }
        let answer = slices::pack_next(self.pack, self.place).transpose();
        match answer {
            Some(Ok(_)) => self.place += 1,
            Some(Err(_)) | None => self.ended = true,
        }
        answer
    }
}

impl FusedIterator for PackCards<'_> {}

/// Why a lesson pack was refused, and where. `?` makes a [`Refusal`] of it where
/// one is answered.
#[derive(Clone, Copy, Debug, PartialEq, Eq, Hash)]
#[non_exhaustive]
pub struct PackRefusal {
    /// The refusal, with its number and its words.
    pub refusal: Refusal,
    /// How many cards come before it. (From [`slices::pack_next`] it is the place
    /// that was asked for, which may lie behind that.)
    pub cards: usize,
    /// Of [`Refusal::BadShuffle`] the place, from 0, of the first entry that
    /// repeats an earlier one or is too large.
    pub bad_entry: Option<usize>,
}

impl From<PackRefusal> for Refusal {
    fn from(refused: PackRefusal) -> Refusal {
        refused.refusal
    }
}

impl fmt::Display for PackRefusal {
    fn fmt(&self, f: &mut fmt::Formatter<'_>) -> fmt::Result {
        write!(f, "{}", self.refusal)?;
        if let Some(entry) = self.bad_entry {
            write!(f, ": entry {entry}")?;
        }
        let cards = if self.cards == 1 { "card" } else { "cards" };
        write!(f, ", after {} {cards}", self.cards)
    }
}

impl Error for PackRefusal {}

#[cfg(test)]
mod tests {
    use super::*;

    /// Two words, a song, and the shuffle.
    const PACK: &[u8] = b"\x02\x03cat\x02ox\x01\x04\0la-a\x02\x01\0";

    fn refused(refusal: Refusal, cards: usize, bad_entry: Option<usize>) -> PackRefusal {
        PackRefusal {
            refusal,
            cards,
            bad_entry,
        }
    }

    #[test]
    fn every_kind_of_card_comes_in_its_order() {
        // The reader borrows the bytes, and not the pack that made it.
        let cards = Pack::new(PACK).cards();
        let expected = [
            PackCard::Word(b"cat"),
            PackCard::Word(b"ox"),
            PackCard::Song(b"la-a"),
            PackCard::Shuffle(&[1, 0]),
        ];
        assert!(cards.clone().eq(expected.map(Ok)));
        for (card, place) in cards.zip([2, 6, 11, 16]) {
            let bytes = card.expect("a card").as_bytes();
            assert_eq!(bytes.as_ptr(), PACK[place..].as_ptr());
        }
        assert_eq!(Pack::new(PACK).judge(), Ok(4));
        assert_eq!(Pack::new(PACK).as_bytes(), PACK);
    }

    /// Behind each number of cards, and after the refusal for ever nothing.
    #[test]
    fn a_refusal_comes_once_and_last() {
        for (len, given) in [(0, 0), (5, 1), (8, 2), (17, 3)] {
            let pack = Pack::new(&PACK[..len]);
            let expected = refused(Refusal::CutShort, given, None);
            let mut cards = pack.cards();
            assert_eq!(cards.by_ref().filter(Result::is_ok).count(), given);
            assert_eq!(cards.next(), None);
            assert_eq!(pack.cards().last(), Some(Err(expected)));
            assert_eq!(pack.cards().count(), given + 1);
            assert_eq!(pack.judge(), Err(expected));
        }
    }

    #[test]
    fn words_of_a_refusal_tell_where_it_was_met() {
        let shown = |refusal, cards, bad| refused(refusal, cards, bad).to_string();
        let none = shown(Refusal::CountOrLength, 0, None);
        assert_eq!(none, "count or length not allowed, after 0 cards");
        assert_eq!(shown(Refusal::CutShort, 1, None), "cut short, after 1 card");
        let bad = shown(Refusal::BadShuffle, 12, Some(0));
        assert_eq!(bad, "bad shuffle: entry 0, after 12 cards");
    }

    #[test]
    fn a_refusal_is_passed_on_as_its_number() {
        fn judged(pack: Pack) -> Result<usize, Refusal> {
            Ok(pack.judge()?)
        }
        assert_eq!(judged(Pack::new(PACK)), Ok(4));
        assert_eq!(judged(Pack::new(b"\x0d")), Err(Refusal::CountOrLength));
    }
}
