//! The reader of lesson packs.

use crate::archive;
use crate::packs::{PackCard, PackRefusal};
use crate::refusal::{result_of, Refusal};

/// What may be refused.
const PROMISED: [Refusal; 4] = [
    Refusal::CutShort,
    Refusal::CountOrLength,
    Refusal::BadShuffle,
    Refusal::LeftOver,
];

/// The card at `place` of a lesson pack, or `None` behind the last one. Its bytes
/// are that part of the pack itself.
///
/// The place is how many cards have been given: a reader starts at 0 and goes on
/// at the next place after each card. Behind the last card, and where it is
/// refused, it stays, and is answered the same again. Every place has its answer.
/// [`Pack::cards`](crate::Pack::cards) walks so.
///
/// A card is given before what stands behind it has been looked at: whoever wants
/// the whole pack or nothing asks [`pack_judge`] first.
///
/// ```
/// use vespruldo::slices::pack_next;
/// use vespruldo::{PackCard, Refusal};
///
/// let pack = [0x01, 0x03, 0x63, 0x61, 0x74, 0x00, 0x01, 0x00];
/// assert_eq!(pack_next(&pack, 0), Ok(Some(PackCard::Word(b"cat"))));
/// assert_eq!(pack_next(&pack, 1), Ok(Some(PackCard::Shuffle(&[0]))));
/// assert_eq!(pack_next(&pack, 2), Ok(None));
/// assert_eq!(pack_next(&pack, usize::MAX), Ok(None));
///
/// // Its last byte is lost, and the word is given all the same.
/// assert_eq!(pack_next(&pack[..7], 0), Ok(Some(PackCard::Word(b"cat"))));
/// let refused = pack_next(&pack[..7], 1).unwrap_err();
/// assert_eq!(refused.refusal, Refusal::CutShort);
/// ```
///
/// # Errors
///
/// The first of these that is met from the left: [`Refusal::CutShort`] if a
/// count, or a length with the bytes that it counts, or the shuffle's count with
/// its entries, is not wholly there, [`Refusal::CountOrLength`] if it is, and is
/// not allowed, [`Refusal::BadShuffle`] if an entry repeats an earlier one or is
/// too large, [`Refusal::LeftOver`] if there are bytes behind the shuffle.
pub fn pack_next(pack: &[u8], place: usize) -> Result<Option<PackCard<'_>>, PackRefusal> {
    card_of(&call!(vespruldo_pack_next: pack; place;), pack)
}

/// Walks a whole lesson pack and answers how many cards there are.
///
/// ```
/// use vespruldo::slices::pack_judge;
/// use vespruldo::Refusal;
///
/// let pack = [0x01, 0x03, 0x63, 0x61, 0x74, 0x00, 0x01, 0x00];
/// assert_eq!(pack_judge(&pack), Ok(2));
///
/// let refused = pack_judge(&pack[..7]).unwrap_err();
/// assert_eq!(refused.refusal, Refusal::CutShort);
/// assert_eq!(refused.cards, 1);
/// ```
///
/// # Errors
///
/// As for [`pack_next`].
pub fn pack_judge(pack: &[u8]) -> Result<usize, PackRefusal> {
    let archive::PackJudged { number, cards, bad } = call!(vespruldo_pack_judge: pack;);
    result_after(cards, number, bad)?;
    Ok(cards)
}

/// The result that a number stands for which came after so many cards, with the
/// place of a bad entry beside it.
fn result_after(cards: usize, number: u32, bad: usize) -> Result<(), PackRefusal> {
    result_of(number, &PROMISED).map_err(|refusal| PackRefusal {
        refusal,
        cards,
        bad_entry: (refusal == Refusal::BadShuffle).then_some(bad),
    })
}

/// The card that an answer of the archive speaks of.
///
/// # Panics
///
/// On an answer that the archive does not promise: any other bytes are no card of
/// the pack.
fn card_of<'a>(
    told: &archive::PackCard,
    pack: &'a [u8],
) -> Result<Option<PackCard<'a>>, PackRefusal> {
    result_after(told.next, told.number, told.bad)?;
    let archive::PackCard {
        kind,
        start,
        length,
        ..
    } = told;
    let bytes = pack.get(*start..).and_then(|rest| rest.get(..*length));
    match (kind, bytes) {
        (0, _) => Ok(None),
        (1, Some(bytes)) => Ok(Some(PackCard::Word(bytes))),
        (2, Some(bytes)) => Ok(Some(PackCard::Song(bytes))),
        (3, Some(bytes)) => Ok(Some(PackCard::Shuffle(bytes))),
        _ => panic!(
            "the archive answered kind {kind} and {length} bytes from {start} on, where no card \
             can be"
        ),
    }
}

#[cfg(test)]
mod tests {
    use super::*;

    const PACK: &[u8] = b"\x01\x03cat\0\x01\0";

    /// An answer with this number and card.
    fn told(number: u32, kind: u32, start: usize, length: usize) -> archive::PackCard {
        archive::PackCard {
            number,
            kind,
            start,
            length,
            bad: 7,
            next: 9,
        }
    }

    /// What is made of a card of this kind.
    fn card(kind: u32, start: usize, length: usize) -> Option<PackCard<'static>> {
        card_of(&told(0, kind, start, length), PACK).expect("no refusal")
    }

    #[test]
    fn cards_are_parts_of_the_pack() {
        assert_eq!(card(0, 0, 0), None);
        assert_eq!(card(1, 2, 3), Some(PackCard::Word(b"cat")));
        assert_eq!(card(2, 2, 3), Some(PackCard::Song(b"cat")));
        assert_eq!(card(3, 7, 1), Some(PackCard::Shuffle(&[0])));
        assert_eq!(card(1, 0, 8), Some(PackCard::Word(PACK)));
    }

    #[test]
    fn refusals_keep_the_place_and_only_bad_shuffles_have_an_entry() {
        for refusal in PROMISED {
            let bad_entry = (refusal == Refusal::BadShuffle).then_some(7);
            let expected = PackRefusal {
                refusal,
                cards: 9,
                bad_entry,
            };
            assert_eq!(
                card_of(&told(refusal.number(), 0, 0, 0), PACK),
                Err(expected)
            );
            assert_eq!(result_after(9, refusal.number(), 7), Err(expected));
        }
    }

    #[test]
    #[should_panic(expected = "the archive answered 11,")]
    fn a_number_not_promised_is_not_swallowed() {
        let _ = card_of(&told(11, 0, 0, 0), PACK);
    }

    #[test]
    #[should_panic(expected = "kind 4 and 3 bytes from 2 on")]
    fn a_fourth_kind_is_not_swallowed() {
        card(4, 2, 3);
    }

    #[test]
    #[should_panic(expected = "kind 1 and 4 bytes from 5 on")]
    fn a_card_across_the_end_is_not_swallowed() {
        card(1, 5, 4);
    }

    #[test]
    #[should_panic(expected = "kind 2 and 2 bytes from 18446744073709551615 on")]
    #[cfg(target_pointer_width = "64")]
    fn a_card_beyond_all_packs_is_not_swallowed() {
        card(2, usize::MAX, 2);
    }
}
