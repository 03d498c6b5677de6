//! Whole cards, and batches, in room that is lent, with types of fixed lengths.

use crate::bytes::{Key, Nonce};
use crate::data::Data;
use crate::drawer::{Drawer, UsedNonces};
use crate::refusal::Refusal;
use crate::sizes::{CARD_EXTRA, TAG_BYTES};
use crate::slices;

/// Seals `text` into a card, as [`slices::card_seal`] lays it out, and answers how
/// many bytes of `room` that takes: 30 more than the text has. The rest of longer
/// room keeps its bytes. The room is unchanged if this is refused.
///
/// The nonce is used up even if this is refused: draw the next one from the same
/// [`Drawer`](crate::Drawer).
///
/// ```
/// use vespruldo::{card_open, card_seal, Data, Drawer, Key};
///
/// let key = Key::from([1; 16]);
/// let mut drawer = Drawer::start(42, 0);
/// let (mut card, mut room) = ([0; 100], [0; 100]);
///
/// let len = card_seal(&key, drawer.draw()?, Data(b"class 7"), b"Anna, desk 4", &mut card)?;
/// assert_eq!(len, 12 + 30);
/// let text_len = card_open(&key, Data(b"class 7"), &card[..len], &mut room)?;
/// assert_eq!(room[..text_len], *b"Anna, desk 4");
/// # Ok::<(), vespruldo::Refusal>(())
/// ```
///
/// # Errors
///
/// The first of these that applies: [`Refusal::DataLength`] if the associated
/// data is longer than 65,536 bytes, [`Refusal::TextLength`] if the text is
/// longer than 65,535 bytes, [`Refusal::RoomLength`] if the room is shorter than
/// the text and 30 bytes.
pub fn card_seal(
    key: &Key,
    nonce: Nonce,
    data: Data,
    text: &[u8],
    room: &mut [u8],
) -> Result<usize, Refusal> {
    slices::card_seal(key.as_bytes(), nonce.as_bytes(), data.0, text, room)?;
    Ok(text.len() + CARD_EXTRA)
}

/// Opens a card, of [`card_seal`] or of the tool `cards`, and answers how many
/// bytes of `room` its text takes: 30 fewer than the card has. The rest of longer
/// room keeps its bytes.
///
/// With [`Refusal::WrongTag`] the bytes of the room that were meant for the text
/// are each 0. On every other refusal the room is unchanged.
///
/// # Errors
///
/// The first of these that applies: [`Refusal::DataLength`] if the associated
/// data is longer than 65,536 bytes, [`Refusal::CutShort`] if the card is shorter
/// than the length that it says and 30 bytes, [`Refusal::LeftOver`] if it is
/// longer than that, [`Refusal::RoomLength`] if the room is shorter than the
/// text, [`Refusal::WrongTag`] if the tag is not the recomputed one.
pub fn card_open(key: &Key, data: Data, card: &[u8], room: &mut [u8]) -> Result<usize, Refusal> {
    slices::card_open(key.as_bytes(), data.0, card, room)?;
    // A card that is opened has these 30 bytes.
    Ok(card.len() - CARD_EXTRA)
}

/// Seals 1 to 12 texts in one call, in order and with the next draws of the drawer,
/// and answers the nonces drawn, now used ones. `texts` has the texts end to end,
/// and `lengths` the length of each; any may be empty. All have the same associated
/// data.
///
/// The ciphertexts go end to end to the first bytes of `room`, as many as `texts`
/// has; the rest of longer room keeps its bytes. The tags go to `tags`, in the same
/// order. Each card is opened by itself, by
/// [`open_in_place`](crate::open_in_place) or [`slices::open`].
///
/// The drawer is moved on by as many draws as there are texts. Store its bytes
/// before any of the cards is handed on; until then room and tags must be memory
/// that nobody else reads and that a restart loses. If this is refused, nothing was
/// drawn, the drawer is what it was, and so are room and tags.
///
/// ```
/// use vespruldo::{open_in_place, seal_batch_into, Data, Drawer, Key, Tag};
///
/// let (key, data) = (Key::from([1; 16]), Data(b"class 7"));
/// let mut drawer = Drawer::start(42, 0);
/// let (mut room, mut tags) = ([0; 5], [[0; 16]; 2]);
///
/// let lengths = [3, 2];
/// let mut nonces =
///     seal_batch_into(&key, &mut drawer, data, b"catox", &lengths, &mut room, &mut tags)?;
/// // Here `drawer.to_bytes()` is stored.
///
/// let (cat, ox) = room.split_at_mut(3);
/// for (card, tag) in [cat, ox].into_iter().zip(tags) {
///     let nonce = nonces.next().expect("one for each card");
///     open_in_place(&key, &nonce, data, card, &Tag::from(tag))?;
/// }
/// assert_eq!(room, *b"catox");
/// # Ok::<(), vespruldo::Refusal>(())
/// ```
///
/// # Errors
///
/// The first of these that applies: [`Refusal::DataLength`] if the associated
/// data is longer than 65,536 bytes, [`Refusal::TextLength`] if any one of the
/// lengths is over 1,048,576, [`Refusal::TagLength`] if there is not one tag of 16
/// bytes for each length, [`Refusal::RoomLength`] if the room is shorter than all
/// of `texts`, [`Refusal::DrawerSpent`] if fewer draws are left than there are
/// lengths, [`Refusal::BatchForm`] if there are not 1 to 12 lengths or they do not
/// add up to that of `texts`.
pub fn seal_batch_into(
    key: &Key,
    drawer: &mut Drawer,
    data: Data,
    texts: &[u8],
    lengths: &[u64],
    room: &mut [u8],
    tags: &mut [[u8; TAG_BYTES]],
) -> Result<UsedNonces, Refusal> {
    let tags = tags.as_flattened_mut();
    slices::seal_batch(key.as_bytes(), data.0, texts, lengths, drawer, room, tags)
}
