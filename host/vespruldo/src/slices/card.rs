//! Whole cards: nonce, length, ciphertext and tag, one after the other.

use crate::refusal::{result_of, Refusal};

/// What sealing may refuse.
const SEALING: [Refusal; 5] = [
    Refusal::KeyLength,
    Refusal::NonceLength,
    Refusal::DataLength,
    Refusal::TextLength,
    Refusal::RoomLength,
];

/// What opening may refuse.
const OPENING: [Refusal; 6] = [
    Refusal::KeyLength,
    Refusal::DataLength,
    Refusal::CutShort,
    Refusal::LeftOver,
    Refusal::RoomLength,
    Refusal::WrongTag,
];

/// Seals `text` into a card, 30 bytes longer than the text: the nonce in 12
/// bytes, the text's length in 2, little-endian, the ciphertext, and the tag in
/// 16. So the tool `cards` has it.
///
/// The card goes to the first bytes of `room`; the rest of longer room keeps its
/// bytes. The room is unchanged if this is refused. Never seal two texts under
/// the same key and nonce.
///
/// ```
/// let (key, nonce) = ([1; 16], [2; 12]);
/// let mut card = [0; 12 + 30];
/// vespruldo::slices::card_seal(&key, &nonce, b"class 7", b"Anna, desk 4", &mut card)?;
/// assert_eq!(card[..12], nonce);
/// assert_eq!(card[12..14], [12, 0]);
///
/// let mut text = [0; 12];
/// vespruldo::slices::card_open(&key, b"class 7", &card, &mut text)?;
/// assert_eq!(text, *b"Anna, desk 4");
/// # Ok::<(), vespruldo::Refusal>(())
/// ```
///
/// # Errors
///
/// The first of these that applies: [`Refusal::KeyLength`] if the key is not 16
/// bytes long, [`Refusal::NonceLength`] if the nonce is not 12 bytes long,
/// [`Refusal::DataLength`] if the associated data is longer than 65,536 bytes,
/// [`Refusal::TextLength`] if the text is longer than 65,535 bytes,
/// [`Refusal::RoomLength`] if the room is shorter than the text and 30 bytes.
pub fn card_seal(
    key: &[u8],
    nonce: &[u8],
    data: &[u8],
    text: &[u8],
    room: &mut [u8],
) -> Result<(), Refusal> {
    result_of(
        call!(vespruldo_card_seal: key, nonce, data, text; room),
        &SEALING,
    )
}

/// Opens a card of [`card_seal`] or of the tool `cards`: the text goes to the
/// first bytes of `room`. It has `card.len() - 30` bytes, and room for so many is
/// always enough; what is shorter than 30 is no card, and needs none. The rest of
/// longer room keeps its bytes.
///
/// If the tag is not the recomputed one, this is refused and the same bytes of
/// the room are each 0. On every other refusal the room is unchanged.
///
/// ```
/// use vespruldo::Refusal;
///
/// let mut card = [0; 12 + 30];
/// vespruldo::slices::card_seal(&[1; 16], &[2; 12], b"", b"Anna, desk 4", &mut card)?;
///
/// let mut room = [7; 14];
/// let refused = vespruldo::slices::card_open(&[1; 16], b"", &card[..41], &mut room);
/// assert_eq!(refused, Err(Refusal::CutShort));
/// assert_eq!(room, [7; 14]);
///
/// card[14] ^= 1;
/// let refused = vespruldo::slices::card_open(&[1; 16], b"", &card, &mut room);
/// assert_eq!(refused, Err(Refusal::WrongTag));
/// assert_eq!(room, *b"\0\0\0\0\0\0\0\0\0\0\0\0\x07\x07");
/// # Ok::<(), Refusal>(())
/// ```
///
/// # Errors
///
/// The first of these that applies: [`Refusal::KeyLength`] if the key is not 16
/// bytes long, [`Refusal::DataLength`] if the associated data is longer than
/// 65,536 bytes, [`Refusal::CutShort`] if the card is shorter than the length
/// that it says and 30 bytes, [`Refusal::LeftOver`] if it is longer than that,
/// [`Refusal::RoomLength`] if the room is shorter than the text,
/// [`Refusal::WrongTag`] if the tag is not the recomputed one.
pub fn card_open(key: &[u8], data: &[u8], card: &[u8], room: &mut [u8]) -> Result<(), Refusal> {
    result_of(call!(vespruldo_card_open: key, data, card; room), &OPENING)
}
