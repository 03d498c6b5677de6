//! Sealing and opening in one buffer, with types of fixed lengths.

use crate::bytes::{Key, Nonce, Tag, UsedNonce};
use crate::data::Data;
use crate::refusal::Refusal;
use crate::sizes::TAG_BYTES;
use crate::slices;

/// Seals the text in `buffer` where it lies, with HyENA: the ciphertext takes its
/// place, and nothing is allocated. Answered are the nonce, now a used one, and
/// the tag, which are stored with the ciphertext. The buffer is unchanged if this
/// is refused.
///
/// The nonce is used up even if this is refused: draw the next one from the same
/// [`Drawer`](crate::Drawer).
///
/// ```
/// use vespruldo::{open_in_place, seal_in_place, Data, Drawer, Key};
///
/// let key = Key::from([1; 16]);
/// let mut drawer = Drawer::start(42, 0);
///
/// let mut buffer = *b"Anna, desk 4";
/// let (nonce, tag) = seal_in_place(&key, drawer.draw()?, Data(b"class 7"), &mut buffer)?;
/// assert_ne!(buffer, *b"Anna, desk 4");
/// open_in_place(&key, &nonce, Data(b"class 7"), &mut buffer, &tag)?;
/// assert_eq!(buffer, *b"Anna, desk 4");
/// # Ok::<(), vespruldo::Refusal>(())
/// ```
///
/// # Errors
///
/// The first of these that applies: [`Refusal::DataLength`] if the associated
/// data is longer than 65,536 bytes, [`Refusal::TextLength`] if the buffer is
/// longer than 1,048,576 bytes.
pub fn seal_in_place(
    key: &Key,
    nonce: Nonce,
    data: Data,
    buffer: &mut [u8],
) -> Result<(UsedNonce, Tag), Refusal> {
    let mut tag = [0; TAG_BYTES];
    slices::seal_in_place(key.as_bytes(), nonce.as_bytes(), data.0, buffer, &mut tag)?;
    Ok((UsedNonce::from(nonce), Tag::from(tag)))
}

/// Opens the ciphertext in `buffer` where it lies: the text takes its place, if
/// key, nonce, associated data, ciphertext and tag are what they were at sealing.
///
/// With [`Refusal::WrongTag`] the whole buffer is 0, so nothing of an unproven
/// text can be read there; the ciphertext is gone too, and there is no second
/// try. On every other refusal the buffer is unchanged.
///
/// ```
/// use vespruldo::{open_in_place, seal_in_place, Data, Drawer, Key, Refusal};
///
/// let key = Key::from([1; 16]);
/// let mut buffer = *b"Anna, desk 4";
/// let nonce = Drawer::start(42, 0).draw()?;
/// let (nonce, tag) = seal_in_place(&key, nonce, Data(b"class 7"), &mut buffer)?;
///
/// let refused = open_in_place(&key, &nonce, Data(b"class 8"), &mut buffer, &tag);
/// assert_eq!(refused, Err(Refusal::WrongTag));
/// assert_eq!(buffer, [0; 12]);
/// # Ok::<(), Refusal>(())
/// ```
///
/// # Errors
///
/// As for [`seal_in_place`], and last [`Refusal::WrongTag`] if the tag is not the
/// recomputed one.
pub fn open_in_place(
    key: &Key,
    nonce: &UsedNonce,
    data: Data,
    buffer: &mut [u8],
    tag: &Tag,
) -> Result<(), Refusal> {
    slices::open_in_place(
        key.as_bytes(),
        nonce.as_bytes(),
        data.0,
        buffer,
        tag.as_bytes(),
    )
}
