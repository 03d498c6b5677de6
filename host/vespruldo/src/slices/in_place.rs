//! HyENA, sealing and opening in one buffer.

use crate::refusal::{result_of, Refusal};

/// What may be refused. Sealing knows no wrong tag, the last.
const PROMISED: [Refusal; 6] = [
    Refusal::KeyLength,
    Refusal::NonceLength,
    Refusal::DataLength,
    Refusal::TextLength,
    Refusal::TagLength,
    Refusal::WrongTag,
];
const SEALING: usize = 5;

/// Seals the text in `buffer` where it lies: [`seal`](super::seal) with the
/// ciphertext in the text's place. Buffer and tag are unchanged if this is
/// refused. Never seal two texts under the same key and nonce.
///
/// ```
/// let (key, nonce, mut tag) = ([1; 16], [2; 12], [0; 16]);
/// let mut buffer = *b"Anna, desk 4";
///
/// vespruldo::slices::seal_in_place(&key, &nonce, b"class 7", &mut buffer, &mut tag)?;
/// assert_ne!(buffer, *b"Anna, desk 4");
/// vespruldo::slices::open_in_place(&key, &nonce, b"class 7", &mut buffer, &tag)?;
/// assert_eq!(buffer, *b"Anna, desk 4");
/// # Ok::<(), vespruldo::Refusal>(())
/// ```
///
/// # Errors
///
/// The first of these that applies: [`Refusal::KeyLength`] if the key is not 16
/// bytes long, [`Refusal::NonceLength`] if the nonce is not 12 bytes long,
/// [`Refusal::DataLength`] if the associated data is longer than 65,536 bytes,
/// [`Refusal::TextLength`] if the buffer is longer than 1,048,576 bytes,
/// [`Refusal::TagLength`] if `tag` is not 16 bytes long.
pub fn seal_in_place(
    key: &[u8],
    nonce: &[u8],
    data: &[u8],
    buffer: &mut [u8],
    tag: &mut [u8],
) -> Result<(), Refusal> {
    result_of(
        call!(vespruldo_seal_in_place: key, nonce, data; buffer, tag),
        &PROMISED[..SEALING],
    )
}

/// Opens the ciphertext in `buffer` where it lies: [`open`](super::open) with the
/// text in the ciphertext's place.
///
/// If the tag is another one, this is refused and the whole buffer is 0: the
/// ciphertext is gone too, and there is no second try. On every other refusal
/// the buffer is unchanged.
///
/// ```
/// use vespruldo::Refusal;
///
/// let (key, nonce, mut tag) = ([1; 16], [2; 12], [0; 16]);
/// let mut buffer = *b"Anna, desk 4";
/// vespruldo::slices::seal_in_place(&key, &nonce, b"class 7", &mut buffer, &mut tag)?;
///
/// let refused = vespruldo::slices::open_in_place(&key, &nonce, b"class 8", &mut buffer, &tag);
/// assert_eq!(refused, Err(Refusal::WrongTag));
/// assert_eq!(buffer, [0; 12]);
/// # Ok::<(), Refusal>(())
/// ```
///
/// # Errors
///
/// As for [`seal_in_place`], and last [`Refusal::WrongTag`] if the tag is not the
/// recomputed one.
pub fn open_in_place(
    key: &[u8],
    nonce: &[u8],
    data: &[u8],
    buffer: &mut [u8],
    tag: &[u8],
) -> Result<(), Refusal> {
    result_of(
        call!(vespruldo_open_in_place: key, nonce, data; ; buffer; tag),
        &PROMISED,
    )
}
