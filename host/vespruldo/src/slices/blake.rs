//! BLAKE2b with a key.

use crate::refusal::{result_of, Refusal};

/// What may be refused.
const PROMISED: [Refusal; 3] = [Refusal::KeyLength, Refusal::TextLength, Refusal::RoomLength];

/// Writes the BLAKE2b digest of `text` under `key` to `digest`. The digest has
/// the length of its room; a shorter one is not the beginning of a longer one.
/// An empty key is no key: anybody can make that digest. The room is unchanged if
/// this is refused.
///
/// ```
/// // RFC 7693, appendix A.
/// let mut digest = [0; 64];
/// vespruldo::slices::blake2b(&[], b"abc", &mut digest)?;
/// assert_eq!(digest[..4], [0xba, 0x80, 0xa5, 0x3f]);
/// assert_eq!(digest[60..], [0xd4, 0x00, 0x99, 0x23]);
/// # Ok::<(), vespruldo::Refusal>(())
/// ```
///
/// ```
/// use vespruldo::Refusal;
///
/// let mut digest = [7; 65];
/// let refused = vespruldo::slices::blake2b(&[], b"abc", &mut digest);
/// assert_eq!(refused, Err(Refusal::RoomLength));
/// assert_eq!(digest, [7; 65]);
/// ```
///
/// # Errors
///
/// The first of these that applies: [`Refusal::KeyLength`] if the key is longer
/// than 64 bytes, [`Refusal::TextLength`] if the text is longer than 1,048,576
/// bytes, [`Refusal::RoomLength`] if the room is not 1 to 64 bytes long.
pub fn blake2b(key: &[u8], text: &[u8], digest: &mut [u8]) -> Result<(), Refusal> {
    result_of(call!(vespruldo_blake2b: key, text; digest), &PROMISED)
}
