//! LIONESS on a wide block.

use crate::refusal::{result_of, Refusal};

/// What may be refused.
const PROMISED: [Refusal; 3] = [
    Refusal::KeyLength,
    Refusal::NonceLength,
    Refusal::TextLength,
];

/// Enciphers `block` in place with LIONESS under `key` and `iv`. The block is
/// unchanged if this is refused.
///
/// ```
/// let plain = *b"forty bytes: a wide block is one of them";
/// let mut block = plain;
///
/// vespruldo::slices::lioness_encipher(&[1; 128], &[2; 48], &mut block)?;
/// assert_ne!(block, plain);
/// vespruldo::slices::lioness_decipher(&[1; 128], &[2; 48], &mut block)?;
/// assert_eq!(block, plain);
/// # Ok::<(), vespruldo::Refusal>(())
/// ```
///
/// # Errors
///
/// The first of these that applies: [`Refusal::KeyLength`] if the key is not
/// 128 bytes long, [`Refusal::NonceLength`] if the iv is not 48 bytes long,
/// [`Refusal::TextLength`] if the block is not 33 to 1,048,608 bytes long.
pub fn lioness_encipher(key: &[u8], iv: &[u8], block: &mut [u8]) -> Result<(), Refusal> {
    result_of(call!(vespruldo_lioness_encipher: key, iv; block), &PROMISED)
}

/// Deciphers `block` in place with LIONESS: undoes [`lioness_encipher`] under the
/// same key and iv. The block is unchanged if this is refused.
///
/// ```
/// use vespruldo::Refusal;
///
/// let mut block = [7; 32];
/// let refused = vespruldo::slices::lioness_decipher(&[1; 128], &[2; 48], &mut block);
/// assert_eq!(refused, Err(Refusal::TextLength));
/// assert_eq!(block, [7; 32]);
/// ```
///
/// # Errors
///
/// As for [`lioness_encipher`].
pub fn lioness_decipher(key: &[u8], iv: &[u8], block: &mut [u8]) -> Result<(), Refusal> {
    result_of(call!(vespruldo_lioness_decipher: key, iv; block), &PROMISED)
}
