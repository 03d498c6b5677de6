//! GIFT-128 on one block.

use crate::refusal::{result_of, Refusal};

/// What may be refused.
const PROMISED: [Refusal; 2] = [Refusal::KeyLength, Refusal::TextLength];

/// Enciphers `block` in place with GIFT-128 under `key`. The block is unchanged
/// if this is refused.
///
/// ```
/// use vespruldo::Refusal;
///
/// let mut block = [7; 16];
/// let refused = vespruldo::slices::gift_encipher(&[0; 15], &mut block);
/// assert_eq!(refused, Err(Refusal::KeyLength));
/// assert_eq!(block, [7; 16]);
/// ```
///
/// # Errors
///
/// The first of these that applies: [`Refusal::KeyLength`] if the key is not 16
/// bytes long, [`Refusal::TextLength`] if the block is not 16 bytes long.
pub fn gift_encipher(key: &[u8], block: &mut [u8]) -> Result<(), Refusal> {
    result_of(call!(vespruldo_gift_encipher: key; block), &PROMISED)
}

/// Deciphers `block` in place with GIFT-128 under `key`: undoes
/// [`gift_encipher`]. The block is unchanged if this is refused.
///
/// ```
/// use vespruldo::Refusal;
///
/// let mut block = [7; 17];
/// let refused = vespruldo::slices::gift_decipher(&[0; 16], &mut block);
/// assert_eq!(refused, Err(Refusal::TextLength));
/// assert_eq!(block, [7; 17]);
/// ```
///
/// # Errors
///
/// As for [`gift_encipher`].
pub fn gift_decipher(key: &[u8], block: &mut [u8]) -> Result<(), Refusal> {
    result_of(call!(vespruldo_gift_decipher: key; block), &PROMISED)
}
