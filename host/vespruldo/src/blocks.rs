//! Blocks that are changed in place: LIONESS and GIFT-128, with keys and ivs whose
//! lengths are in their types.

use crate::bytes::{Iv, Key, UsedIv, WideKey};
use crate::refusal::Refusal;
use crate::sizes::GIFT_BLOCK_BYTES;
use crate::slices;

/// Enciphers `block` in place with LIONESS, and hands the iv back as a used one,
/// to be stored with the block, for deciphering. The block is unchanged if this
/// is refused.
///
/// No two blocks may be enciphered under one key and iv: draw each iv from a
/// [`Drawer`](crate::Drawer). It is used up even if this is refused.
///
/// ```
/// use vespruldo::{lioness_decipher, lioness_encipher, Drawer, WideKey};
///
/// let key = WideKey::from([1; 128]);
/// let plain = *b"forty bytes: a wide block is one of them";
///
/// let mut block = plain;
/// let iv = lioness_encipher(&key, Drawer::start(42, 0).draw_iv()?, &mut block)?;
/// assert_ne!(block, plain);
/// lioness_decipher(&key, &iv, &mut block)?;
/// assert_eq!(block, plain);
/// # Ok::<(), vespruldo::Refusal>(())
/// ```
///
/// # Errors
///
/// [`Refusal::TextLength`] if the block is not 33 to 1,048,608 bytes long.
pub fn lioness_encipher(key: &WideKey, iv: Iv, block: &mut [u8]) -> Result<UsedIv, Refusal> {
    slices::lioness_encipher(key.as_bytes(), iv.as_bytes(), block)?;
    Ok(UsedIv::from(iv))
}

/// Deciphers `block` in place with LIONESS: undoes [`lioness_encipher`] under the
/// same key and iv. There is no tag: under another key or iv, or if it was
/// changed, the whole block comes out as noise, and nothing says so.
///
/// ```
/// use vespruldo::{lioness_decipher, Refusal, UsedIv, WideKey};
///
/// let mut block = [7; 32];
/// let refused = lioness_decipher(&WideKey::from([1; 128]), &UsedIv::from([2; 48]), &mut block);
/// assert_eq!(refused, Err(Refusal::TextLength));
/// assert_eq!(block, [7; 32]);
/// ```
///
/// # Errors
///
/// As for [`lioness_encipher`].
pub fn lioness_decipher(key: &WideKey, iv: &UsedIv, block: &mut [u8]) -> Result<(), Refusal> {
    slices::lioness_decipher(key.as_bytes(), iv.as_bytes(), block)
}

/// Enciphers `block` in place with GIFT-128. Nothing can be refused here.
///
/// ```
/// use vespruldo::{gift_decipher, gift_encipher, Key};
///
/// let key = Key::from([0; 16]);
/// let mut block = [0; 16];
///
/// gift_encipher(&key, &mut block);
/// // The designers print cd0bd738...ceb6ff92, most significant byte first;
/// // byte 0 is the least significant one.
/// assert_eq!(block[..4], [0x92, 0xff, 0xb6, 0xce]);
/// assert_eq!(block[12..], [0x38, 0xd7, 0x0b, 0xcd]);
///
/// gift_decipher(&key, &mut block);
/// assert_eq!(block, [0; 16]);
/// ```
pub fn gift_encipher(key: &Key, block: &mut [u8; GIFT_BLOCK_BYTES]) {
    never_refused(slices::gift_encipher(key.as_bytes(), block));
}

/// Deciphers `block` in place with GIFT-128: undoes [`gift_encipher`]. Nothing
/// can be refused here.
pub fn gift_decipher(key: &Key, block: &mut [u8; GIFT_BLOCK_BYTES]) {
    never_refused(slices::gift_decipher(key.as_bytes(), block));
}

/// Takes the result of a call whose types leave nothing to refuse.
///
/// # Panics
///
/// On a refusal, which the archive does not promise for these lengths: nobody
/// knows what became of the block.
fn never_refused(result: Result<(), Refusal>) {
    if let Err(refusal) = result {
        let number = refusal.number();
        panic!("the archive answered {number}, which these lengths rule out");
    }
}

#[cfg(test)]
mod tests {
    use super::*;
    use crate::sizes::{LIONESS_BLOCK_MAX, LIONESS_BLOCK_MIN};

    #[test]
    #[should_panic(expected = "the archive answered 4, which")]
    fn a_refusal_ruled_out_is_not_swallowed() {
        never_refused(Err(Refusal::TextLength));
    }

    /// A function on a block.
    type Tried<'a> = &'a dyn Fn(&mut [u8]) -> Result<(), Refusal>;

    /// Blocks of these lengths are changed, and of those refused and left.
    fn try_lens(tried: Tried, allowed: &[usize], refused: &[usize]) {
        for &len in allowed {
            let mut block = vec![7; len];
            assert_eq!(tried(&mut block), Ok(()), "{len}");
            assert!(block != vec![7; len], "{len}");
        }
        for &len in refused {
            let mut block = vec![7; len];
            assert_eq!(tried(&mut block), Err(Refusal::TextLength), "{len}");
            assert!(block == vec![7; len], "{len}");
        }
    }

    #[test]
    fn lengths_are_the_documents() {
        let (key, iv) = (WideKey::from([1; 128]), [2; 48]);
        let allowed = [LIONESS_BLOCK_MIN, LIONESS_BLOCK_MAX];
        let refused = [0, LIONESS_BLOCK_MIN - 1, LIONESS_BLOCK_MAX + 1];
        let encipher: Tried = &|block| {
            let used = lioness_encipher(&key, Iv::never_used(iv), block)?;
            assert_eq!(used, UsedIv::from(iv));
            Ok(())
        };
        let decipher: Tried = &|block| lioness_decipher(&key, &UsedIv::from(iv), block);
        try_lens(encipher, &allowed, &refused);
        try_lens(decipher, &allowed, &refused);
    }
}
