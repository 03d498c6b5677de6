//! A batch of texts, with types of fixed lengths. What is answered is allocated.

use alloc::vec;
use alloc::vec::Vec;

use crate::bytes::{wipe, Key, Tag};
use crate::cards::Sealed;
use crate::data::Data;
use crate::drawer::{Drawer, UsedNonces};
use crate::refusal::Refusal;
use crate::sizes::{BATCH_MAX, TAG_BYTES, TEXT_MAX};
use crate::slices;

/// Seals 1 to 12 texts in one call, each as [`seal`](crate::seal) does, in order
/// and with the next draws of the drawer. All have the same associated data. Each
/// card is opened by itself, by [`open`](crate::open).
///
/// The drawer is moved on by as many draws as there are texts. Store its bytes
/// before any of the cards is handed on. If this is refused, nothing was drawn, and
/// the drawer is what it was.
///
/// ```
/// use vespruldo::{open, seal_batch, Data, Drawer, Key, Refusal};
///
/// let key = Key::from([1; 16]);
/// let mut drawer = Drawer::start(42, 0);
///
/// let words = ["cat", "ox", "duck"];
/// let cards = seal_batch(&key, &mut drawer, Data(b"class 7"), &words)?;
/// assert_eq!(drawer.count(), 3);
/// // Here `drawer.to_bytes()` is stored.
/// for (card, word) in cards.iter().zip(words) {
///     assert_eq!(open(&key, Data(b"class 7"), card)?, word.as_bytes());
/// }
///
/// let refused = seal_batch(&key, &mut drawer, Data(b"class 7"), &["cat"; 13]);
/// assert_eq!(refused.err(), Some(Refusal::BatchForm));
/// assert_eq!(drawer.count(), 3);
/// # Ok::<(), Refusal>(())
/// ```
///
/// The archive takes the texts end to end, so they are copied; the copy is wiped
/// when all is sealed or refused.
/// [`seal_batch_into`](crate::seal_batch_into) copies and allocates nothing.
///
/// # Errors
///
/// The first of these that applies: [`Refusal::DataLength`] if the associated
/// data is longer than 65,536 bytes, [`Refusal::TextLength`] if any one of the
/// texts is longer than 1,048,576 bytes, [`Refusal::DrawerSpent`] if fewer draws
/// are left than there are texts, [`Refusal::BatchForm`] if there are not 1 to 12
/// texts.
pub fn seal_batch<T: AsRef<[u8]>>(
    key: &Key,
    drawer: &mut Drawer,
    data: Data,
    texts: &[T],
) -> Result<Vec<Sealed>, Refusal> {
    let lengths = texts.iter().map(|text| text.as_ref().len() as u64);
    let lengths: Vec<u64> = lengths.collect();
    let copy = Copied::of(texts);
    let mut room = vec![0; copy.0.len()];
    let mut tags = vec![[0; TAG_BYTES]; texts.len()];
    let nonces = slices::seal_batch(
        key.as_bytes(),
        data.0,
        &copy.0,
        &lengths,
        drawer,
        &mut room,
        tags.as_flattened_mut(),
    )?;
    Ok(cards(nonces, &lengths, &room, &tags))
}

/// The cards of a batch that was sealed: each has its part of the room.
fn cards(
    nonces: UsedNonces,
    lengths: &[u64],
    room: &[u8],
    tags: &[[u8; TAG_BYTES]],
) -> Vec<Sealed> {
    let mut rest = room;
    let parts = nonces.zip(lengths).zip(tags);
    let cards = parts.map(|((nonce, length), tag)| {
        let (ciphertext, behind) = rest.split_at(*length as usize);
        rest = behind;
        Sealed {
            nonce,
            ciphertext: ciphertext.to_vec(),
            tag: Tag::from(*tag),
        }
    });
    cards.collect()
}

/// Texts end to end, wiped when dropped: they are secret.
struct Copied(Vec<u8>);

impl Copied {
    /// A copy of the texts, made in one piece, so that none of it is left elsewhere.
    ///
    /// Of texts that are too many, or one of which is too long, nothing is copied,
    /// however long they are. Whether they are allowed is left to the archive, which
    /// is told every length, and so refuses them for the same reason without their
    /// bytes; it would refuse what is not copied in any case, since the lengths do
    /// not add up.
    fn of<T: AsRef<[u8]>>(texts: &[T]) -> Copied {
        let is_long = |text: &T| text.as_ref().len() > TEXT_MAX;
        if texts.len() > BATCH_MAX || texts.iter().any(is_long) {
            return Copied(Vec::new());
        }
        let texts: Vec<&[u8]> = texts.iter().map(AsRef::as_ref).collect();
        Copied(texts.concat())
    }
}

impl Drop for Copied {
    fn drop(&mut self) {
        wipe(&mut self.0);
    }
}

#[cfg(test)]
mod tests {
    use super::*;

    /// What is copied of these texts.
    fn copied<T: AsRef<[u8]>>(texts: &[T]) -> Vec<u8> {
        Copied::of(texts).0.clone()
    }

    #[test]
    fn texts_are_copied_end_to_end() {
        assert_eq!(copied::<&str>(&[]), b"");
        assert_eq!(copied(&["cat", "", "ox", "duck"]), b"catoxduck");
        assert_eq!(copied(&[b"cat"; 12]), b"cat".repeat(12));
        let longest = vec![7; TEXT_MAX];
        assert!(copied(&[&longest, &longest]) == longest.repeat(2));
    }

    #[test]
    fn nothing_is_copied_of_what_is_refused_for_its_lengths() {
        assert_eq!(copied(&[b"cat"; 13]), b"");
        let long = vec![7; TEXT_MAX + 1];
        assert_eq!(copied(&[b"cat", &long[..], b"ox"]), b"");
    }

    /// The texts of a million cards are one, so this would copy a terabyte.
    #[test]
    fn hopeless_batches_are_refused_and_not_copied() {
        let key = Key::from([1; 16]);
        let text = vec![7; TEXT_MAX];
        let long = vec![7; TEXT_MAX + 1];
        let mut many = vec![&text; 1_000_000];
        let refused = |count, texts: &[&Vec<u8>]| {
            let mut drawer = Drawer::start(5, count);
            let refused = seal_batch(&key, &mut drawer, Data(b""), texts).err();
            assert_eq!(drawer, Drawer::start(5, count));
            refused
        };
        assert_eq!(refused(0, &many), Some(Refusal::BatchForm));
        let left = |draws| u64::MAX - draws;
        assert_eq!(refused(left(1_000_000), &many), Some(Refusal::BatchForm));
        assert_eq!(refused(left(999_999), &many), Some(Refusal::DrawerSpent));
        many[999_999] = &long;
        assert_eq!(refused(left(999_999), &many), Some(Refusal::TextLength));
    }
}
