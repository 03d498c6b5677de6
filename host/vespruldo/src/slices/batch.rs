//! Batches: up to twelve texts, sealed in one call.

use crate::archive::Batch;
use crate::drawer::{Drawer, UsedNonces};
use crate::refusal::Refusal;

/// What may be refused.
const PROMISED: [Refusal; 7] = [
    Refusal::KeyLength,
    Refusal::DataLength,
    Refusal::TextLength,
    Refusal::TagLength,
    Refusal::RoomLength,
    Refusal::DrawerSpent,
    Refusal::BatchForm,
];

/// Seals 1 to 12 texts, each as [`seal`](super::seal) does, in order and with the
/// next draws of `drawer`, and answers the nonces drawn. `texts` has the texts end
/// to end, and `lengths` the length of each; any may be empty. All have the same
/// associated data.
///
/// The ciphertexts go end to end to the first bytes of `room`, as many as `texts`
/// has; the rest of longer room keeps its bytes. The tags, 16 bytes each, go to
/// `tags` in the same order. If this is refused, both are unchanged, and so is the
/// drawer: nothing was drawn.
///
/// ```
/// use vespruldo::slices::{open, seal_batch};
/// use vespruldo::{Drawer, Refusal};
///
/// let (key, data) = ([1; 16], b"class 7");
/// let mut drawer = Drawer::start(42, 0);
/// let (mut room, mut tags) = ([0; 9], [0; 48]);
///
/// let lengths = [3, 2, 4];
/// let nonces = seal_batch(&key, data, b"catoxduck", &lengths, &mut drawer, &mut room, &mut tags)?;
/// assert_eq!(drawer, Drawer::start(42, 3));
///
/// // Each card is opened by itself. This is the second one.
/// let mut text = [0; 2];
/// let nonce = nonces.into_iter().nth(1).expect("three cards");
/// open(&key, nonce.as_bytes(), data, &room[3..5], &tags[16..32], &mut text)?;
/// assert_eq!(text, *b"ox");
///
/// // One byte has no length: nothing is drawn, and nothing written.
/// let before = (room, tags);
/// let refused = seal_batch(&key, data, b"catoxduck", &[3, 2, 3], &mut drawer, &mut room, &mut tags);
/// assert_eq!(refused.err(), Some(Refusal::BatchForm));
/// assert_eq!(drawer, Drawer::start(42, 3));
/// assert_eq!((room, tags), before);
/// # Ok::<(), Refusal>(())
/// ```
///
/// # Errors
///
/// The first of these that applies: [`Refusal::KeyLength`] if the key is not 16
/// bytes long, [`Refusal::DataLength`] if the associated data is longer than
/// 65,536 bytes, [`Refusal::TextLength`] if any one of the lengths is over
/// 1,048,576, [`Refusal::TagLength`] if `tags` is not 16 bytes long for each
/// length, [`Refusal::RoomLength`] if the room is shorter than all of `texts`,
/// [`Refusal::DrawerSpent`] if fewer draws are left than there are lengths,
/// [`Refusal::BatchForm`] if there are not 1 to 12 lengths or they do not add up
/// to that of `texts`.
pub fn seal_batch(
    key: &[u8],
    data: &[u8],
    texts: &[u8],
    lengths: &[u64],
    drawer: &mut Drawer,
    room: &mut [u8],
    tags: &mut [u8],
) -> Result<UsedNonces, Refusal> {
    drawer.hand_over(&PROMISED, |drawer| {
        let Batch { number, next } =
            call!(vespruldo_seal_batch: key, data, texts, lengths; drawer; room, tags);
        (number, next, UsedNonces::between(drawer, next))
    })
}
