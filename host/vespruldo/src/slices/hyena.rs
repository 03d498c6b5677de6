//! HyENA, sealing and opening.

use crate::refusal::{result_of, Refusal};

/// What sealing may refuse: 1 to 6, the first of all. Opening refuses wrong tags
/// too.
const SEALING: usize = 6;
const OPENING: usize = 7;

/// What the short forms may refuse: the same without 3.
const SHORT: [Refusal; 6] = [
    Refusal::KeyLength,
    Refusal::NonceLength,
    Refusal::TextLength,
    Refusal::TagLength,
    Refusal::RoomLength,
    Refusal::WrongTag,
];

/// Seals `text` with HyENA under `key` and `nonce`. The tag also covers the
/// associated data `data`, which itself is not sealed.
///
/// The ciphertext goes to the first bytes of `room`, as many as the text has;
/// the rest of longer room keeps its bytes. The tag goes to `tag`. Both are
/// unchanged if this is refused. Never seal two texts under the same key and
/// nonce.
///
/// ```
/// let (key, nonce) = ([1; 16], [2; 12]);
/// let text = b"Anna, desk 4";
/// let mut ciphertext = [0; 12];
/// let mut tag = [0; 16];
///
/// vespruldo::slices::seal(&key, &nonce, b"class 7", text, &mut ciphertext, &mut tag)?;
/// assert_ne!(ciphertext, *text);
///
/// // Whoever opens it needs the same key, nonce and data.
/// let mut opened = [0; 12];
/// vespruldo::slices::open(&key, &nonce, b"class 7", &ciphertext, &tag, &mut opened)?;
/// assert_eq!(opened, *text);
/// # Ok::<(), vespruldo::Refusal>(())
/// ```
///
/// Nothing is written to room that is too short:
///
/// ```
/// use vespruldo::Refusal;
///
/// let (mut room, mut tag) = ([7; 11], [7; 16]);
/// let (key, nonce) = ([1; 16], [2; 12]);
/// let refused = vespruldo::slices::seal(&key, &nonce, b"", b"Anna, desk 4", &mut room, &mut tag);
/// assert_eq!(refused, Err(Refusal::RoomLength));
/// assert_eq!((room, tag), ([7; 11], [7; 16]));
/// ```
///
/// # Errors
///
/// The first of these that applies: [`Refusal::KeyLength`] if the key is not 16
/// bytes long, [`Refusal::NonceLength`] if the nonce is not 12 bytes long,
/// [`Refusal::DataLength`] if the associated data is longer than 65,536 bytes,
/// [`Refusal::TextLength`] if the text is longer than 1,048,576 bytes,
/// [`Refusal::TagLength`] if `tag` is not 16 bytes long,
/// [`Refusal::RoomLength`] if the room is shorter than the text.
pub fn seal(
    key: &[u8],
    nonce: &[u8],
    data: &[u8],
    text: &[u8],
    room: &mut [u8],
    tag: &mut [u8],
) -> Result<(), Refusal> {
    result_of(
        call!(vespruldo_seal: key, nonce, data, text; room, tag),
        &Refusal::ALL[..SEALING],
    )
}

/// Opens what [`seal`] sealed: the text goes to the first bytes of `room`, as
/// many as `ciphertext` has, if `tag` is the one that belongs to this key,
/// nonce, associated data and ciphertext. The rest of longer room keeps its
/// bytes.
///
/// If the tag is another one, this is refused and the same bytes of the room
/// are each 0, so nothing of an unproven text can be read there. On every other
/// refusal the room is unchanged.
///
/// ```
/// use vespruldo::Refusal;
///
/// let (key, nonce) = ([1; 16], [2; 12]);
/// let mut ciphertext = [0; 12];
/// let mut tag = [0; 16];
/// vespruldo::slices::seal(&key, &nonce, b"class 7", b"Anna, desk 4", &mut ciphertext, &mut tag)?;
///
/// // The room may be longer than the text.
/// let mut room = [7; 14];
/// vespruldo::slices::open(&key, &nonce, b"class 7", &ciphertext, &tag, &mut room)?;
/// assert_eq!(room, *b"Anna, desk 4\x07\x07");
///
/// // One bit was changed on the way.
/// ciphertext[11] ^= 1;
/// let refused = vespruldo::slices::open(&key, &nonce, b"class 7", &ciphertext, &tag, &mut room);
/// assert_eq!(refused, Err(Refusal::WrongTag));
/// assert_eq!(room, *b"\0\0\0\0\0\0\0\0\0\0\0\0\x07\x07");
/// # Ok::<(), Refusal>(())
/// ```
///
/// # Errors
///
/// As for [`seal`], with the ciphertext in place of the text, and last
/// [`Refusal::WrongTag`] if the tag is not the recomputed one.
pub fn open(
    key: &[u8],
    nonce: &[u8],
    data: &[u8],
    ciphertext: &[u8],
    tag: &[u8],
    room: &mut [u8],
) -> Result<(), Refusal> {
    result_of(
        call!(vespruldo_open: key, nonce, data, ciphertext, tag; room),
        &Refusal::ALL[..OPENING],
    )
}

/// Seals without associated data: [`seal`] with `data` empty. Short is the form
/// of the call, not the text.
///
/// ```
/// let (key, nonce, text) = ([1; 16], [2; 12], b"Anna, desk 4");
/// let (mut ciphertext, mut tag) = ([0; 12], [0; 16]);
/// vespruldo::slices::seal_short(&key, &nonce, text, &mut ciphertext, &mut tag)?;
///
/// let (mut same_ciphertext, mut same_tag) = ([0; 12], [0; 16]);
/// vespruldo::slices::seal(&key, &nonce, &[], text, &mut same_ciphertext, &mut same_tag)?;
/// assert_eq!((ciphertext, tag), (same_ciphertext, same_tag));
/// # Ok::<(), vespruldo::Refusal>(())
/// ```
///
/// # Errors
///
/// As for [`seal`], but never [`Refusal::DataLength`].
pub fn seal_short(
    key: &[u8],
    nonce: &[u8],
    text: &[u8],
    room: &mut [u8],
    tag: &mut [u8],
) -> Result<(), Refusal> {
    result_of(
        call!(vespruldo_seal_short: key, nonce, text; room, tag),
        &SHORT[..SEALING - 1],
    )
}

/// Opens what was sealed without associated data, by [`seal_short`] or by
/// [`seal`] with `data` empty.
///
/// ```
/// use vespruldo::Refusal;
///
/// let (key, nonce) = ([1; 16], [2; 12]);
/// let (mut ciphertext, mut tag) = ([0; 12], [0; 16]);
/// vespruldo::slices::seal_short(&key, &nonce, b"Anna, desk 4", &mut ciphertext, &mut tag)?;
///
/// let mut room = [0; 12];
/// vespruldo::slices::open_short(&key, &nonce, &ciphertext, &tag, &mut room)?;
/// assert_eq!(room, *b"Anna, desk 4");
///
/// tag[0] ^= 1;
/// let refused = vespruldo::slices::open_short(&key, &nonce, &ciphertext, &tag, &mut room);
/// assert_eq!(refused, Err(Refusal::WrongTag));
/// assert_eq!(room, [0; 12]);
/// # Ok::<(), Refusal>(())
/// ```
///
/// # Errors
///
/// As for [`open`], but never [`Refusal::DataLength`].
pub fn open_short(
    key: &[u8],
    nonce: &[u8],
    ciphertext: &[u8],
    tag: &[u8],
    room: &mut [u8],
) -> Result<(), Refusal> {
    result_of(
        call!(vespruldo_open_short: key, nonce, ciphertext, tag; room),
        &SHORT,
    )
}
