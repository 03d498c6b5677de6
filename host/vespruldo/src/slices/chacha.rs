//! ChaCha20 as a key stream.

use crate::refusal::{result_of, Refusal};

/// What may be refused.
const PROMISED: [Refusal; 4] = [
    Refusal::KeyLength,
    Refusal::NonceLength,
    Refusal::TextLength,
    Refusal::StreamTooLong,
];

/// Adds ChaCha20's key stream under `key` and `nonce` to `text` in place, by
/// exclusive or, and answers where it stopped. The stream's blocks of 64 bytes
/// are counted from `start`, so that is `start` plus the blocks used, of which the
/// text may leave the last one unfilled. Done twice, from the same start, this
/// gives the text back. The text is unchanged if this is refused.
///
/// ```
/// // RFC 7539, section 2.4.2.
/// let key: [u8; 32] = std::array::from_fn(|i| i as u8);
/// let nonce = [0, 0, 0, 0, 0, 0, 0, 0x4a, 0, 0, 0, 0];
/// let mut text = *b"Ladies and Gentlemen of the class of '99: If I could offer you \
///                   only one tip for the future, sunscreen would be it.";
///
/// let next = vespruldo::slices::chacha20(&key, &nonce, 1, &mut text)?;
/// assert_eq!(text[..4], [0x6e, 0x2e, 0x35, 0x9a]);
/// assert_eq!(text[110..], [0x5e, 0x42, 0x87, 0x4d]);
/// // 114 bytes begin two blocks.
/// assert_eq!(next, 3);
/// # Ok::<(), vespruldo::Refusal>(())
/// ```
///
/// A long text may come in bursts. Each but the last has whole blocks, and each
/// starts where the one before stopped: so all together are one text.
/// [`KeyStream`](crate::KeyStream) holds its callers to that.
///
/// ```
/// use vespruldo::slices::chacha20;
///
/// let (key, nonce) = ([1; 32], [2; 12]);
/// let mut text = [7; 150];
/// let (first, last) = text.split_at_mut(128);
/// let next = chacha20(&key, &nonce, 0, first)?;
/// chacha20(&key, &nonce, next, last)?;
///
/// chacha20(&key, &nonce, 0, &mut text)?;
/// assert_eq!(text, [7; 150]);
/// # Ok::<(), vespruldo::Refusal>(())
/// ```
///
/// The counter must not run past its 32 bits. A stream may stop behind the last
/// block, at 2^32; from there only an empty text is done, and from further on none:
///
/// ```
/// use vespruldo::slices::chacha20;
/// use vespruldo::Refusal;
///
/// let from = |start, text: &mut [u8]| chacha20(&[1; 32], &[2; 12], start, text);
/// let end = 1 << 32;
/// assert_eq!(from(end - 1, &mut [7; 64]), Ok(end));
/// assert_eq!(from(end - 1, &mut [7; 65]), Err(Refusal::StreamTooLong));
/// assert_eq!(from(end, &mut []), Ok(end));
/// assert_eq!(from(end, &mut [7]), Err(Refusal::StreamTooLong));
/// assert_eq!(from(end + 1, &mut []), Err(Refusal::StreamTooLong));
/// ```
///
/// # Errors
///
/// The first of these that applies: [`Refusal::KeyLength`] if the key is not 32
/// bytes long, [`Refusal::NonceLength`] if the nonce is not 12 bytes long,
/// [`Refusal::TextLength`] if the text is longer than 1,048,576 bytes,
/// [`Refusal::StreamTooLong`] if `start` plus the blocks needed exceeds 2^32.
pub fn chacha20(key: &[u8], nonce: &[u8], start: u64, text: &mut [u8]) -> Result<u64, Refusal> {
    let streamed = call!(vespruldo_chacha20: key, nonce; start; text);
    result_of(streamed.number, &PROMISED)?;
    Ok(streamed.next)
}
