//! ChaCha20's key stream over a text that is there as a whole or comes in bursts.

use crate::bytes::{Nonce, StreamKey, UsedNonce};
use crate::refusal::Refusal;
use crate::sizes::CHACHA20_BLOCK_BYTES;
use crate::slices;

/// ChaCha20's key stream under one key and nonce, which is added to a text in
/// place, by exclusive or. It carries its own counter and goes on where it
/// stopped: nobody has to know how many blocks were used.
///
/// A text that is there as a whole takes one call. The nonce comes back as a used
/// one, and is stored with the text, to give it back:
///
/// ```
/// use vespruldo::{Drawer, KeyStream, StreamKey};
///
/// let key = StreamKey::from([1; 32]);
/// let mut text = *b"Anna, desk 4";
///
/// let (stream, nonce) = KeyStream::start(&key, Drawer::start(42, 0).draw()?);
/// stream.finish(&mut text)?;
/// assert_ne!(text, *b"Anna, desk 4");
///
/// KeyStream::again(&key, &nonce, 0).finish(&mut text)?;
/// assert_eq!(text, *b"Anna, desk 4");
/// # Ok::<(), vespruldo::Refusal>(())
/// ```
///
/// There is no tag: whoever flips a bit here flips it in the text.
///
/// A long text comes in bursts of whole blocks, and at last a part of any length.
/// Together they are one text, which is given back in one call or in other bursts:
///
/// ```
/// use vespruldo::{Drawer, KeyStream, StreamKey};
///
/// let key = StreamKey::from([1; 32]);
/// let (mut stream, nonce) = KeyStream::start(&key, Drawer::start(42, 0).draw()?);
/// let mut recording = Vec::new();
/// for sound in 1..=5 {
///     let mut burst = [[sound; 64]; 3];
///     stream.add(&mut burst)?;
///     recording.extend(burst.as_flattened());
/// }
/// let mut last = [6; 40];
/// stream.finish(&mut last)?;
/// recording.extend(last);
///
/// KeyStream::again(&key, &nonce, 0).finish(&mut recording)?;
/// assert_eq!(recording[..192], [1; 192]);
/// assert_eq!(recording[5 * 192..], [6; 40]);
/// # Ok::<(), vespruldo::Refusal>(())
/// ```
///
/// No key, nonce and counter may be used for two texts, or whoever has both has
/// their sum. So a nonce goes for good:
///
/// ```compile_fail,E0382
/// # use vespruldo::{Drawer, KeyStream, StreamKey};
/// # let (mut drawer, key) = (Drawer::start(42, 0), StreamKey::from([1; 32]));
/// let nonce = drawer.draw()?;
/// let (anna, _) = KeyStream::start(&key, nonce);
/// let (bert, _) = KeyStream::start(&key, nonce);
/// # Ok::<(), vespruldo::Refusal>(())
/// ```
///
/// and a stream can be neither copied nor cloned, nor go on after its end:
///
/// ```compile_fail,E0599
/// # use vespruldo::{KeyStream, StreamKey, UsedNonce};
/// # let (key, nonce) = (StreamKey::from([1; 32]), UsedNonce::from([2; 12]));
/// let stream = KeyStream::again(&key, &nonce, 0);
/// let copy = stream.clone();
/// ```
///
/// ```compile_fail,E0382
/// # use vespruldo::{KeyStream, StreamKey, UsedNonce};
/// # let (key, nonce) = (StreamKey::from([1; 32]), UsedNonce::from([2; 12]));
/// let stream = KeyStream::again(&key, &nonce, 0);
/// stream.finish(&mut [1; 100])?;
/// stream.finish(&mut [2; 100])?;
/// # Ok::<(), vespruldo::Refusal>(())
/// ```
#[derive(Debug)]
#[must_use = "a key stream adds nothing unless it is asked"]
pub struct KeyStream<'k> {
    key: &'k StreamKey,
    nonce: UsedNonce,
    next_block: u64,
}

impl<'k> KeyStream<'k> {
    /// A key stream from block 0 on. The nonce goes for good, and comes back as a
    /// used one. Store that before the first burst: without it nothing is given
    /// back.
    pub fn start(key: &'k StreamKey, nonce: Nonce) -> (KeyStream<'k>, UsedNonce) {
        let nonce = UsedNonce::from(nonce);
        (KeyStream::again(key, &nonce, 0), nonce)
    }

    /// The key stream under a nonce that was used before, from block `start` on.
    /// From block 0 on it gives a text back. Whoever was switched off between two
    /// bursts, and has stored the nonce and the [next block](Self::next_block),
    /// goes on from there:
    ///
    /// ```
    /// use vespruldo::{Drawer, KeyStream, StreamKey};
    ///
    /// let key = StreamKey::from([1; 32]);
    /// let (mut stream, nonce) = KeyStream::start(&key, Drawer::start(42, 0).draw()?);
    /// let mut text = [[7; 64]; 5];
    /// stream.add(&mut text[..3])?;
    /// let stored = (nonce, stream.next_block());
    /// drop(stream);
    ///
    /// let (nonce, next_block) = stored;
    /// KeyStream::again(&key, &nonce, next_block).add(&mut text[3..])?;
    ///
    /// KeyStream::again(&key, &nonce, 0).add(&mut text)?;
    /// assert_eq!(text, [[7; 64]; 5]);
    /// # Ok::<(), vespruldo::Refusal>(())
    /// ```
    ///
    /// No type knows which counters were used. Whoever cannot be sure that none was
    /// used since, because the power went before the counter was stored, goes on
    /// under a fresh nonce.
    pub fn again(key: &'k StreamKey, nonce: &UsedNonce, start: u64) -> KeyStream<'k> {
        KeyStream {
            key,
            nonce: *nonce,
            next_block: start,
        }
    }

    /// Adds the stream to a burst of whole blocks, and goes on behind them. If
    /// this is refused, the burst is unchanged, and so is the stream: it may be
    /// asked again.
    ///
    /// A burst that ends inside a block uses up the rest of it, and what follows
    /// would come back as noise if the text were not cut there again. It does not
    /// compile:
    ///
    /// ```compile_fail,E0308
    /// # use vespruldo::{KeyStream, StreamKey, UsedNonce};
    /// # let (key, nonce) = (StreamKey::from([1; 32]), UsedNonce::from([2; 12]));
    /// let mut stream = KeyStream::again(&key, &nonce, 0);
    /// let mut burst = [7; 100];
    /// stream.add(&mut burst)?;
    /// # Ok::<(), vespruldo::Refusal>(())
    /// ```
    ///
    /// A buffer is kept as `[[u8; 64]; N]`, and filled through `as_flattened_mut`;
    /// since Rust 1.88 `as_chunks_mut` cuts bytes into blocks, and what is left.
    ///
    /// # Errors
    ///
    /// The first of these that applies: [`Refusal::TextLength`] if the burst is
    /// longer than 1,048,576 bytes, [`Refusal::StreamTooLong`] if the next block
    /// plus the blocks of the burst exceeds 2^32.
    pub fn add(&mut self, burst: &mut [[u8; CHACHA20_BLOCK_BYTES]]) -> Result<(), Refusal> {
        self.next_block = self.add_to(burst.as_flattened_mut())?;
        Ok(())
    }

    /// Adds the stream to the last part of a text, of any length, ends it, and
    /// answers where it stopped. A text that ends with a burst needs no last part.
    ///
    /// What is enciphered from there on under the same nonce is another text, and is
    /// given back from there on:
    ///
    /// ```
    /// use vespruldo::{Drawer, KeyStream, StreamKey};
    ///
    /// let key = StreamKey::from([1; 32]);
    /// let (mut anna, mut bert) = (*b"Anna, desk 4", *b"Bert, desk 9");
    /// let (stream, nonce) = KeyStream::start(&key, Drawer::start(42, 0).draw()?);
    /// let next_block = stream.finish(&mut anna)?;
    /// KeyStream::again(&key, &nonce, next_block).finish(&mut bert)?;
    ///
    /// KeyStream::again(&key, &nonce, next_block).finish(&mut bert)?;
    /// assert_eq!(bert, *b"Bert, desk 9");
    /// # Ok::<(), vespruldo::Refusal>(())
    /// ```
    ///
    /// If this is refused, the text is unchanged, no block is used, and the stream is
    /// gone all the same. Whoever would go on after a refusal asks for the
    /// [next block](Self::next_block) first, and goes on from there by
    /// [`again`](Self::again).
    ///
    /// # Errors
    ///
    /// The first of these that applies: [`Refusal::TextLength`] if the part is
    /// longer than 1,048,576 bytes, [`Refusal::StreamTooLong`] if the next block
    /// plus the blocks needed exceeds 2^32.
    pub fn finish(self, text: &mut [u8]) -> Result<u64, Refusal> {
        self.add_to(text)
    }

    /// The nonce, which is stored with the text.
    pub fn nonce(&self) -> UsedNonce {
        self.nonce
    }

    /// The counter of the next block: where the stream stopped. Behind the last
    /// block that there is, it is 2^32.
    #[must_use]
    pub fn next_block(&self) -> u64 {
        self.next_block
    }

    /// Adds the stream, from the next block on, and answers where it stopped.
    fn add_to(&self, text: &mut [u8]) -> Result<u64, Refusal> {
        let (key, nonce) = (self.key.as_bytes(), self.nonce.as_bytes());
        slices::chacha20(key, nonce, self.next_block, text)
    }
}

#[cfg(test)]
mod tests {
    use super::*;
    use crate::sizes::TEXT_MAX;

    /// Where the counter ends.
    const END: u64 = 1 << 32;
    const BLOCK: [u8; CHACHA20_BLOCK_BYTES] = [7; CHACHA20_BLOCK_BYTES];
    const NONCE: [u8; 12] = [2; 12];

    /// Hands over the stream from this block on.
    fn from<T>(start: u64, tried: impl FnOnce(KeyStream) -> T) -> T {
        let key = StreamKey::from([1; 32]);
        tried(KeyStream::again(&key, &UsedNonce::from(NONCE), start))
    }

    /// What one call of the archive makes of so many bytes.
    fn in_one_call(start: u64, len: usize) -> Vec<u8> {
        let mut text = vec![7; len];
        let next = slices::chacha20(&[1; 32], &NONCE, start, &mut text);
        assert_eq!(next, Ok(start + len.div_ceil(64) as u64));
        text
    }

    /// What is made of a last part of so many bytes.
    fn finished(start: u64, len: usize) -> Result<Vec<u8>, Refusal> {
        let mut text = vec![7; len];
        let result = from(start, |stream| stream.finish(&mut text));
        match result {
            Ok(next) => assert_eq!(next, start + len.div_ceil(64) as u64),
            Err(_) => assert!(text == vec![7; len], "{start}, {len}"),
        }
        result.map(|_| text)
    }

    #[test]
    fn a_fresh_nonce_starts_at_block_0_and_comes_back_used() {
        let key = StreamKey::from([1; 32]);
        let (stream, nonce) = KeyStream::start(&key, Nonce::never_used(NONCE));
        assert_eq!(nonce, UsedNonce::from(NONCE));
        assert_eq!((stream.nonce(), stream.next_block()), (nonce, 0));
        let mut text = [7; 100];
        assert_eq!(stream.finish(&mut text), Ok(2));
        assert_eq!(text[..], in_one_call(0, 100));
    }

    #[test]
    fn bursts_and_a_last_part_are_one_text() {
        for start in [0, 5, END - 7] {
            from(start, |mut stream| {
                let (mut text, mut next) = (Vec::new(), start);
                for blocks in [1, 0, 3, 2] {
                    let mut burst = vec![BLOCK; blocks];
                    assert_eq!(stream.add(&mut burst), Ok(()));
                    next += blocks as u64;
                    assert_eq!(stream.next_block(), next);
                    text.extend(burst.concat());
                }
                let mut last = [7; 33];
                assert_eq!(stream.finish(&mut last), Ok(next + 1));
                text.extend(last);
                assert_eq!(text, in_one_call(start, 6 * 64 + 33));
            });
        }
    }

    #[test]
    fn a_refused_burst_changes_nothing_and_the_stream_goes_on() {
        from(END - 2, |mut stream| {
            let mut refused = |blocks, refusal, next| {
                let mut burst = vec![BLOCK; blocks];
                assert_eq!(stream.add(&mut burst), Err(refusal));
                assert!(burst == vec![BLOCK; blocks], "{blocks}");
                assert_eq!(stream.next_block(), next);
            };
            refused(TEXT_MAX / 64 + 1, Refusal::TextLength, END - 2);
            refused(TEXT_MAX / 64, Refusal::StreamTooLong, END - 2);
            refused(3, Refusal::StreamTooLong, END - 2);

            let mut burst = [BLOCK; 2];
            assert_eq!(stream.add(&mut burst), Ok(()));
            assert_eq!(burst.as_flattened(), in_one_call(END - 2, 128));
            assert_eq!(stream.next_block(), END);

            // At the end only an empty burst is done.
            assert_eq!(stream.add(&mut []), Ok(()));
            assert_eq!(stream.add(&mut [BLOCK]), Err(Refusal::StreamTooLong));
            assert_eq!(stream.next_block(), END);
        });
    }

    #[test]
    fn lengths_are_the_documents() {
        for len in [0, 1, TEXT_MAX] {
            assert!(finished(0, len) == Ok(in_one_call(0, len)), "{len}");
        }
        assert_eq!(finished(0, TEXT_MAX + 1), Err(Refusal::TextLength));
        let mut longest = vec![BLOCK; TEXT_MAX / 64];
        assert_eq!(from(0, |mut stream| stream.add(&mut longest)), Ok(()));
        assert!(longest.concat() == in_one_call(0, TEXT_MAX));
    }

    #[test]
    fn counter_ends_where_the_document_says() {
        assert_eq!(finished(END - 1, 64), Ok(in_one_call(END - 1, 64)));
        assert_eq!(finished(END - 1, 65), Err(Refusal::StreamTooLong));
        assert_eq!(finished(END, 0), Ok(Vec::new()));
        assert_eq!(finished(END, 1), Err(Refusal::StreamTooLong));
        for start in [END + 1, u64::MAX] {
            assert_eq!(finished(start, 0), Err(Refusal::StreamTooLong));
            let added = from(start, |mut stream| stream.add(&mut []));
            assert_eq!(added, Err(Refusal::StreamTooLong));
        }
    }

    #[test]
    fn debug_shows_nothing_of_the_key() {
        let shown = from(5, |stream| format!("{stream:?}"));
        let nonce = "02".repeat(12);
        let expected = format!("key: StreamKey(..), nonce: UsedNonce({nonce}), next_block: 5");
        assert_eq!(shown, format!("KeyStream {{ {expected} }}"));
    }
}
