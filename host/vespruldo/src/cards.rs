//! Sealing and opening with types of fixed lengths, and cards as bytes. What is
//! answered is allocated.

use alloc::vec;
use alloc::vec::Vec;

use crate::bytes::{Key, Nonce, Tag, UsedNonce};
use crate::data::Data;
use crate::refusal::Refusal;
use crate::sizes::{NONCE_BYTES, TAG_BYTES, TEXT_MAX};
use crate::slices;

/// What was sealed: all that opening needs, apart from the key and the associated
/// data. All of it is public.
#[derive(Clone, Debug)]
#[must_use]
pub struct Sealed {
    /// The nonce that it was sealed with.
    pub nonce: UsedNonce,
    /// As many bytes as the text has.
    pub ciphertext: Vec<u8>,
    /// The tag over nonce, associated data and text.
    pub tag: Tag,
}

impl Sealed {
    /// The card to store, 30 bytes longer than the text: the nonce in 12 bytes,
    /// the length of the ciphertext in 2, little-endian, the ciphertext, and the
    /// tag in 16. It is the card that [`slices::card_seal`] makes and that the
    /// tool `cards` makes and opens.
    ///
    /// ```
    /// use vespruldo::{seal, Data, Drawer, Key, Sealed};
    ///
    /// let key = Key::from([1; 16]);
    /// let sealed = seal(&key, Drawer::start(42, 0).draw()?, Data(b"class 7"), b"Anna, desk 4")?;
    /// let stored = sealed.to_bytes()?;
    /// assert_eq!(stored.len(), 12 + 30);
    /// assert_eq!(stored[..12], *sealed.nonce.as_bytes());
    /// assert_eq!(stored[12..14], [12, 0]);
    /// assert_eq!(stored[14..26], sealed.ciphertext);
    /// assert_eq!(stored[26..], *sealed.tag.as_bytes());
    /// # Ok::<(), vespruldo::Refusal>(())
    /// ```
    ///
    /// # Errors
    ///
    /// [`Refusal::TextLength`] if the ciphertext is longer than 65,535 bytes,
    /// the most that a card's two bytes can say. ([`seal`] takes more.)
    pub fn to_bytes(&self) -> Result<Vec<u8>, Refusal> {
        let length = u16::try_from(self.ciphertext.len()).map_err(|_| Refusal::TextLength)?;
        let parts: [&[u8]; 4] = [
            self.nonce.as_ref(),
            &length.to_le_bytes(),
            &self.ciphertext,
            self.tag.as_ref(),
        ];
        Ok(parts.concat())
    }

    /// What a card holds that [`to_bytes`](Sealed::to_bytes) or the tool `cards`
    /// made. Whether it is as it was at sealing is for [`open`] to say.
    ///
    /// ```
    /// use vespruldo::{open_short, seal_short, Drawer, Key, Refusal, Sealed};
    ///
    /// let key = Key::from([1; 16]);
    /// let stored = seal_short(&key, Drawer::start(42, 0).draw()?, b"Anna, desk 4")?.to_bytes()?;
    /// assert_eq!(open_short(&key, &Sealed::from_bytes(&stored)?)?, b"Anna, desk 4");
    ///
    /// let refused = Sealed::from_bytes(&stored[..41]);
    /// assert_eq!(refused.err(), Some(Refusal::CutShort));
    /// # Ok::<(), Refusal>(())
    /// ```
    ///
    /// # Errors
    ///
    /// The first of these that applies: [`Refusal::CutShort`] if there are fewer
    /// bytes than the length that the card says and 30, [`Refusal::LeftOver`] if
    /// there are more.
    pub fn from_bytes(bytes: &[u8]) -> Result<Sealed, Refusal> {
        let (nonce, rest) = front::<NONCE_BYTES>(bytes)?;
        let (length, rest) = front(rest)?;
        let length = usize::from(u16::from_le_bytes(length));
        let (ciphertext, rest) = rest.split_at_checked(length).ok_or(Refusal::CutShort)?;
        let (tag, rest) = front::<TAG_BYTES>(rest)?;
        if !rest.is_empty() {
            return Err(Refusal::LeftOver);
        }
        Ok(Sealed {
            nonce: UsedNonce::from(nonce),
            ciphertext: ciphertext.to_vec(),
            tag: Tag::from(tag),
        })
    }
}

impl TryFrom<&[u8]> for Sealed {
    type Error = Refusal;

    /// [`Sealed::from_bytes`].
    fn try_from(bytes: &[u8]) -> Result<Sealed, Refusal> {
        Sealed::from_bytes(bytes)
    }
}

/// The first `N` bytes of a card's rest, and what follows them.
fn front<const N: usize>(rest: &[u8]) -> Result<([u8; N], &[u8]), Refusal> {
    let (front, rest) = rest.split_first_chunk().ok_or(Refusal::CutShort)?;
    Ok((*front, rest))
}

/// Room for a text or a ciphertext of as many bytes as `like`, but never more
/// than the longest one needs. Whether a length is allowed is left to the
/// archive, which judges the text before its room: a text that is too long is
/// refused with 4 and not, for its short room, with 6.
fn room_for(like: &[u8]) -> Vec<u8> {
    vec![0; like.len().min(TEXT_MAX)]
}

/// Seals a text by one of the two forms, which is lent the nonce, and room for
/// ciphertext and tag.
fn sealed(
    nonce: Nonce,
    text: &[u8],
    form: impl FnOnce(&[u8], &mut [u8], &mut [u8]) -> Result<(), Refusal>,
) -> Result<Sealed, Refusal> {
    let mut ciphertext = room_for(text);
    let mut tag = [0; TAG_BYTES];
    form(nonce.as_bytes(), &mut ciphertext, &mut tag)?;
    Ok(Sealed {
        nonce: UsedNonce::from(nonce),
        ciphertext,
        tag: Tag::from(tag),
    })
}

/// Seals `text` with HyENA. The tag also covers the associated data `data`, which
/// is not hidden and not part of what is answered: opening must be given the
/// same.
///
/// The nonce is used up even if this is refused: draw the next one from the same
/// [`Drawer`](crate::Drawer).
///
/// ```
/// use vespruldo::{open, seal, Data, Drawer, Key};
///
/// let key = Key::from([1; 16]);
/// let mut drawer = Drawer::start(42, 0);
///
/// let sealed = seal(&key, drawer.draw()?, Data(b"class 7"), b"Anna, desk 4")?;
/// assert_eq!(sealed.ciphertext.len(), 12);
/// assert_ne!(sealed.ciphertext, b"Anna, desk 4");
/// assert_eq!(open(&key, Data(b"class 7"), &sealed)?, b"Anna, desk 4");
/// # Ok::<(), vespruldo::Refusal>(())
/// ```
///
/// The ciphertext is allocated; [`slices::seal`] writes it to room that is lent,
/// and [`seal_in_place`](crate::seal_in_place) to the text's own place.
///
/// # Errors
///
/// The first of these that applies: [`Refusal::DataLength`] if the associated
/// data is longer than 65,536 bytes, [`Refusal::TextLength`] if the text is
/// longer than 1,048,576 bytes.
pub fn seal(key: &Key, nonce: Nonce, data: Data, text: &[u8]) -> Result<Sealed, Refusal> {
    sealed(nonce, text, |nonce, room, tag| {
        slices::seal(key.as_bytes(), nonce, data.0, text, room, tag)
    })
}

/// Opens what [`seal`] sealed and answers the text, if key, associated data and
/// all that is in `sealed` are what they were at sealing. Otherwise there is no
/// text: the archive has overwritten with zeros what it had written of it.
///
/// ```
/// use vespruldo::{open, seal, Data, Drawer, Key, Refusal};
///
/// let key = Key::from([1; 16]);
/// let mut drawer = Drawer::start(42, 0);
/// let mut sealed = seal(&key, drawer.draw()?, Data(b"class 7"), b"Anna, desk 4")?;
///
/// assert_eq!(open(&key, Data(b"class 7"), &sealed)?, b"Anna, desk 4");
/// assert_eq!(open(&key, Data(b"class 8"), &sealed), Err(Refusal::WrongTag));
/// sealed.ciphertext[11] ^= 1;
/// assert_eq!(open(&key, Data(b"class 7"), &sealed), Err(Refusal::WrongTag));
/// # Ok::<(), Refusal>(())
/// ```
///
/// The text is allocated; [`slices::open`] writes it to room that is lent, and
/// [`open_in_place`](crate::open_in_place) to the ciphertext's own place.
///
/// # Errors
///
/// As for [`seal`], with the ciphertext in place of the text, and last
/// [`Refusal::WrongTag`] if the tag is not the recomputed one.
pub fn open(key: &Key, data: Data, sealed: &Sealed) -> Result<Vec<u8>, Refusal> {
    let mut text = room_for(&sealed.ciphertext);
    slices::open(
        key.as_bytes(),
        sealed.nonce.as_bytes(),
        data.0,
        &sealed.ciphertext,
        sealed.tag.as_bytes(),
        &mut text,
    )?;
    Ok(text)
}

/// Seals without associated data: [`seal`] with `data` empty. Short is the form
/// of the call, not the text.
///
/// # Errors
///
/// As for [`seal`], but never [`Refusal::DataLength`].
pub fn seal_short(key: &Key, nonce: Nonce, text: &[u8]) -> Result<Sealed, Refusal> {
    sealed(nonce, text, |nonce, room, tag| {
        slices::seal_short(key.as_bytes(), nonce, text, room, tag)
    })
}

/// Opens what was sealed without associated data, by [`seal_short`] or by
/// [`seal`] with `data` empty.
///
/// ```
/// use vespruldo::{open, open_short, seal_short, Data, Drawer, Key};
///
/// let key = Key::from([1; 16]);
/// let sealed = seal_short(&key, Drawer::start(42, 0).draw()?, b"Anna, desk 4")?;
/// assert_eq!(open_short(&key, &sealed)?, b"Anna, desk 4");
/// assert_eq!(open(&key, Data(b""), &sealed)?, b"Anna, desk 4");
/// # Ok::<(), vespruldo::Refusal>(())
/// ```
///
/// # Errors
///
/// As for [`open`], but never [`Refusal::DataLength`].
pub fn open_short(key: &Key, sealed: &Sealed) -> Result<Vec<u8>, Refusal> {
    let mut text = room_for(&sealed.ciphertext);
    slices::open_short(
        key.as_bytes(),
        sealed.nonce.as_bytes(),
        &sealed.ciphertext,
        sealed.tag.as_bytes(),
        &mut text,
    )?;
    Ok(text)
}

#[cfg(test)]
mod tests {
    use super::*;
    use crate::sizes::DATA_MAX;

    fn key() -> Key {
        Key::from([1; 16])
    }

    fn nonce() -> Nonce {
        Nonce::never_used([2; 12])
    }

    /// Something sealed that opening must look at, with a ciphertext of its own.
    fn made_up(ciphertext: Vec<u8>) -> Sealed {
        Sealed {
            nonce: UsedNonce::from(nonce()),
            ciphertext,
            tag: Tag::from([3; 16]),
        }
    }

    const CLASS: Data = Data(b"class 7");

    #[test]
    fn texts_of_every_kind_of_length_come_back() {
        for len in [0, 1, 15, 16, 17, 4096, 4097, TEXT_MAX] {
            let text = vec![5; len];
            let sealed = seal(&key(), nonce(), CLASS, &text).expect("sealed");
            assert_eq!(sealed.nonce, UsedNonce::from(nonce()));
            assert_eq!(sealed.ciphertext.len(), len);
            let opened = open(&key(), CLASS, &sealed).expect("opened");
            assert!(opened == text, "{len}");
        }
    }

    #[test]
    fn bytes_are_those_of_the_slices() {
        let text = b"Anna, desk 4";
        let (mut room, mut tag) = ([0; 12], [0; 16]);
        slices::seal(&[1; 16], &[2; 12], b"class 7", text, &mut room, &mut tag).expect("sealed");
        let sealed = seal(&key(), nonce(), CLASS, text).expect("sealed");
        assert_eq!(sealed.ciphertext, room);
        assert_eq!(sealed.tag.as_bytes(), &tag);

        slices::seal_short(&[1; 16], &[2; 12], text, &mut room, &mut tag).expect("sealed");
        let short = seal_short(&key(), nonce(), text).expect("sealed");
        assert_eq!(short.ciphertext, room);
        assert_eq!(short.tag.as_bytes(), &tag);
        assert_eq!(open_short(&key(), &short).as_deref(), Ok(&text[..]));
        assert_eq!(open_short(&key(), &sealed), Err(Refusal::WrongTag));
    }

    #[test]
    fn lengths_beyond_the_documents_are_refused() {
        let long = vec![0; TEXT_MAX + 1];
        let data = Data(&long[..=DATA_MAX]);
        let sealed = |data, text| seal(&key(), nonce(), data, text).err();
        assert_eq!(sealed(Data(&[]), &long), Some(Refusal::TextLength));
        assert_eq!(sealed(data, &[]), Some(Refusal::DataLength));
        assert_eq!(sealed(data, &long), Some(Refusal::DataLength));
        assert_eq!(sealed(Data(&long[..DATA_MAX]), &[]), None);
        let short = seal_short(&key(), nonce(), &long);
        assert_eq!(short.err(), Some(Refusal::TextLength));

        let (empty, long) = (made_up(vec![]), made_up(long.clone()));
        assert_eq!(open(&key(), Data(&[]), &long), Err(Refusal::TextLength));
        assert_eq!(open(&key(), data, &empty), Err(Refusal::DataLength));
        assert_eq!(open(&key(), data, &long), Err(Refusal::DataLength));
        assert_eq!(open_short(&key(), &long), Err(Refusal::TextLength));
    }

    #[test]
    fn room_is_no_longer_than_the_longest_text() {
        assert_eq!(room_for(&[0; 5]).len(), 5);
        assert_eq!(room_for(&vec![0; TEXT_MAX]).len(), TEXT_MAX);
        assert_eq!(room_for(&vec![0; TEXT_MAX + 1]).len(), TEXT_MAX);
    }

    /// Each bit of nonce, data, ciphertext, tag and key, flipped in turn.
    #[test]
    fn whatever_is_damaged_is_refused() {
        let text = b"Anna, desk 4, by the window";
        let parts = || {
            let sealed = seal(&key(), nonce(), CLASS, text).expect("sealed");
            let tag = sealed.tag.into_bytes().to_vec();
            [
                sealed.nonce.into_bytes().to_vec(),
                CLASS.0.to_vec(),
                sealed.ciphertext,
                tag,
                vec![1; 16],
            ]
        };
        let opened = |[nonce, data, ciphertext, tag, key]: [Vec<u8>; 5]| {
            let sealed = Sealed {
                nonce: nonce[..].try_into()?,
                ciphertext,
                tag: tag[..].try_into()?,
            };
            open(&Key::try_from(&key[..])?, Data(&data), &sealed)
        };
        assert_eq!(opened(parts()).as_deref(), Ok(&text[..]));
        for part in 0..5 {
            for bit in 0..8 * parts()[part].len() {
                let mut damaged = parts();
                damaged[part][bit / 8] ^= 1 << (bit % 8);
                assert_eq!(opened(damaged), Err(Refusal::WrongTag), "{part}, bit {bit}");
            }
        }
    }
}
