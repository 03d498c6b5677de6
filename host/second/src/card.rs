//! A card as a file or in memory: sealing a text into one, and opening it.
//! Quotations are from docs/cards.1 unless they name a document.

use crate::hyena;

/// "The key: 16 bytes for a card".
const KEY: usize = 16;

/// "12 bytes of nonce".
const NONCE: usize = 12;

/// "The text's length in two bytes".
const LENGTH: usize = 2;

/// "16 bytes of tag".
const TAG: usize = 16;

/// "It is 30 bytes longer than the text."
pub const LONGER: usize = NONCE + LENGTH + TAG;

/// "Associated data, at most 65,536 bytes".
const LONGEST_DATA: usize = 65_536;

/// "A text of at most 65,535 bytes".
pub const LONGEST_TEXT: usize = 65_535;

/// What a card is made of, and how many bytes follow it.
#[derive(Debug, PartialEq, Eq)]
struct Parts<'a> {
    nonce: &'a [u8],
    ciphertext: &'a [u8],
    tag: &'a [u8],
    left_over: usize,
}

/// "12 bytes of nonce; the text's length in two bytes, the low one first; the
/// ciphertext, as long as the text; 16 bytes of tag." The ciphertext has at most
/// 65,535 bytes.
fn made(nonce: &[u8], ciphertext: &[u8], tag: &[u8]) -> Vec<u8> {
    let length = ciphertext.len();
    let length = [(length % 256) as u8, (length / 256) as u8];
    [nonce, &length, ciphertext, tag].concat()
}

/// The first `len` bytes and the others; nothing if there are fewer.
fn front(bytes: &[u8], len: usize) -> Option<(&[u8], &[u8])> {
    (bytes.len() >= len).then(|| bytes.split_at(len))
}

/// Takes the card at the front of `file` apart; nothing if it is cut short.
fn taken_apart(file: &[u8]) -> Option<Parts<'_>> {
    let (nonce, rest) = front(file, NONCE)?;
    let (length, rest) = front(rest, LENGTH)?;
    let length = usize::from(length[0]) + 256 * usize::from(length[1]);
    let (ciphertext, rest) = front(rest, length)?;
    let (tag, rest) = front(rest, TAG)?;
    Some(Parts {
        nonce,
        ciphertext,
        tag,
        left_over: rest.len(),
    })
}

/// The card of `text`, or the number of the refusal: 1 key has a wrong length, 2
/// nonce has a wrong length, 3 associated data too long, 4 text length not
/// allowed. "Where several apply, the smallest number is given" (document 01,
/// What comes back).
pub fn seal(key: &[u8], nonce: &[u8], data: &[u8], text: &[u8]) -> Result<Vec<u8>, u32> {
    // HyENA itself takes longer texts; of one that is too long for a card only
    // the other lengths are judged here.
    let too_long = text.len() > LONGEST_TEXT;
    let text = if too_long { &[] } else { text };
    let mut ciphertext = vec![0; text.len()];
    let mut tag = [0; TAG];
    match hyena::seal(key, nonce, data, text, &mut ciphertext, &mut tag) {
        0 if too_long => Err(4),
        0 => Ok(made(nonce, &ciphertext, &tag)),
        number => Err(number),
    }
}

/// [`seal`] into lent room, which is longer by as many bytes as one likes: "the
/// rest of longer room keeps its bytes" (include/vespruldo.h). Answers 0 or the
/// number of the refusal: those of [`seal`], and last 6, "room shorter than the
/// text and 30 bytes".
pub fn seal_into(key: &[u8], nonce: &[u8], data: &[u8], text: &[u8], room: &mut [u8]) -> u32 {
    let card = match seal(key, nonce, data, text) {
        Ok(card) => card,
        Err(number) => return number,
    };
    match room.get_mut(..card.len()) {
        Some(front) => front.copy_from_slice(&card),
        None => return 6,
    }
    0
}

/// The card that `file` is, or the number of the refusal: 1 key has a wrong
/// length, 3 associated data too long, 12 cut short, 15 bytes left over.
fn whole<'a>(key: &[u8], data: &[u8], file: &'a [u8]) -> Result<Parts<'a>, u32> {
    if key.len() != KEY {
        return Err(1);
    }
    if data.len() > LONGEST_DATA {
        return Err(3);
    }
    let parts = taken_apart(file).ok_or(12_u32)?;
    if parts.left_over > 0 {
        return Err(15);
    }
    Ok(parts)
}

/// Opens the card `file` into lent room. Answers 0 or the number of the refusal,
/// "the first that the function's comment names" (include/vespruldo.h): 1, 3, 12
/// and 15 as above, 6 "room shorter than the text", 7 tag is not the recomputed
/// one. "7 is given only for a card that is as long as it says." After 7 "the
/// first bytes of the room, as many as the text has, are each 0"
/// (include/vespruldo.h).
pub fn open_into(key: &[u8], data: &[u8], file: &[u8], room: &mut [u8]) -> u32 {
    match whole(key, data, file) {
        Ok(parts) => hyena::open(key, parts.nonce, data, parts.ciphertext, parts.tag, room),
        Err(number) => number,
    }
}

/// The text of the card in `file`, or the number of the refusal: those of
/// [`open_into`] but for 6, since there is room.
pub fn open(key: &[u8], data: &[u8], file: &[u8]) -> Result<Vec<u8>, u32> {
    let mut text = vec![0; whole(key, data, file)?.ciphertext.len()];
    match open_into(key, data, file, &mut text) {
        0 => Ok(text),
        number => Err(number),
    }
}

#[cfg(test)]
mod tests {
    use super::*;
    use crate::random::Random;

    #[test]
    fn card_is_nonce_length_ciphertext_and_tag() {
        let card = made(&[1; 12], &[2; 258], &[3; 16]);
        assert_eq!(card.len(), 258 + LONGER);
        assert_eq!(card[11..15], [1, 2, 1, 2]);
        assert_eq!(card[271..273], [2, 3]);
    }

    #[test]
    fn cards_are_taken_apart_cut_short_and_with_bytes_left_over() {
        let mut random = Random::new(61);
        for len in [0, 1, 16, 255, 256, 300, 65_535] {
            let [nonce, ciphertext, tag] = [12, len, 16].map(|len| random.bytes(len));
            let card = made(&nonce, &ciphertext, &tag);
            for left_over in [0, 1, 30, 400] {
                let file = [&card[..], &random.bytes(left_over)].concat();
                let parts = Parts {
                    nonce: &nonce,
                    ciphertext: &ciphertext,
                    tag: &tag,
                    left_over,
                };
                assert_eq!(taken_apart(&file), Some(parts), "{len}, {left_over}");
            }
            for short in (0..LONGER).chain([card.len() - 17, card.len() - 1]) {
                let short = short.min(card.len() - 1);
                assert_eq!(taken_apart(&card[..short]), None, "{len}, {short}");
            }
        }
    }

    #[test]
    fn cards_open_as_they_were_sealed() {
        let mut random = Random::new(62);
        for len in [0, 1, 15, 16, 17, 400, LONGEST_TEXT] {
            let [key, nonce, data, text] = [16, 12, 7, len].map(|len| random.bytes(len));
            let card = seal(&key, &nonce, &data, &text).unwrap();
            assert_eq!(card.len(), len + LONGER);
            assert_eq!(open(&key, &data, &card), Ok(text), "{len}");
            assert_eq!(open(&key, &[], &card), Err(7), "{len}");
            for place in [0, 11, card.len() - 1] {
                let mut changed = card.clone();
                changed[place] ^= 4;
                assert_eq!(open(&key, &data, &changed), Err(7), "{len}, {place}");
            }
        }
    }

    #[test]
    fn refusals_come_in_order() {
        let number = |lens: [usize; 4]| {
            let [key, nonce, data, text] = lens.map(|len| vec![5; len]);
            seal(&key, &nonce, &data, &text).err()
        };
        assert_eq!(number([16, 12, LONGEST_DATA, LONGEST_TEXT]), None);
        assert_eq!(number([16, 12, LONGEST_DATA, LONGEST_TEXT + 1]), Some(4));
        assert_eq!(number([16, 12, LONGEST_DATA + 1, 70_000]), Some(3));
        assert_eq!(number([16, 13, LONGEST_DATA + 1, 1_048_577]), Some(2));
        assert_eq!(number([15, 11, LONGEST_DATA + 1, 1_048_577]), Some(1));
        let card = seal(&[5; 16], &[5; 12], &[5; 9], b"duck").unwrap();
        let longer = [&card[..], &[0]].concat();
        for file in [&card, &longer, &card[..33]] {
            assert_eq!(open(&[5; 17], &[5; 65_537], file), Err(1));
            assert_eq!(open(&[5; 16], &[5; 65_537], file), Err(3));
        }
        // Whatever its tag is.
        for data in [9, 10] {
            assert_eq!(open(&[5; 16], &vec![5; data], &longer), Err(15));
            assert_eq!(open(&[5; 16], &vec![5; data], &card[..33]), Err(12));
        }
    }

    /// The number and what `len` bytes of room hold, 9 each before, when a call
    /// that answers this number has written these bytes, if there was room.
    fn written(len: usize, number: u32, front: &[u8]) -> (u32, Vec<u8>) {
        match len.checked_sub(front.len()) {
            Some(rest) => (number, [front, &vec![9; rest]].concat()),
            None => (6, vec![9; len]),
        }
    }

    #[test]
    fn cards_go_into_room_that_is_long_enough() {
        let (key, nonce, data, text) = ([5; 16], [6; 12], [7; 9], b"duck");
        let card = seal(&key, &nonce, &data, text).unwrap();
        for len in 0..60 {
            let mut room = vec![9; len];
            let number = seal_into(&key, &nonce, &data, text, &mut room);
            assert_eq!((number, room), written(len, 0, &card));
            let mut room = vec![9; len];
            let number = open_into(&key, &data, &card, &mut room);
            assert_eq!((number, room), written(len, 0, text));
            let mut room = vec![9; len];
            let number = open_into(&key, &data[1..], &card, &mut room);
            assert_eq!((number, room), written(len, 7, &[0; 4]));
        }
    }

    #[test]
    fn room_is_judged_after_the_other_lengths() {
        let card = seal(&[5; 16], &[5; 12], &[5; 9], b"duck").unwrap();
        for (number, file) in [
            (6, &card[..]),
            (12, &card[..33]),
            (15, &[&card[..], &[0]].concat()),
        ] {
            assert_eq!(open_into(&[5; 16], &[5; 9], file, &mut [0; 3]), number);
        }
        assert_eq!(open_into(&[5; 16], &vec![5; 65_537], &card, &mut [0; 3]), 3);
        let long = vec![5; LONGEST_TEXT + 1];
        assert_eq!(seal_into(&[5; 16], &[5; 12], &[], &long, &mut []), 4);
        assert_eq!(seal_into(&[5; 16], &[5; 11], &[], b"duck", &mut []), 2);
    }
}
