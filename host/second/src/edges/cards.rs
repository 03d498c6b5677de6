//! HyENA at the edges: lengths at the limits and beyond them, room longer than
//! the text, and every bit of a tag.
//!
//! The line of a card is `KEY NONCE AD TEXT ROOM TAG BIT SEALNUMBER SEALROOM
//! TAGBYTES OPENNUMBER OPENROOM`. Its first seven fields are numbers, six
//! lengths in bytes and a bit of the tag; what sealing and then opening
//! answered and left behind follows. The line of a short form is `short TEXT`
//! and then the same last five fields.

use super::{filled, ROOM_BYTE, SPARE, TAG_BYTE};
use crate::blake::digest;
use crate::hyena::{open, open_short, seal, seal_short};
use crate::lines::{print_field, Order};

/// The bytes of the buffers that room is lent from. The longest text here has
/// 4,097.
const BUFFER: usize = 4113;

/// The longest room that a line shows byte by byte.
const SHOWN_WHOLE: usize = 32;

/// The bit number of a card that flips no bit of the tag.
const NO_BIT: usize = 128;

/// Six lengths in bytes, and the bit of the tag that is flipped between sealing
/// and opening.
#[derive(Clone, Copy)]
struct Card {
    key: usize,
    nonce: usize,
    data: usize,
    text: usize,
    room: usize,
    tag: usize,
    bit: usize,
}

impl Card {
    /// The card with associated data and text of these lengths. All other lengths
    /// are right, and the tag stays as it is.
    fn of(data: usize, text: usize) -> Card {
        Card {
            key: 16,
            nonce: 12,
            data,
            text,
            room: text + SPARE,
            tag: 16,
            bit: NO_BIT,
        }
    }
}

/// Bytes as a line shows them: whole if they are few, otherwise their BLAKE2b
/// digest of 16 bytes without a key.
fn shown(bytes: &[u8]) -> String {
    if bytes.len() <= SHOWN_WHOLE {
        return print_field(bytes, Order::ByteZeroFirst);
    }
    let mut room = [0; 16];
    let number = digest(&[], bytes, &mut room);
    assert_eq!(number, 0, "no buffer is longer than a text may be");
    print_field(&room, Order::ByteZeroFirst)
}

/// The last five fields of a card's line. `seal` is given the text, its room
/// and room for the tag; `open` is given the ciphertext, the tag and room.
/// Opening reads the ciphertext where sealing left it, or should have.
fn outcome(
    card: &Card,
    seal: impl Fn(&[u8], &mut [u8], &mut [u8]) -> u32,
    open: impl Fn(&[u8], &[u8], &mut [u8]) -> u32,
) -> String {
    let text = filled(4, card.text);
    let mut sealed = [ROOM_BYTE; BUFFER];
    let mut tag = [TAG_BYTE; 17];
    let n1 = seal(&text, &mut sealed[..card.room], &mut tag[..card.tag]);
    let [room1, bytes] = [&sealed[..card.room], &tag[..card.tag]].map(shown);
    if card.bit < NO_BIT {
        tag[card.bit / 8] ^= 1 << (card.bit % 8);
    }
    let mut opened = [ROOM_BYTE; BUFFER];
    let lent = &mut opened[..card.room];
    let n2 = open(&sealed[..card.text], &tag[..card.tag], lent);
    format!("{n1} {room1} {bytes} {n2} {}", shown(lent))
}

/// The first seven fields of a card's line.
fn front(card: &Card) -> String {
    let Card {
        key,
        nonce,
        data,
        text,
        room,
        tag,
        bit,
    } = card;
    format!("{key} {nonce} {data} {text} {room} {tag} {bit}")
}

/// A card's line.
fn line(card: &Card) -> String {
    let salted = [(1, card.key), (2, card.nonce), (3, card.data)];
    let [k, n, a] = salted.map(|(salt, len)| filled(salt, len));
    let outcome = outcome(
        card,
        |text, room, tag| seal(&k, &n, &a, text, room, tag),
        |ciphertext, tag, room| open(&k, &n, &a, ciphertext, tag, room),
    );
    format!("{} {outcome}", front(card))
}

/// The line of the short forms on a text of this length.
fn short_line(text: usize) -> String {
    let card = Card::of(0, text);
    let (k, n) = (filled(1, card.key), filled(2, card.nonce));
    let outcome = outcome(
        &card,
        |text, room, tag| seal_short(&k, &n, text, room, tag),
        |ciphertext, tag, room| open_short(&k, &n, ciphertext, tag, room),
    );
    format!("short {text} {outcome}")
}

/// Associated data and text around full blocks and around the limits, each
/// opened with the tag as it is and with its lowest bit flipped.
fn length_cards() -> Vec<Card> {
    let mut list = Vec::new();
    for data in [0, 1, 15, 16, 17, 65_536, 65_537] {
        for text in [0, 1, 15, 16, 17, 4096, 4097] {
            for bit in [NO_BIT, 0] {
                list.push(Card {
                    bit,
                    ..Card::of(data, text)
                });
            }
        }
    }
    list
}

/// Every choice of lengths that are refused, so that their order shows. Bit n
/// of a mark says which length is wrong; bit 5 says in which direction the
/// tag's is, so it means nothing without bit 3.
fn refused_cards() -> Vec<Card> {
    let card = |mark: u32| {
        let wrong = |n: u32| (mark >> n) & 1 == 1;
        let or = |n: u32, wrong_len: usize, len: usize| if wrong(n) { wrong_len } else { len };
        Card {
            key: or(0, 17, 16),
            nonce: or(1, 11, 12),
            data: or(2, 65_537, 1),
            text: 17,
            room: or(4, 16, 17),
            tag: or(3, or(5, 17, 15), 16),
            bit: NO_BIT,
        }
    };
    let means_something = |mark: &u32| mark & 0b10_1000 != 0b10_0000;
    (0..64).filter(means_something).map(card).collect()
}

/// Each bit of the tag flipped.
fn bit_cards() -> Vec<Card> {
    (0..NO_BIT)
        .map(|bit| Card {
            room: 8,
            bit,
            ..Card::of(3, 5)
        })
        .collect()
}

/// The short forms.
fn short_lines() -> Vec<String> {
    [0, 1, 16, 17].map(short_line).to_vec()
}

/// All lines of HyENA.
pub fn lines() -> Vec<String> {
    let cards = [length_cards(), refused_cards(), bit_cards()].concat();
    let card_lines: Vec<String> = cards.iter().map(line).collect();
    [card_lines, short_lines()].concat()
}

#[cfg(test)]
mod tests {
    use super::super::tests::{fields, with_number};
    use super::*;

    #[test]
    fn every_number_comes_as_often_as_it_was_meant_to() {
        let lines = lines();
        assert_eq!(lines.len(), 98 + 48 + 128 + 4);
        let (cards, shorts) = lines.split_at(98 + 48 + 128);
        assert!(cards.iter().all(|line| fields(line).len() == 12));
        assert!(shorts.iter().all(|line| fields(line).len() == 7));
        // Sealing, then opening, with numbers 0 to 7: those of the lengths, of
        // the choices of wrong lengths and of the tag's bits.
        let sealing = [84 + 1 + 128, 24, 12, 14 + 6, 0, 4, 1, 0];
        let opening = [42 + 1, 24, 12, 14 + 6, 0, 4, 1, 42 + 128];
        for number in 0..8 {
            let n = number as usize;
            assert_eq!(with_number(cards, 7, number), sealing[n], "{number}");
            assert_eq!(with_number(cards, 10, number), opening[n], "{number}");
        }
        assert_eq!(with_number(shorts, 2, 0), 4);
        assert_eq!(with_number(shorts, 5, 0), 4);
    }

    fn fronts(cards: Vec<Card>) -> Vec<String> {
        cards.iter().map(front).collect()
    }

    #[test]
    fn cards_come_in_their_order_and_none_comes_twice() {
        let lengths = fronts(length_cards());
        assert_eq!(lengths[0], "16 12 0 0 5 16 128");
        assert_eq!(lengths[1], "16 12 0 0 5 16 0");
        assert_eq!(lengths[2], "16 12 0 1 6 16 128");
        assert_eq!(lengths[97], "16 12 65537 4097 4102 16 0");
        let refused = fronts(refused_cards());
        assert_eq!(refused[0], "16 12 1 17 17 16 128");
        assert_eq!(refused[31], "17 11 65537 17 16 15 128");
        assert_eq!(refused[32], "16 12 1 17 17 17 128");
        assert_eq!(refused[47], "17 11 65537 17 16 17 128");
        let bits = fronts(bit_cards());
        assert_eq!(bits[0], "16 12 3 5 8 16 0");
        assert_eq!(bits[127], "16 12 3 5 8 16 127");
        let mut all = [lengths, refused, bits].concat();
        all.sort_unstable();
        all.dedup();
        assert_eq!(all.len(), 98 + 48 + 128);
    }

    #[test]
    fn long_bytes_show_as_their_digest() {
        assert_eq!(shown(&[]), "-");
        assert_eq!(shown(&[0x01, 0xab]), "01ab");
        assert_eq!(shown(&[0xa5; 32]), "a5".repeat(32));
        assert_eq!(shown(&[0xa5; 33]), "7c5c68946dadbed2c2f48c2bfd991f3b");
    }

    /// The line of a made-up sealing and opening that note what they were lent.
    #[test]
    fn opening_gets_what_sealing_left_and_a_flipped_tag() {
        let card = Card {
            room: 4,
            tag: 15,
            bit: 10,
            ..Card::of(0, 3)
        };
        let seal = |text: &[u8], room: &mut [u8], tag: &mut [u8]| {
            assert_eq!(text, [4, 33, 62]);
            assert_eq!((&*room, &*tag), (&[0xa5; 4][..], &[0x5a; 15][..]));
            room[1] = 0x11;
            tag[14] = 0x22;
            8
        };
        let open = |ciphertext: &[u8], tag: &[u8], room: &mut [u8]| {
            assert_eq!(ciphertext, [0xa5, 0x11, 0xa5]);
            assert_eq!((tag[0], tag[1], tag[14]), (0x5a, 0x5e, 0x22));
            assert_eq!((tag.len(), &*room), (15, &[0xa5; 4][..]));
            room[3] = 0x33;
            9
        };
        let tag = format!("{}22", "5a".repeat(14));
        let expected = format!("8 a511a5a5 {tag} 9 a5a5a533");
        assert_eq!(outcome(&card, seal, open), expected);
    }

    #[test]
    fn done_cards_show_the_text_again_and_refused_ones_nothing() {
        let done = line(&Card::of(1, 2));
        assert!(done.starts_with("16 12 1 2 7 16 128 0 "));
        assert!(done.ends_with(" 0 0421a5a5a5a5a5"));
        let wrong_tag = line(&Card {
            bit: 127,
            ..Card::of(1, 2)
        });
        assert!(wrong_tag.ends_with(" 7 0000a5a5a5a5a5"));
        let refused = line(&Card {
            nonce: 13,
            room: 1,
            ..Card::of(1, 2)
        });
        let tag = "5a".repeat(16);
        let expected = format!("16 13 1 2 1 16 128 2 a5 {tag} 2 a5");
        assert_eq!(refused, expected);
    }

    #[test]
    fn short_lines_are_those_of_empty_data_but_for_the_front() {
        for short in short_lines() {
            let short = fields(&short);
            let text = short[1].parse().expect("a length");
            let long = line(&Card::of(0, text));
            assert_eq!((short[0], &short[2..]), ("short", &fields(&long)[7..]));
        }
    }
}
