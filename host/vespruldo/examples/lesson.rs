//! A teacher seals a lesson in one go: twelve words, one drawer, one call. The
//! drawer's next state is stored before any card is handed on. The cards are
//! written, read back and opened, each by itself.

use vespruldo::sizes::DRAWER_BYTES;
use vespruldo::{open, seal_batch, Data, Drawer, Key, Refusal, Sealed};

const CLASS: Data = Data(b"class 7");

const WORDS: [&str; 12] = [
    "ant", "bee", "cat", "duck", "eel", "fox", "goat", "hen", "ibis", "jay", "koala", "lynx",
];

/// What is on the teacher's desk: the drawer as it is stored, and the cards.
struct Desk {
    drawer: [u8; DRAWER_BYTES],
    cards: Vec<Vec<u8>>,
}

/// Seals a whole lesson, or nothing: if it is refused, the desk is what it was.
fn seal_lesson(key: &Key, words: &[&str], desk: &mut Desk) -> Result<(), Refusal> {
    let mut drawer = Drawer::from_bytes(&desk.drawer)?;
    let cards = seal_batch(key, &mut drawer, CLASS, words)?;
    // Before any card is handed on, so that no restart draws these numbers again.
    desk.drawer = drawer.to_bytes();
    for card in cards {
        desk.cards.push(card.to_bytes()?);
    }
    Ok(())
}

fn open_card(key: &Key, card: &[u8]) -> Result<Vec<u8>, Refusal> {
    open(key, CLASS, &Sealed::from_bytes(card)?)
}

fn main() -> Result<(), Refusal> {
    let key = Key::from([1; 16]);
    let mut desk = Desk {
        drawer: Drawer::start(2026, 0).to_bytes(),
        cards: Vec::new(),
    };

    seal_lesson(&key, &WORDS, &mut desk)?;
    assert_eq!(desk.drawer, Drawer::start(2026, 12).to_bytes());
    println!("sealed: {} cards in one call", desk.cards.len());

    let mut opened = Vec::new();
    for card in &desk.cards {
        let word = open_card(&key, card)?;
        opened.push(String::from_utf8_lossy(&word).into_owned());
    }
    assert_eq!(opened, WORDS);
    println!("opened: {}", opened.join(", "));

    // Each card stands alone: a damaged one is refused, and its neighbour opens.
    desk.cards[3][14] ^= 1;
    let flipped = open_card(&key, &desk.cards[3]).expect_err("a flipped bit is refused");
    assert_eq!(flipped, Refusal::WrongTag);
    assert_eq!(open_card(&key, &desk.cards[4])?, b"eel");
    println!("a flipped bit: {}, {flipped}", flipped.number());

    // A word too many: nothing is drawn, and the desk is what it was.
    let stored = (desk.drawer, desk.cards.clone());
    let words = [&WORDS[..], &["mole"]].concat();
    let many = seal_lesson(&key, &words, &mut desk).expect_err("thirteen are refused");
    assert_eq!(many, Refusal::BatchForm);
    assert_eq!((desk.drawer, desk.cards), stored);
    println!("thirteen words: {}, {many}", many.number());
    Ok(())
}
