//! An office makes cards for a class, stores them, reads them back and opens
//! them. A card with a flipped bit is refused, and so is one that was cut. The
//! tool `cards` makes and opens the same cards.

use vespruldo::{find_key, open, seal, Data, Drawer, Key, Refusal, Sealed};

const CLASS: u16 = 7;
const CHILDREN: [&str; 3] = ["Anna, desk 4", "Bert, desk 9", "Chloe, by the window"];

/// A key book with these entries, whose class numbers must rise.
fn book(entries: &[(u16, [u8; 16])]) -> Vec<u8> {
    let mut book = (entries.len() as u16).to_le_bytes().to_vec();
    for (class, key) in entries {
        book.extend(class.to_le_bytes());
        book.extend(key);
    }
    book
}

/// The class number goes with each card as associated data: a card of another
/// class does not open, even under the same key.
fn open_stored(key: &Key, stored: &[u8]) -> Result<Vec<u8>, Refusal> {
    open(
        key,
        Data(&CLASS.to_le_bytes()),
        &Sealed::from_bytes(stored)?,
    )
}

fn main() -> Result<(), Refusal> {
    let this_term = book(&[(CLASS, [1; 16]), (8, [2; 16])]);
    let last_term = book(&[(CLASS, [3; 16])]);
    let key = find_key(&this_term, Some(&last_term), CLASS)?;

    // An office goes on from the drawer that it had stored, and stores the next
    // state, `drawer.to_bytes()`, before a nonce is used.
    let mut drawer = Drawer::start(2026, 0);
    let mut shelf = vec![];
    for child in CHILDREN {
        let nonce = drawer.draw()?;
        let card = seal(key, nonce, Data(&CLASS.to_le_bytes()), child.as_bytes())?;
        println!("nonce {}, tag {}", card.nonce, card.tag);
        shelf.push(card.to_bytes()?);
    }
    assert_eq!(drawer.count(), 3);

    for (stored, child) in shelf.iter().zip(CHILDREN) {
        let text = open_stored(key, stored)?;
        assert_eq!(text, child.as_bytes());
        println!("{} bytes: {}", stored.len(), String::from_utf8_lossy(&text));
    }

    let cut = open_stored(key, &shelf[1][..20]).expect_err("a cut card is refused");
    assert_eq!(cut, Refusal::CutShort);
    println!("cut: {}, {cut}", cut.number());

    // In the ciphertext, after the nonce and the length.
    shelf[0][14] ^= 1;
    let flipped = open_stored(key, &shelf[0]).expect_err("a flipped bit is refused");
    assert_eq!(flipped, Refusal::WrongTag);
    println!("a flipped bit: {}, {flipped}", flipped.number());
    Ok(())
}
