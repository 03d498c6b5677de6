//! The golden run of the crate cards_run: its arguments, the files it finds, and
//! what it has to write. It opens a card in hex under this term's book.

use std::fs;
use std::io;
use std::path::Path;

use crate::random::Random;
use crate::{card, drawer, hex};

/// One word on each line.
const ARGUMENTS: [&str; 11] = [
    "open",
    "--book-hex",
    "this-term",
    "--last-book-hex",
    "last-term",
    "--class",
    "7",
    "--label",
    "song 1",
    "--in-hex",
    "song.card",
];

/// What the card says.
const SONG: &str = "\
Three ducks set out at break of day
To see where all the puddles lay.
The first found one, the second two,
The third one found a rubber shoe.
They sailed it round, they sailed it back,
With now a song and now a quack,
And when the moon came up to shine
Three ducks lay sleeping in a line.
";

/// The classes of the two books.
const THIS_TERM: [u16; 3] = [3, 7, 900];
const LAST_TERM: [u16; 2] = [7, 12];

/// The place of class 7 among this term's.
const SEVEN: usize = 1;

/// Where the card's nonce is drawn.
const READER: u32 = 42;
const COUNT: u64 = 5;

/// One key for each class.
fn keys(seed: u64, classes: &[u16]) -> Vec<[u8; 16]> {
    let mut random = Random::new(seed);
    classes.iter().map(|_| random.sixteen()).collect()
}

/// "The number of entries in two bytes, low one first; for each a class in two
/// bytes, low one first, and a key of 16; classes rise." Each of these parts is
/// in hex, with `between` behind it.
fn book(classes: &[u16], keys: &[[u8; 16]], between: [&str; 2]) -> String {
    let digits = |bytes: &[u8]| {
        String::from_utf8_lossy(&hex::written(bytes))
            .trim_end()
            .to_owned()
    };
    let two = |number: u16| digits(&number.to_le_bytes());
    let [behind_class, behind_key] = between;
    let mut book = two(classes.len() as u16) + behind_key;
    for (&class, key) in classes.iter().zip(keys) {
        book += &(two(class) + behind_class + &digits(key) + behind_key);
    }
    book
}

/// The song as a card in hex.
fn song_card(key: &[u8]) -> Vec<u8> {
    let nonce = drawer::draw(drawer::start(READER, COUNT)).bytes;
    let card = card::seal(key, &nonce, b"song 1", SONG.as_bytes());
    hex::written(&card.expect("all lengths are allowed"))
}

/// The files with their names.
fn files() -> [(&'static str, Vec<u8>); 5] {
    let this_term = keys(71, &THIS_TERM);
    let last_term = keys(72, &LAST_TERM);
    let arguments: String = ARGUMENTS.iter().map(|word| format!("{word}\n")).collect();
    let lower = book(&THIS_TERM, &this_term, [" ", "\n"]);
    let upper = book(&LAST_TERM, &last_term, ["", ""]).to_uppercase() + "\n";
    [
        ("data/this-term", lower.into_bytes()),
        ("data/last-term", upper.into_bytes()),
        ("data/song.card", song_card(&this_term[SEVEN])),
        ("args", arguments.into_bytes()),
        ("stdout", SONG.as_bytes().to_vec()),
    ]
}

/// Writes the golden run to `directory`, which is made where it is not there.
pub fn write(directory: &Path) -> io::Result<()> {
    fs::create_dir_all(directory.join("data"))?;
    for (name, bytes) in files() {
        fs::write(directory.join(name), bytes)?;
    }
    Ok(())
}

#[cfg(test)]
mod tests {
    use super::*;
    use crate::books;

    /// The bytes of a file in hex among `files`.
    fn bytes(name: &str) -> Vec<u8> {
        let files = files();
        let file = files.iter().find(|(there, _)| *there == name);
        hex::read(&file.expect("a file").1).expect("hex")
    }

    #[test]
    fn golden_run_gives_the_song() {
        let [this_term, last_term] = ["data/this-term", "data/last-term"].map(bytes);
        let key = books::part(&this_term, &last_term, 7);
        let text = card::open(key, b"song 1", &bytes("data/song.card"));
        assert_eq!(text.as_deref(), Ok(SONG.as_bytes()));
        // Last term's book has another key for the class.
        let key = books::part(&last_term, &this_term, 7);
        assert_eq!(card::open(key, b"song 1", &bytes("data/song.card")), Err(7));
    }

    #[test]
    fn golden_files_are_what_they_should_be() {
        let [this_term, last_term, card, arguments, _] = files().map(|(_, bytes)| bytes);
        let this_text = String::from_utf8(this_term.clone()).unwrap();
        assert_eq!(this_text.lines().count(), 4);
        assert!(this_text.starts_with("0300\n0300 ") && this_text.contains("\n8403 "));
        let last_text = String::from_utf8(last_term.clone()).unwrap();
        assert!(last_text.starts_with("02000700") && last_text == last_text.to_uppercase());
        assert_eq!(hex::read(&this_term).unwrap().len(), 2 + 3 * 18);
        assert_eq!(hex::read(&last_term).unwrap().len(), 2 + 2 * 18);
        let card = hex::read(&card).unwrap();
        assert_eq!(card[..12], [42, 0, 0, 0, 5, 0, 0, 0, 0, 0, 0, 0]);
        assert_eq!(card.len(), SONG.len() + card::LONGER);
        assert!(arguments.ends_with(b"\nsong 1\n--in-hex\nsong.card\n"));
        assert!((250..350).contains(&SONG.len()) && SONG.is_ascii());
    }
}
