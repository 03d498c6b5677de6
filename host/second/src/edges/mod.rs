//! Calls at the edges of what is allowed. They are fixed, so that two programs
//! can print the same lines without reading any.
//!
//! A line has fields with one space between two of them: words, decimal numbers
//! and byte strings, these as the comparison program shows them with byte 0
//! first. The lines of HyENA come first, then those of drawers, then those of
//! key books, then those of the key stream, then those of batches. Lesson packs
//! have lines of their own, which another command prints.

mod batches;
mod books;
mod cards;
mod drawers;
mod packs;
mod streams;

/// What each byte of room is before a call, and each byte of room for tags.
const ROOM_BYTE: u8 = 0xa5;
const TAG_BYTE: u8 = 0x5a;

/// How many bytes of room there are beyond the text in most calls of HyENA.
const SPARE: usize = 5;

/// The bytes that everything read is filled with. Keys, nonces, associated data
/// and texts have the salts 1 to 4, this term's book 5 and last term's 6, the
/// key, nonce and text of a key stream 7 to 9.
fn filled(salt: usize, len: usize) -> Vec<u8> {
    (0..len)
        .map(|i| ((salt + 29 * i + 17 * (i / 256)) % 256) as u8)
        .collect()
}

/// The text of these lines.
fn text(lines: &[String]) -> String {
    lines.iter().map(|line| format!("{line}\n")).collect()
}

/// What the command `edges` prints.
pub fn edges() -> String {
    let lines = [
        cards::lines(),
        drawers::lines(),
        books::lines(),
        streams::lines(),
        batches::lines(),
    ];
    text(&lines.concat())
}

/// What the command `packs` prints.
pub fn packs() -> String {
    text(&packs::lines())
}

#[cfg(test)]
mod tests {
    use super::*;

    /// The fields of a line.
    pub fn fields(line: &str) -> Vec<&str> {
        line.split(' ').collect()
    }

    /// How many of `lines` have `number` in the field at `place`.
    pub fn with_number(lines: &[String], place: usize, number: u32) -> usize {
        let number = number.to_string();
        let has_it = |line: &&String| fields(line)[place] == number;
        lines.iter().filter(has_it).count()
    }

    #[test]
    fn filling_follows_its_rule() {
        assert_eq!(filled(1, 4), [1, 30, 59, 88]);
        assert_eq!(filled(250, 2), [250, 23]);
        let long = filled(3, 513);
        assert_eq!(long[255..257], [230, 20]);
        assert_eq!(long[511..], [247, 37]);
    }

    #[test]
    fn cards_come_first_then_drawers_then_books_then_streams_then_batches() {
        let all = edges();
        let words: Vec<&str> = all.lines().map(|line| fields(line)[0]).collect();
        assert_eq!(words.len(), 278 + 48 + 676 + 108 + 185);
        assert!(words[..274].iter().all(|word| word.parse::<u32>().is_ok()));
        assert!(words[274..278].iter().all(|&word| word == "short"));
        assert!(words[278..326].iter().all(|&word| word == "draw"));
        assert!(words[326..1002].iter().all(|&word| word == "key"));
        assert!(words[1002..1110].iter().all(|&word| word == "stream"));
        assert!(words[1110..].iter().all(|&word| word == "batch"));
        assert!(all.ends_with('\n'));
    }
}
