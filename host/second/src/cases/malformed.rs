//! Lines that do not have the format, each for a reason of its own.

use crate::lines::{print_field, Order, LONGEST_FIELD};
use crate::random::Random;

/// A well-formed line of each kind, cut at its spaces, and the place of a
/// field in it that may have any length. Wrong lengths make no line malformed,
/// so the fields are short; each has a letter, which has an upper case.
const WELL_FORMED: [(&[&str], usize); 4] = [
    (&["gift", "0b", "abcd"], 1),
    (&["chacha", "0b", "abcd", "000000000000000b", "ef"], 4),
    (&["blake", "0b", "abcd", "0b"], 2),
    (&["lioness", "0b", "abcd", "ef"], 3),
];

/// The line `pieces` with another piece in one place.
fn with_piece(pieces: &[&str], place: usize, piece: &str) -> String {
    let mut changed = pieces.to_vec();
    changed[place] = piece;
    changed.join(" ")
}

/// What looks like `field` and is none.
fn no_fields(field: &str) -> Vec<String> {
    let odd = &field[1..];
    vec![
        String::new(),
        odd.to_string(),
        format!("g{odd}"),
        format!("-{odd}"),
        "--".to_string(),
        field.to_uppercase(),
    ]
}

/// Each field in turn replaced by what is none.
fn bad_field_lines(pieces: &[&str]) -> Vec<String> {
    let mut list = Vec::new();
    for place in 1..pieces.len() {
        for bad in no_fields(pieces[place]) {
            list.push(with_piece(pieces, place, &bad));
        }
    }
    list
}

/// Each space in turn replaced by what is not one space.
fn bad_space_lines(pieces: &[&str]) -> Vec<String> {
    let mut list = Vec::new();
    for place in 1..pieces.len() {
        let (front, back) = pieces.split_at(place);
        for bad in ["", "  ", "\t", " \t"] {
            list.push(format!("{}{bad}{}", front.join(" "), back.join(" ")));
        }
    }
    list
}

/// Too few pieces, too many, and something before or behind them.
fn bad_end_lines(pieces: &[&str]) -> Vec<String> {
    let line = pieces.join(" ");
    let (_, fewer) = pieces.split_last().expect("a line has pieces");
    vec![
        pieces[0].to_string(),
        fewer.join(" "),
        format!("{line} ef"),
        format!("{line} -"),
        format!("{line} "),
        format!("{line}\t"),
        format!("{line}\r"),
        format!(" {line}"),
        format!("\t{line}"),
    ]
}

/// Lines without a word, or with a word that names nothing. "Not here:
/// Pi-Cipher, BEAST, choosing keys" (document 01).
fn bad_word_lines() -> Vec<String> {
    [
        "",
        " ",
        "-",
        "0b abcd",
        "- 0b abcd",
        "GIFT 0b abcd",
        "gif 0b abcd",
        "gifts 0b abcd",
        "beast 0b abcd",
    ]
    .map(String::from)
    .to_vec()
}

/// Signs that stand directly before or behind the digits, the capitals and the
/// letters in the table of signs.
fn bad_digit_lines() -> Vec<String> {
    ["/", ":", "@", "G", "`", "g"]
        .map(|sign| format!("gift 0{sign} abcd"))
        .to_vec()
}

/// Numbers that do not have the length of theirs.
fn bad_number_lines() -> Vec<String> {
    let start = [
        "-",
        "0b",
        "00000b",
        "0000000b",
        "000000000b",
        "0000000000000b",
        "00000000000000000b",
    ]
    .map(|n| format!("chacha 0b abcd {n} ef"));
    let room_len = ["-", "000b"].map(|n| format!("blake 0b abcd {n}"));
    [&start[..], &room_len].concat()
}

/// One field of each kind with one byte too many.
fn long_field_lines() -> Vec<String> {
    let mut random = Random::new(0x6c6f_6e67);
    WELL_FORMED
        .map(|(pieces, place)| {
            let bytes = random.bytes(LONGEST_FIELD + 1);
            with_piece(pieces, place, &print_field(&bytes, Order::ByteZeroFirst))
        })
        .to_vec()
}

/// All malformed lines.
pub fn lines() -> Vec<String> {
    let mut list = Vec::new();
    for (pieces, _) in WELL_FORMED {
        list.extend(bad_field_lines(pieces));
        list.extend(bad_space_lines(pieces));
        list.extend(bad_end_lines(pieces));
    }
    list.extend(bad_word_lines());
    list.extend(bad_digit_lines());
    list.extend(bad_number_lines());
    list.extend(long_field_lines());
    list
}

#[cfg(test)]
mod tests {
    use super::super::answer;
    use super::*;

    #[test]
    fn all_are_answered_bad_line() {
        for line in lines() {
            assert_eq!(answer(line.as_bytes()), "bad line", "{line:?}");
        }
    }

    /// So that nothing but the change made can be the reason.
    #[test]
    fn what_they_were_made_from_is_well_formed() {
        for (pieces, place) in WELL_FORMED {
            assert_ne!(answer(pieces.join(" ").as_bytes()), "bad line");
            let longest = "ab".repeat(LONGEST_FIELD);
            let line = with_piece(pieces, place, &longest);
            assert_ne!(answer(line.as_bytes()), "bad line");
        }
    }
}
