//! The cases on which two implementations are compared, and this
//! implementation's answers to them. Each kind of case has a word of its own.

pub mod blake;
pub mod chacha;
pub mod gift;
pub mod lioness;
mod malformed;

use crate::lines::{self, print_field, Order, BAD_LINE};

/// All cases, one on each line.
pub fn cases() -> String {
    let list = [
        gift::lines(),
        chacha::lines(),
        blake::lines(),
        lioness::lines(),
        malformed::lines(),
    ]
    .concat();
    list.iter().map(|line| format!("{line}\n")).collect()
}

/// The answer to a line that has the format; nothing for any other line.
fn well_formed_answer(line: &[u8]) -> Option<String> {
    let (word, fields) = lines::word_and_fields(line)?;
    match word {
        b"gift" => gift::answer(fields),
        b"chacha" => chacha::answer(fields),
        b"blake" => blake::answer(fields),
        b"lioness" => lioness::answer(fields),
        _ => None,
    }
}

/// The answer to one line.
pub fn answer(line: &[u8]) -> String {
    well_formed_answer(line).unwrap_or_else(|| BAD_LINE.to_string())
}

/// The answers to all lines of `input`, one on each line.
pub fn answers(input: &[u8]) -> String {
    lines::lines(input)
        .into_iter()
        .map(|line| answer(line) + "\n")
        .collect()
}

/// The answer for a block that goes both ways: the number and the block's
/// bytes after enciphering it, after deciphering that, and after deciphering
/// once more.
fn both_ways(
    block: &[u8],
    order: Order,
    encipher: impl Fn(&mut [u8]) -> u32,
    decipher: impl Fn(&mut [u8]) -> u32,
) -> String {
    let mut block = block.to_vec();
    let mut after = |step: &dyn Fn(&mut [u8]) -> u32| {
        let number = step(&mut block);
        format!("{number} {}", print_field(&block, order))
    };
    [after(&encipher), after(&decipher), after(&decipher)].join(" ")
}

/// The bytes of a published value printed byte 0 first.
fn published_bytes(text: &str) -> Vec<u8> {
    lines::field(text.as_bytes(), Order::ByteZeroFirst).expect("a field")
}

#[cfg(test)]
mod tests {
    use super::*;

    /// How many of `lines` are answered with `number` first.
    pub fn answered(lines: &[String], number: u32) -> usize {
        let start = format!("{number} ");
        lines
            .iter()
            .filter(|line| answer(line.as_bytes()).starts_with(&start))
            .count()
    }

    #[test]
    fn cases_fit_the_buffer_and_none_comes_twice() {
        let cases = cases();
        assert!(cases.len() < 65_536, "{}", cases.len());
        let mut lines = lines::lines(cases.as_bytes());
        let all = lines.len();
        lines.sort_unstable();
        lines.dedup();
        assert_eq!(lines.len(), all);
    }

    #[test]
    fn each_line_has_one_answer_in_its_place() {
        let cases = cases();
        let cases = lines::lines(cases.as_bytes());
        let answers = answers(&cases.join(&b'\n'));
        assert_eq!(answers.lines().count(), cases.len());
        for (case, answered) in cases.into_iter().zip(answers.lines()) {
            assert_eq!(answered, answer(case));
        }
    }

    #[test]
    fn last_piece_without_newline_is_answered() {
        assert_eq!(answers(b""), "");
        assert_eq!(answers(b"\ngift - -"), "bad line\n1 - 1 - 1 -\n");
    }
}
