//! Cases for the tool `cards`: files, and a table of runs on them with what each
//! has to give, as docs/cards.1 and this implementation have it. They are the
//! same each time. tests/cards/second.sh runs the tool on them.
//!
//! A line of the table has four fields with `|` between them:
//!
//! - `0|RESULT|INPUT|WORDS`: all is done, and what the file RESULT holds is
//!   written to standard output;
//! - `NUMBER|CAUSE|INPUT|WORDS`: it is refused with this number on account of
//!   CAUSE, as the line of the refusal names it, with or without its reason;
//! - `same|FILE|FILE|`: two files are the same by now.
//!
//! WORDS are the command line, and INPUT is the file that standard input is.

mod books;
mod cards;
mod decimals;
mod digests;
mod drawers;
mod hex_files;
mod lengths;
mod packs;
mod run;
mod wide;

use std::collections::BTreeMap;
use std::fs;
use std::io;
use std::path::Path;

use crate::random::Random;
use run::Run;

/// The table's name.
const TABLE: &str = "table";

/// The files and the table, as far as they are made.
struct Cases {
    random: Random,
    files: BTreeMap<String, Vec<u8>>,
    lines: Vec<String>,
    runs: usize,
}

impl Cases {
    /// The next run, with this command.
    fn run(&mut self, command: &'static str) -> Run<'_> {
        self.runs += 1;
        Run::new(self, command)
    }

    /// A file of this name.
    fn put(&mut self, name: &str, bytes: &[u8]) {
        let there = self.files.insert(name.to_string(), bytes.to_vec());
        assert_eq!(there, None, "{name} is there already");
    }

    /// The file of this name has these bytes by now.
    fn changed(&mut self, name: &str, bytes: &[u8]) {
        let after = format!("{name}.after");
        self.put(&after, bytes);
        self.lines.push(format!("same|{after}|{name}|"));
    }

    /// Up to `most` random-looking bytes.
    fn some_bytes(&mut self, most: usize) -> Vec<u8> {
        let len = self.random.below(most + 1);
        self.random.bytes(len)
    }

    /// These bytes with one bit of them flipped.
    fn flipped(&mut self, bytes: &[u8]) -> Vec<u8> {
        let mut flipped = bytes.to_vec();
        let place = self.random.below(bytes.len());
        flipped[place] ^= 1 << self.random.below(8);
        flipped
    }

    /// The front of these bytes, at least one fewer.
    fn cut(&mut self, bytes: &[u8]) -> Vec<u8> {
        bytes[..self.random.below(bytes.len())].to_vec()
    }
}

/// All cases.
fn cases() -> Cases {
    let mut cases = Cases {
        random: Random::new(0x63_6172_6473),
        files: BTreeMap::new(),
        lines: Vec::new(),
        runs: 0,
    };
    cards::add(&mut cases);
    wide::add(&mut cases);
    digests::add(&mut cases);
    books::add(&mut cases);
    drawers::add(&mut cases);
    decimals::add(&mut cases);
    hex_files::add(&mut cases);
    lengths::add(&mut cases);
    packs::add(&mut cases);
    cases
}

/// Writes all cases to `directory`, which is made where it is not there.
pub fn write(directory: &Path) -> io::Result<()> {
    let Cases { files, lines, .. } = cases();
    fs::create_dir_all(directory)?;
    for (name, bytes) in files {
        fs::write(directory.join(name), bytes)?;
    }
    let table: String = lines.iter().map(|line| format!("{line}\n")).collect();
    fs::write(directory.join(TABLE), table)
}

#[cfg(test)]
mod tests {
    use super::*;

    /// The four fields of a line.
    fn fields(line: &str) -> [&str; 4] {
        let fields: Vec<&str> = line.split('|').collect();
        fields.try_into().expect("four fields")
    }

    fn table(cases: &Cases) -> Vec<[&str; 4]> {
        cases.lines.iter().map(|line| fields(line)).collect()
    }

    #[test]
    fn cases_are_the_same_each_time() {
        let [one, other] = [cases(), cases()];
        assert!(one.files == other.files);
        assert_eq!(one.lines, other.lines);
    }

    #[test]
    fn table_names_files_that_are_there_and_every_one() {
        let cases = cases();
        assert!(!cases.files.contains_key(TABLE));
        let mut named = Vec::new();
        for [what, expected, input, words] in table(&cases) {
            named.push(input);
            if ["0", "same"].contains(&what) {
                named.push(expected);
            }
            // An option's word may be any.
            named.extend(words.split([' ', '=']));
        }
        for name in cases.files.keys() {
            assert!(named.contains(&name.as_str()), "{name}");
        }
        for [what, expected, input, _] in table(&cases) {
            let is_file = |name: &str| cases.files.contains_key(name);
            assert!(is_file(input) || input == "/dev/null", "{input}");
            assert!(is_file(expected) || !["0", "same"].contains(&what));
        }
    }

    #[test]
    fn every_command_number_and_form_comes() {
        let cases = cases();
        assert!((200..=260).contains(&cases.runs), "{}", cases.runs);
        let table = table(&cases);
        for number in [
            0, 1, 2, 3, 4, 6, 7, 9, 10, 11, 12, 13, 14, 15, 101, 105, 106,
        ] {
            let number = number.to_string();
            assert!(table.iter().any(|line| line[0] == number), "{number}");
        }
        let commands = [
            "seal", "open", "check", "encipher", "decipher", "digest", "draw", "pack",
        ];
        for command in commands {
            let of = |line: &&[&str; 4]| line[3].starts_with(&format!("{command} "));
            assert!(table.iter().filter(of).any(|line| line[0] == "0"));
            assert!(table.iter().filter(of).any(|line| line[0] != "0"));
        }
        let words = cases.lines.join(" ");
        for option in ["key", "nonce", "iv", "data", "in", "book", "last-book"] {
            let [bytes, hex] = ["", "-hex"].map(|form| format!("--{option}{form} "));
            assert!(words.contains(&bytes) && words.contains(&hex), "{option}");
            let standard_input = [bytes, hex].map(|option| option + "- ");
            assert!(
                standard_input.iter().any(|input| words.contains(input)),
                "{option}"
            );
        }
        let others = ["--label ", "--out -", "--out-hex -", "|standard input|"];
        for word in others.iter().chain(&["--key=", " --force ", " -- "]) {
            assert!(words.contains(word), "{word}");
        }
    }
}
