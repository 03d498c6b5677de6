//! One run of the tool: its command line, and the files that it reads.

use super::Cases;
use crate::hex;
use crate::random::Random;

/// How an input is given.
#[derive(Clone, Copy, PartialEq, Eq)]
pub enum Form {
    Bytes,
    Hex,
    /// Either, from a file or from standard input.
    Any,
}

/// A run that is being put together.
pub struct Run<'a> {
    cases: &'a mut Cases,
    command: &'static str,
    /// Its place among all runs, which the names of its files start with.
    place: usize,
    /// Each option with its word.
    options: Vec<String>,
    /// The inputs, each with what a refusal calls it.
    causes: Vec<(&'static str, String)>,
    /// The file that standard input is.
    input: Option<String>,
}

/// "In hex: two digits for each byte, the high one first, in either case, with
/// spaces, tabs and line ends anywhere" (docs/cards.1, Hex): one way of many.
pub fn spelled(bytes: &[u8], random: &mut Random) -> Vec<u8> {
    let between = random.pick(&["", " ", "\n", "\t", "\r\n", " \t\r\n\n"]);
    let often = random.pick(&[2, 3, 40, 1000]);
    let mut spelled = random.pick(&["", "", "\n", " "]).to_string();
    for digit in bytes.iter().flat_map(|byte| [byte / 16, byte % 16]) {
        let digit = char::from_digit(digit.into(), 16).expect("a digit");
        let upper = random.below(2) == 0;
        spelled.push(if upper {
            digit.to_ascii_uppercase()
        } else {
            digit
        });
        if random.below(often) == 0 {
            spelled += between;
        }
    }
    spelled += random.pick(&["", "\n", "\r\n", "\n\n "]);
    spelled.into_bytes()
}

impl Run<'_> {
    pub fn new<'a>(cases: &'a mut Cases, command: &'static str) -> Run<'a> {
        Run {
            place: cases.runs,
            cases,
            command,
            options: Vec::new(),
            causes: Vec::new(),
            input: None,
        }
    }

    /// An option with its word.
    pub fn option(&mut self, option: &'static str, word: &str) {
        self.options.push(format!("--{option} {word}"));
        self.causes.push((option, format!("--{option} {word}")));
    }

    /// A file for this run, and its name.
    fn file(&mut self, stem: &str, bytes: &[u8]) -> String {
        let name = format!("{}.{stem}", self.place);
        self.cases.put(&name, bytes);
        name
    }

    /// An option for a file with these bytes as they are; answers the file's
    /// name.
    pub fn named(&mut self, option: &'static str, bytes: &[u8]) -> String {
        let name = self.file(option, bytes);
        self.option(option, &name);
        name
    }

    /// An input with these bytes.
    pub fn input(&mut self, option: &'static str, bytes: &[u8], form: Form) {
        let any = form == Form::Any;
        let hex = form == Form::Hex || any && self.cases.random.below(2) == 0;
        let content = match hex {
            true => spelled(bytes, &mut self.cases.random),
            false => bytes.to_vec(),
        };
        let standard_input = any && self.input.is_none() && self.cases.random.below(4) == 0;
        self.content(option, &content, hex, standard_input);
    }

    /// An input whose file has this content.
    pub fn content(&mut self, option: &'static str, content: &[u8], hex: bool, standard: bool) {
        let name = self.file(option, content);
        let full = format!("--{option}{}", if hex { "-hex" } else { "" });
        if !standard {
            self.options.push(format!("{full} {name}"));
            self.causes.push((option, format!("{full} {name}")));
            return;
        }
        self.causes.push((option, "standard input".to_string()));
        self.input = Some(name);
        // "Without it, or if FILE is -, it is read from standard input."
        if option != "in" || hex || self.cases.random.below(2) == 0 {
            self.options.push(format!("{full} -"));
        }
    }

    /// Associated data: "the bytes of a file, or the word itself, as it stands.
    /// With neither it is empty."
    pub fn data(&mut self, data: &[u8]) {
        let is_word = !data.is_empty() && data.iter().all(u8::is_ascii_alphanumeric);
        if is_word {
            self.option("label", &String::from_utf8_lossy(data));
        } else if !data.is_empty() || self.cases.random.below(2) == 0 {
            self.input("data", data, Form::Any);
        }
    }

    /// Whether the command takes --out and --force.
    fn has_output(&self) -> bool {
        !["check", "pack"].contains(&self.command)
    }

    /// Other ways to write the same command line: a word "stands behind it with =
    /// between them", unless that makes one of more than 4,096 bytes; --force,
    /// with no file to replace.
    fn in_other_ways(&mut self) {
        for option in &mut self.options {
            if self.cases.random.below(4) == 0 && option.len() <= 4096 {
                *option = option.replacen(' ', "=", 1);
            }
        }
        if self.has_output() && self.cases.random.below(6) == 0 {
            self.options.push("--force".to_string());
        }
    }

    /// Adds the run's line. The options come in any order, and sometimes "--
    /// alone ends the options".
    fn add(mut self, number: u32, expected: &str) {
        self.cases.random.shuffle(&mut self.options);
        if number == 0 && self.cases.random.below(8) == 0 {
            self.options.push("--".to_string());
        }
        let input = self.input.as_deref().unwrap_or("/dev/null");
        let words = self.options.join(" ");
        let line = format!("{number}|{expected}|{input}|{} {words}", self.command);
        self.cases.lines.push(line);
    }

    /// It is done, and this is its result. "Without it, or if FILE is -, it goes
    /// to standard output, as bytes; but digest and draw without it print one
    /// line of hex."
    pub fn done(mut self, result: &[u8]) {
        let (out, hex) = match self.cases.random.below(3) {
            _ if !self.has_output() => (None, false),
            0 => (Some("--out -"), false),
            1 => (Some("--out-hex -"), true),
            _ => (None, ["digest", "draw"].contains(&self.command)),
        };
        self.options.extend(out.map(str::to_string));
        self.in_other_ways();
        let expected = match hex {
            true => self.file("expected", &hex::written(result)),
            false => self.file("expected", result),
        };
        self.add(0, &expected);
    }

    /// What a refusal calls this option.
    fn cause(&self, option: &str) -> String {
        let cause = self.causes.iter().find(|(name, _)| *name == option);
        cause.expect("an option that was given").1.clone()
    }

    /// It is refused with this number on account of this option.
    pub fn refused(self, number: u32, option: &str) {
        let cause = self.cause(option);
        self.add(number, &cause);
    }

    /// The same with "a reason in brackets".
    pub fn refused_since(self, number: u32, option: &str, reason: &str) {
        let cause = self.cause(option);
        self.add(number, &format!("{cause} ({reason})"));
    }

    /// The command line is not understood. "For 101, the word or the option
    /// that was not understood", which is free here.
    pub fn not_understood(self) {
        self.add(101, "*");
    }

    /// It is done, or refused with a number on account of an option.
    pub fn gives(self, outcome: Result<Vec<u8>, u32>, option: &str) {
        match outcome {
            Ok(result) => self.done(&result),
            Err(number) => self.refused(number, option),
        }
    }
}

#[cfg(test)]
mod tests {
    use super::*;

    #[test]
    fn spellings_are_read_as_the_same_bytes() {
        let mut random = Random::new(63);
        let mut all = Vec::new();
        for len in 0..100 {
            let bytes = random.bytes(len);
            let spelled = spelled(&bytes, &mut random);
            assert_eq!(hex::read(&spelled), Some(bytes));
            all.extend(spelled);
        }
        for character in b"0189abcdefABCDEF \t\r\n" {
            assert!(all.contains(character), "{character}");
        }
    }
}
