//! What the header asks of the preprocessor, done as by a C compiler for x86-64
//! and Linux that knows every attribute.

use std::collections::{BTreeMap, BTreeSet};

use crate::model::declare;
use crate::tokens::{in_word, number, without_comments};

/// The conditions that the header has, and whether they hold.
const CONDITIONS: [(&str, bool); 12] = [
    ("#ifndef VESPRULDO_H", true),
    ("#if !defined(__x86_64__) || defined(__ILP32__)", false),
    ("#if defined(_WIN32) || defined(__CYGWIN__)", false),
    ("#if defined(__APPLE__)", false),
    ("#ifdef __cplusplus", false),
    ("#if defined(__GNUC__)", true),
    (
        "#elif defined(__STDC_VERSION__) && __STDC_VERSION__ >= 199901L",
        true,
    ),
    ("#if defined(__has_attribute)", true),
    ("#if __has_attribute(access)", true),
    ("#if __has_attribute(retain)", true),
    ("#if !defined(VESPRULDO_READS)", false),
    ("#if !defined(VESPRULDO_KEPT)", false),
];

/// The lines that such a compiler leaves out: they are for C++, for compilers
/// that know less, and for other machines.
const FOR_OTHERS: [&str; 13] = [
    "",
    "extern \"C\" {",
    "}",
    "#error \"libvespruldo.a is x86-64 code, and this compiler makes other code\"",
    "#error \"libvespruldo.a has System V calls, and Windows has others\"",
    "#error \"libvespruldo.a is in ELF, which macOS does not link\"",
    "#define VESPRULDO_LOOK_AT_ANSWER",
    "#define VESPRULDO_RESTRICT restrict",
    "#define VESPRULDO_RESTRICT",
    "#define VESPRULDO_READS(p, n)",
    "#define VESPRULDO_WRITES(p, n)",
    "#define VESPRULDO_CHANGES(p, n)",
    "#define VESPRULDO_KEPT __attribute__((used))",
];

/// What is done with the bytes that a parameter points to, as GCC's attribute
/// says it.
const ACCESSES: [&str; 3] = ["read_only", "write_only", "read_write"];

/// What is defined.
#[derive(Default)]
pub struct Defined {
    /// By their full names, as all here.
    pub numbers: BTreeMap<String, u64>,
    pub texts: BTreeMap<String, String>,
    /// Attributes of functions and parameters.
    pub attributes: BTreeSet<String>,
    /// Attributes that say how a buffer is used, by the numbers of its two
    /// parameters.
    pub accesses: BTreeMap<String, &'static str>,
}

/// A condition that has been met with: whether what follows counts, and whether
/// any branch has.
struct Branch {
    counts: bool,
    counted: bool,
}

impl Branch {
    fn next(&mut self, holds: bool) {
        self.counts = holds && !self.counted;
        self.counted |= self.counts;
    }
}

/// The conditions that a line stands under.
#[derive(Default)]
struct Branches(Vec<Branch>);

impl Branches {
    /// Takes a line that is about conditions, and says whether it was one.
    fn take(&mut self, line: &str) -> bool {
        if line == "#endif" {
            self.0.pop().expect("a condition");
            return true;
        }
        let holds = CONDITIONS.iter().find(|condition| condition.0 == line);
        match (line, holds) {
            ("#else", _) => self.last().next(true),
            (_, None) => return false,
            (_, Some((_, holds))) if line.starts_with("#elif") => self.last().next(*holds),
            (_, Some((_, holds))) => self.0.push(Branch {
                counts: *holds,
                counted: *holds,
            }),
        }
        true
    }

    fn last(&mut self) -> &mut Branch {
        self.0.last_mut().expect("a condition")
    }

    fn count(&self) -> bool {
        self.0.iter().all(|branch| branch.counts)
    }
}

impl Defined {
    /// Notes what is defined, and answers the other lines that count.
    pub fn preprocessed(&mut self, text: &str) -> String {
        let mut kept = String::new();
        let mut branches = Branches::default();
        for line in without_comments(text).lines() {
            let line = line.trim();
            assert!(!line.ends_with('\\'), "a line goes on: {line}");
            match line {
                _ if branches.take(line) => {}
                _ if !branches.count() => {
                    assert!(FOR_OTHERS.contains(&line), "not understood: {line}");
                }
                "#include <stdbool.h>" | "#include <stddef.h>" | "#include <stdint.h>" => {}
                "#define VESPRULDO_H" => {}
                _ => match line.strip_prefix('#') {
                    Some(directive) => self.define(directive),
                    None => kept = kept + line + "\n",
                },
            }
        }
        assert!(branches.0.is_empty(), "a condition is not ended");
        kept
    }

    fn define(&mut self, directive: &str) {
        let named = directive.strip_prefix("define ");
        let named = named.unwrap_or_else(|| panic!("not understood: #{directive}"));
        let end = named.find(|c| !in_word(c)).unwrap_or(named.len());
        let (name, value) = (named[..end].to_string(), named[end..].trim());
        let access = value.strip_prefix("(p, n) __attribute__((access(");
        let access = access.and_then(|rest| rest.strip_suffix(", p, n)))"));
        if let Some(access) = access {
            let known = ACCESSES.into_iter().find(|known| *known == access);
            let known = known.unwrap_or_else(|| panic!("not understood: #{directive}"));
            declare(&mut self.accesses, name, known);
        } else if value.starts_with("__attribute__") || value == "__restrict" {
            assert!(self.attributes.insert(name), "#{directive} once more");
        } else if let Some(text) = value.strip_prefix('"') {
            let text = text.strip_suffix('"').expect("the end of a quoted text");
            declare(&mut self.texts, name, text.to_string());
        } else {
            declare(&mut self.numbers, name, number(value));
        }
    }
}
