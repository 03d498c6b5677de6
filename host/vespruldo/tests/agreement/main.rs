//! The header, the archive, the Rust declarations and the Rattle source agree on
//! every function, with the names of its parameters; header and Rust on every
//! struct, length and refusal; and all of them on the version and on the
//! interface, whose record stands beside these tests.

// No check may be left out of the one test.
#![deny(dead_code)]

mod c;
mod changes;
mod interface;
mod layout;
mod model;
mod preprocessor;
mod rattle;
mod rust;
mod tokens;
mod tools;

use std::collections::{BTreeMap, BTreeSet};
use std::fs;

use c::Header;
use model::{camel_case, differences, rename};
use tools::in_crate;
use vespruldo::{archive, Refusal};

/// The parameter that has another name in the header: its function, its name
/// there and its name elsewhere, which is a reserved word of C++.
const IN_HEADER: [&str; 3] = ["vespruldo_key_find", "class_number", "class"];

/// The texts that are compared.
#[derive(Clone)]
struct Sources {
    header: String,
    archive: String,
    sizes: String,
    build: String,
    rattle: String,
    /// What the archive exports, as `nm` lists it.
    symbols: String,
    /// The interface as it was recorded.
    record: String,
}

impl Sources {
    fn read() -> Sources {
        let text = |path: &str| {
            let text = fs::read_to_string(in_crate(path));
            text.unwrap_or_else(|why| panic!("{path}: {why}"))
        };
        Sources {
            header: text("../../include/vespruldo.h"),
            archive: text("src/archive.rs"),
            sizes: text("src/sizes.rs"),
            build: text("build.rs"),
            rattle: text("../../crates/vespruldo/src/lib.rt"),
            symbols: exported(),
            record: text(interface::RECORD),
        }
    }

    fn disagreements(&self) -> Vec<String> {
        let mut header = Header::of(&self.header);
        let interface = interface::disagreements(&header, &self.record, &self.build);
        rename(&mut header.functions, IN_HEADER);
        let archive = rust::Archive::of(&self.archive);
        let rattle = rattle::functions(&self.rattle);
        let names = header.functions.keys().map(|name| (name.clone(), ()));
        let symbols = symbols(&self.symbols);
        let functions = ("the header", &header.functions);
        let structs = ("the header", &header.structs);
        [
            differences([functions, ("Rust", &archive.functions)]),
            differences([functions, ("Rattle", &rattle)]),
            differences([("the header", &names.collect()), ("the archive", &symbols)]),
            differences([structs, ("Rust", &archive.structs)]),
            self.other_refusals(&header),
            self.other_sizes(&header),
            interface,
        ]
        .concat()
    }

    fn other_refusals(&self, header: &Header) -> Vec<String> {
        let in_header = refusals(header).map(|(name, number)| {
            let words = header.words.get(name).cloned();
            (camel_case(without_prefix(name)), (number, words))
        });
        let in_rust = Refusal::ALL.iter().map(|refusal| {
            let number = u64::from(refusal.number());
            // `Debug` begins with the name.
            let shown = format!("{refusal:?}");
            let name = shown.split(' ').next().unwrap_or_default();
            (name.to_string(), (number, Some(refusal.to_string())))
        });
        differences([
            ("the header", &in_header.collect()),
            ("Rust", &in_rust.collect()),
        ])
    }

    fn other_sizes(&self, header: &Header) -> Vec<String> {
        let numbers = &header.defined.numbers;
        let sizes = numbers.iter().filter(|(name, _)| is_size(name));
        let sizes = sizes.map(|(name, value)| (without_prefix(name).to_string(), *value));
        let in_rust = rust::sizes(&self.sizes);
        differences([("the header", &sizes.collect()), ("Rust", &in_rust)])
    }
}

fn without_prefix(name: &str) -> &str {
    let own = name.strip_prefix("VESPRULDO_");
    own.unwrap_or_else(|| panic!("{name} is not the header's own"))
}

fn is_size(name: &str) -> bool {
    ["_BYTES", "_MIN", "_MAX", "_EXTRA"]
        .iter()
        .any(|end| name.ends_with(end))
}

/// The header's numbers that are neither refusals nor lengths: what is answered
/// where nothing is refused, the two books, and the kinds of a pack's cards.
const CHOICES: [(&str, u64); 7] = [
    ("DONE", 0),
    ("THIS_TERM", 0),
    ("LAST_TERM", 1),
    ("NO_CARD", 0),
    ("WORD", 1),
    ("SONG", 2),
    ("SHUFFLE", 3),
];

/// The header's numbers that are neither lengths nor choices, nor those of version
/// and interface.
fn refusals(header: &Header) -> impl Iterator<Item = (&str, u64)> {
    let is_choice = |name: &str| CHOICES.iter().any(|choice| choice.0 == name);
    let is_other = move |name| is_choice(name) || ["VERSION", "INTERFACE"].contains(&name);
    let numbers = header
        .defined
        .numbers
        .iter()
        .map(|(name, number)| (name.as_str(), *number));
    numbers.filter(move |(name, _)| !is_size(name) && !is_other(without_prefix(name)))
}

/// Lists what the archive that is linked exports.
fn exported() -> String {
    let mut list = tools::command("NM", "nm");
    list.extend(["-g", "--defined-only", &tools::archive()].map(String::from));
    tools::run(&list)
}

/// The names in a list of functions of any objects.
fn symbols(list: &str) -> BTreeMap<String, ()> {
    let mut names = BTreeMap::new();
    for line in list.lines() {
        let words: Vec<&str> = line.split_whitespace().collect();
        match words[..] {
            [] => {}
            [object] if object.ends_with(':') => {}
            [_, "T", name] => model::declare(&mut names, name.to_string(), ()),
            _ => panic!("not understood: {line}"),
        }
    }
    names
}

/// One test, since it starts other programs: under an emulator a program with
/// several busy threads hangs, once in a while, when it does so.
#[test]
fn all_agree_and_every_change_is_seen() {
    let sources = Sources::read();
    all_declarations_agree(&sources);
    the_c_compiler_sees_the_same_layouts_numbers_and_words(&sources);
    all_have_one_version(&sources);
    all_have_one_interface(&sources);
    changes::every_change_is_reported(&sources);
    changes::strange_declarations_are_not_passed_over(&sources);
    changes::other_layouts_and_words_are_reported(&sources);
}

fn all_declarations_agree(sources: &Sources) {
    let reported = sources.disagreements();
    assert!(reported.is_empty(), "{}", reported.join("\n\n"));
    let header = Header::of(&sources.header);
    assert_eq!(header.functions.len(), 26);
    assert_eq!(header.structs.len(), 10);
    let own = ["found_key", "no_book", "structs_are_not_packed", "words"];
    let own = own.map(|name| format!("vespruldo_{name}"));
    assert_eq!(header.own, BTreeSet::from(own));
    // As document 01's table, `Found` and `PackCard` have them.
    for (name, number) in CHOICES {
        assert_eq!(header.number(name), number, "{name}");
    }
}

fn the_c_compiler_sees_the_same_layouts_numbers_and_words(sources: &Sources) {
    let reported = layout::disagreements(&sources.header);
    assert!(reported.is_empty(), "{}", reported.join("\n"));
}

/// As the header counts it: 10000 times the first number of a version, 100 times
/// the second, and the third.
fn version_number(text: &str) -> u64 {
    let parts = text.split('.').map(tokens::number);
    parts.fold(0, |number, part| 100 * number + part)
}

fn all_have_one_version(sources: &Sources) {
    assert_eq!(version_number("1.2.3"), 10_203);
    let version = env!("CARGO_PKG_VERSION");
    let header = Header::of(&sources.header);
    assert_eq!(header.defined.texts["VESPRULDO_VERSION_TEXT"], version);
    assert_eq!(header.number("VERSION"), version_number(version));
    // SAFETY: it takes nothing.
    let of_archive = unsafe { archive::vespruldo_version() };
    assert_eq!(u64::from(of_archive), version_number(version));
}

fn all_have_one_interface(sources: &Sources) {
    let header = Header::of(&sources.header);
    // SAFETY: it takes nothing.
    let answered = unsafe { archive::vespruldo_interface_2() };
    assert_eq!(u64::from(answered), header.number("INTERFACE"));
}
