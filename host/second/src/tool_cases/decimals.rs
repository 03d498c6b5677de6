//! Numbers in decimal, as the lengths of digests.

use super::digests::digest;
use super::run::Form::Any;
use super::Cases;
use crate::decimal;

/// Some would be other numbers if high bits were dropped.
const WORDS: [&str; 12] = [
    "1",
    "0064",
    "00000000000000000000000000000000000000000032",
    "65",
    "256",
    "65568",
    "18446744073709551615",
    "18446744073709551648",
    "340282366920938463463374607431768211488",
    "1e1",
    "0x10",
    "1_0",
];

pub fn add(cases: &mut Cases) {
    for word in WORDS {
        let text = cases.some_bytes(30);
        let mut run = cases.run("digest");
        run.input("in", &text, Any);
        run.option("length", word);
        match decimal::number(word.as_bytes()) {
            None => run.not_understood(),
            // "The digest's length, 1 to 64".
            Some(length @ 1..=64) => run.gives(digest(&[], &text, length as usize), "in"),
            Some(_) => run.refused(6, "length"),
        }
    }
}
