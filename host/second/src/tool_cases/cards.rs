//! Cards of texts of many lengths, each sealed, opened, and damaged.

use super::run::Form::Any;
use super::Cases;
use crate::card;

/// The lengths of texts and of associated data; some are random.
const LENGTHS: [(usize, Option<usize>); 11] = [
    (0, Some(0)),
    (1, None),
    (15, Some(16)),
    (16, Some(0)),
    (17, Some(1)),
    (255, None),
    (256, Some(15)),
    (4096, Some(65_536)),
    (65_535, Some(17)),
    (300, None),
    (2000, Some(0)),
];

/// What a card is sealed from.
struct Given {
    key: Vec<u8>,
    nonce: Vec<u8>,
    data: Vec<u8>,
    text: Vec<u8>,
}

/// Random-looking bytes. Some of the associated data are letters and digits,
/// which a label can be.
fn given(cases: &mut Cases, text: usize, data: Option<usize>) -> Given {
    let letters: Vec<u8> = (b'a'..=b'z').chain(b'0'..=b'9').collect();
    let data = match data {
        Some(len) => cases.random.bytes(len),
        None => (0..1 + cases.random.below(300))
            .map(|_| cases.random.pick(&letters))
            .collect(),
    };
    let [key, nonce, text] = [16, 12, text].map(|len| cases.random.bytes(len));
    Given {
        key,
        nonce,
        data,
        text,
    }
}

/// A run that opens this file, or looks whether it opens.
fn opened(cases: &mut Cases, key: &[u8], data: &[u8], file: &[u8]) {
    let outcome = card::open(key, data, file);
    let command = cases.random.pick(&["open", "open", "check"]);
    let mut run = cases.run(command);
    run.input("in", file, Any);
    run.input("key", key, Any);
    run.data(data);
    // `check` "opens a card and writes nothing".
    let written = |text| if command == "check" { vec![] } else { text };
    run.gives(outcome.map(written), "in");
}

/// The card sealed and opened.
fn whole(cases: &mut Cases, given: &Given, card: &[u8]) {
    let mut run = cases.run("seal");
    run.input("key", &given.key, Any);
    run.input("nonce", &given.nonce, Any);
    run.data(&given.data);
    run.input("in", &given.text, Any);
    run.done(card);
    opened(cases, &given.key, &given.data, card);
}

/// The card with a bit flipped, cut or longer, under another key or with other
/// data.
fn damaged(cases: &mut Cases, given: &Given, card: &[u8]) {
    let flipped = cases.flipped(card);
    opened(cases, &given.key, &given.data, &flipped);
    let other = match cases.random.below(2) {
        0 => cases.cut(card),
        _ => [card, &cases.some_bytes(99), &[0]].concat(),
    };
    opened(cases, &given.key, &given.data, &other);
    if cases.random.below(2) == 0 {
        let key = cases.flipped(&given.key);
        opened(cases, &key, &given.data, card);
    } else {
        let data = match given.data.len() {
            0 => cases.random.bytes(1),
            _ => cases.flipped(&given.data),
        };
        opened(cases, &given.key, &data, card);
    }
}

pub fn add(cases: &mut Cases) {
    for (text, data) in LENGTHS {
        let given = given(cases, text, data);
        let Given {
            key,
            nonce,
            data,
            text,
        } = &given;
        let card = card::seal(key, nonce, data, text).expect("all lengths are allowed");
        whole(cases, &given, &card);
        damaged(cases, &given, &card);
    }
}
