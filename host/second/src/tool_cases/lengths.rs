//! The lengths of each input at its limits and on both sides of them. Those in
//! bytes, rather than in hex, are mostly in the other files of tests/cards.

use super::digests::digest;
use super::run::Form;
use super::wide::{deciphered, enciphered};
use super::Cases;
use crate::card;

/// A command with the lengths of its inputs.
type Command = (&'static str, &'static [(&'static str, usize)]);

const SEAL: Command = (
    "seal",
    &[("key", 16), ("nonce", 12), ("data", 20), ("in", 30)],
);
const OPEN: Command = ("open", &[("key", 16), ("data", 20), ("in", 60)]);
const ENCIPHER: Command = ("encipher", &[("key", 128), ("iv", 48), ("in", 40)]);
const DECIPHER: Command = ("decipher", &[("key", 128), ("in", 90)]);
const DIGEST: Command = ("digest", &[("key", 9), ("in", 30)]);

/// Commands, an input of each, and other lengths for it.
const LENGTHS: [(Command, &str, &[usize]); 14] = [
    (SEAL, "key", &[0, 15, 17]),
    (SEAL, "nonce", &[0, 11, 13]),
    (SEAL, "data", &[65_536, 65_537]),
    (SEAL, "in", &[65_536]),
    (OPEN, "key", &[0, 15, 17]),
    (OPEN, "data", &[65_536, 65_537]),
    (OPEN, "in", &[0, 65_565, 65_566]),
    (ENCIPHER, "key", &[0, 127, 129]),
    (ENCIPHER, "iv", &[0, 47, 49]),
    (ENCIPHER, "in", &[0, 32, 33, 1_048_609]),
    (DECIPHER, "key", &[0, 127, 129]),
    (DECIPHER, "in", &[0, 47, 48, 80, 81, 1_048_656, 1_048_657]),
    (DIGEST, "key", &[0, 64, 65]),
    (DIGEST, "in", &[1_048_576, 1_048_577]),
];

/// What a command gives for these inputs, in the order of its list.
fn outcome(command: &str, inputs: &[Vec<u8>]) -> Result<Vec<u8>, u32> {
    match (command, inputs) {
        ("seal", [key, nonce, data, text]) => card::seal(key, nonce, data, text),
        ("open", [key, data, file]) => card::open(key, data, file),
        ("encipher", [key, iv, block]) => enciphered(key, iv, block),
        ("decipher", [key, file]) => deciphered(key, file),
        // "1 to 64 for a digest": a key that is given is not empty.
        ("digest", [key, _]) if key.is_empty() => Err(1),
        ("digest", [key, text]) => digest(key, text, 64),
        _ => unreachable!("no such command: {command}"),
    }
}

/// Bytes for a command's inputs. What is opened begins with a card, if the other
/// inputs can seal one.
fn inputs(cases: &mut Cases, command: &str, lengths: &[usize]) -> Vec<Vec<u8>> {
    let mut inputs: Vec<Vec<u8>> = lengths.iter().map(|&len| cases.random.bytes(len)).collect();
    if let ("open", [key, data, file]) = (command, &mut inputs[..]) {
        let text = file.len().saturating_sub(card::LONGER);
        let text = cases.random.bytes(text.min(card::LONGEST_TEXT));
        let card = card::seal(key, &[7; 12], data, &text).unwrap_or_default();
        for (there, byte) in file.iter_mut().zip(card) {
            *there = byte;
        }
    }
    inputs
}

/// A run with all inputs right but for `other`, which is so long.
fn run(cases: &mut Cases, (command, all): Command, other: &str, length: usize) {
    let name = |place: usize| all[place].0;
    let length_of = |&(name, right): &(&str, usize)| if name == other { length } else { right };
    let lengths: Vec<usize> = all.iter().map(length_of).collect();
    let inputs = inputs(cases, command, &lengths);
    let mut run = cases.run(command);
    for (place, bytes) in inputs.iter().enumerate() {
        let form = match (name(place) == other, length) {
            (false, _) => Form::Any,
            // No bytes in hex are no bytes too.
            (true, 0) => Form::Bytes,
            (true, _) => Form::Hex,
        };
        run.input(name(place), bytes, form);
    }
    run.gives(outcome(command, &inputs), other);
}

/// "A word has at most 4,096 bytes."
fn labels(cases: &mut Cases) {
    for len in [4096, 4097] {
        let [key, nonce, text] = [16, 12, 20].map(|len| cases.random.bytes(len));
        let label = "l".repeat(len);
        let mut run = cases.run("seal");
        run.named("key", &key);
        run.named("nonce", &nonce);
        run.named("in", &text);
        run.option("label", &label);
        match len {
            4096 => run.gives(card::seal(&key, &nonce, label.as_bytes(), &text), "in"),
            _ => run.not_understood(),
        }
    }
}

pub fn add(cases: &mut Cases) {
    for (command, other, lengths) in LENGTHS {
        for &length in lengths {
            run(cases, command, other, length);
        }
    }
    labels(cases);
}
