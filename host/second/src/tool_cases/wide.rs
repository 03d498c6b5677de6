//! Wide files: "48 bytes of iv; the block" (docs/cards.1, FILES).

use super::run::Form::Any;
use super::Cases;
use crate::lioness;

const BLOCKS: [usize; 7] = [33, 34, 96, 97, 161, 500, 1_048_608];

/// The wide file of a block under this iv.
pub fn enciphered(key: &[u8], iv: &[u8], block: &[u8]) -> Result<Vec<u8>, u32> {
    let mut block = block.to_vec();
    match lioness::encipher(key, iv, &mut block) {
        0 => Ok([iv, &block].concat()),
        number => Err(number),
    }
}

/// The block of a wide file. "One shorter than 48 is refused with 2, since the
/// iv has a wrong length, and the rest with 4."
pub fn deciphered(key: &[u8], file: &[u8]) -> Result<Vec<u8>, u32> {
    let (iv, block) = file.split_at(file.len().min(48));
    let mut block = block.to_vec();
    match lioness::decipher(key, iv, &mut block) {
        0 => Ok(block),
        number => Err(number),
    }
}

/// A run that deciphers this file.
fn decipher(cases: &mut Cases, key: &[u8], file: &[u8]) {
    let mut run = cases.run("decipher");
    run.input("in", file, Any);
    run.input("key", key, Any);
    run.gives(deciphered(key, file), "in");
}

pub fn add(cases: &mut Cases) {
    for len in BLOCKS {
        let [key, iv, block] = [128, 48, len].map(|len| cases.random.bytes(len));
        let wide = enciphered(&key, &iv, &block).expect("all lengths are allowed");
        let mut run = cases.run("encipher");
        run.input("key", &key, Any);
        run.input("iv", &iv, Any);
        run.input("in", &block, Any);
        run.done(&wide);
        decipher(cases, &key, &wide);
        // "A changed one gives noise, and nothing says so."
        if len < 200 {
            let flipped = cases.flipped(&wide);
            decipher(cases, &key, &flipped);
        }
    }
}
