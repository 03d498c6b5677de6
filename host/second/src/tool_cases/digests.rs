//! Digests with and without a key.

use super::run::Form::Any;
use super::Cases;
use crate::blake;

/// The lengths of keys, where 0 is none, of texts and of digests, where 0 is
/// that no length is given.
const LENGTHS: [[usize; 3]; 14] = [
    [0, 0, 0],
    [0, 1, 1],
    [0, 127, 2],
    [0, 128, 20],
    [0, 129, 63],
    [0, 256, 0],
    [0, 1000, 64],
    [1, 0, 0],
    [16, 1, 32],
    [32, 128, 64],
    [44, 129, 0],
    [63, 300, 8],
    [64, 0, 1],
    [64, 1_000_000, 48],
];

/// The digest. An empty key is none: "with no --key the digest has none".
pub fn digest(key: &[u8], text: &[u8], length: usize) -> Result<Vec<u8>, u32> {
    let mut room = vec![0; length];
    match blake::digest(key, text, &mut room) {
        0 => Ok(room),
        number => Err(number),
    }
}

pub fn add(cases: &mut Cases) {
    for [key, text, length] in LENGTHS {
        let [key, text] = [key, text].map(|len| cases.random.bytes(len));
        let mut run = cases.run("digest");
        if !key.is_empty() {
            run.input("key", &key, Any);
        }
        run.input("in", &text, Any);
        if length > 0 {
            run.option("length", &length.to_string());
        }
        // "64 bytes long unless --length says otherwise".
        let bytes = if length > 0 { length } else { 64 };
        run.gives(digest(&key, &text, bytes), "in");
    }
}
