//! Files in hex that have other characters in them.

use super::digests::digest;
use super::run::spelled;
use super::Cases;
use crate::hex;

/// What other programs take for white space, or what stands beside the digits.
const CHARACTERS: [u8; 7] = *b"\x0b\x1f!\x7f\x80\x85\xa0";

/// A character in the middle of some hex.
fn characters(cases: &mut Cases) {
    for character in CHARACTERS {
        let content = [b"4", &[character][..], b"15A"].concat();
        let mut run = cases.run("digest");
        run.content("in", &content, true, false);
        let text = hex::read(&content).ok_or(105);
        run.gives(text.and_then(|text| digest(&[], &text, 64)), "in");
    }
}

/// "Reading ends at the first byte that is not hex (105), and where there is
/// more than is allowed, which is refused as for bytes": a key that is right, or
/// a byte too long, with a character behind it that is not hex.
fn ends(cases: &mut Cases) {
    for (len, number) in [(16, 105), (17, 1), (18, 1)] {
        let [key, nonce, text] = [len, 12, 30].map(|len| cases.random.bytes(len));
        let content = [&spelled(&key, &mut cases.random)[..], b"z"].concat();
        let mut run = cases.run("seal");
        run.content("key", &content, true, false);
        run.named("nonce", &nonce);
        run.named("in", &text);
        run.refused(number, "key");
    }
}

pub fn add(cases: &mut Cases) {
    characters(cases);
    ends(cases);
}
