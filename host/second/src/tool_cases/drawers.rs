//! Drawer files: what is drawn from them, their next state, and damaged ones.

use super::run::Form::Any;
use super::wide::enciphered;
use super::Cases;
use crate::drawer::{self, Drawer};
use crate::{card, drawer_file};

const STATES: [(u32, u64); 8] = [
    (0, 0),
    (42, 255),
    (u32::MAX, 65_535),
    (1, (1 << 32) - 1),
    (0x0102_0304, 0x1112_1314_1516_1718),
    (77, u64::MAX - 2),
    (7, u64::MAX - 1),
    (5, u64::MAX),
];

/// The commands that draw.
const COMMANDS: [&str; 3] = ["draw", "seal", "encipher"];

/// A run that draws from this file. "The drawer's next state is on the disk
/// before the nonce is written"; if it is refused "a drawer stays as it was".
fn drawn(cases: &mut Cases, command: &'static str, file: &[u8]) {
    let [key, wide_key, text] = [16, 128, 50].map(|len| cases.random.bytes(len));
    let mut run = cases.run(command);
    let name = run.named("drawer", file);
    match command {
        "seal" => run.input("key", &key, Any),
        "encipher" => run.input("key", &wide_key, Any),
        _ => (),
    }
    if command != "draw" {
        run.input("in", &text, Any);
    }
    let Some(state) = drawer_file::load(file) else {
        return run.refused(106, "drawer");
    };
    let nonce = drawer::draw(state);
    if nonce.number != 0 {
        return run.refused(nonce.number, "drawer");
    }
    let outcome = match command {
        "seal" => card::seal(&key, &nonce.bytes, &[], &text),
        "encipher" => enciphered(&wide_key, &drawer::iv(state).bytes, &text),
        _ => Ok(nonce.bytes.to_vec()),
    };
    run.gives(outcome, "in");
    cases.changed(&name, &drawer_file::store(nonce.next));
}

/// Files that are no drawers: with a bit flipped in each part, cut, longer, with
/// another drawer's digest, and of any bytes.
fn damaged(cases: &mut Cases, state: Drawer) -> Vec<Vec<u8>> {
    let file = drawer_file::store(state);
    let other = drawer_file::store(Drawer {
        count: state.count + 1,
        ..state
    });
    let (front, digest) = file.split_at(12);
    vec![
        [&cases.flipped(front), digest].concat(),
        [front, &cases.flipped(digest)].concat(),
        cases.flipped(&file),
        cases.cut(&file),
        front.to_vec(),
        [&file[..], &[0]].concat(),
        [front, &other[12..]].concat(),
        cases.random.bytes(44),
    ]
}

pub fn add(cases: &mut Cases) {
    for (place, (reader, count)) in STATES.into_iter().enumerate() {
        let file = drawer_file::store(drawer::start(reader, count));
        drawn(cases, "draw", &file);
        drawn(cases, COMMANDS[1 + place % 2], &file);
    }
    let state = drawer::start(42, 5);
    for (place, file) in damaged(cases, state).iter().enumerate() {
        drawn(cases, COMMANDS[place % 3], file);
    }
}
