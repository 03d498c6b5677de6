//! What examples/reader.c does, over the Rust crate: the same words, files and
//! exit status, but without a lock.

use std::io::Write;
use std::process::ExitCode;
use std::{env, fs, io};

use vespruldo::{find_key, open, seal, Data, Drawer, Refusal, Sealed};

const NO_DATA: Data = Data(b"");

fn read(name: &str) -> Vec<u8> {
    fs::read(name).unwrap_or_else(|why| panic!("{name}: {why}"))
}

fn write(name: &str, bytes: &[u8]) {
    fs::write(name, bytes).unwrap_or_else(|why| panic!("{name}: {why}"));
}

fn run(words: &[&str]) -> Result<(), Refusal> {
    let book = read(words[1]);
    let key = find_key(&book, None, words[2].parse().expect("a class number"))?;
    match words {
        ["seal", _, _, drawer, text, card] => {
            let mut state = Drawer::from_bytes(&read(drawer))?;
            let nonce = state.draw()?;
            write(drawer, &state.to_bytes());
            write(card, &seal(key, nonce, NO_DATA, &read(text))?.to_bytes()?);
        }
        ["open", _, _, card] => {
            let text = open(key, NO_DATA, &Sealed::from_bytes(&read(card))?)?;
            io::stdout().write_all(&text).expect("standard output");
        }
        _ => panic!("seal BOOK CLASS DRAWER TEXT CARD, or open BOOK CLASS CARD"),
    }
    Ok(())
}

fn main() -> ExitCode {
    let words: Vec<String> = env::args().skip(1).collect();
    let words: Vec<&str> = words.iter().map(String::as_str).collect();
    match run(&words) {
        Ok(()) => ExitCode::SUCCESS,
        Err(refusal) => {
            eprintln!("reader: refused {} {refusal}", refusal.number());
            u8::try_from(refusal.number()).map_or(ExitCode::FAILURE, ExitCode::from)
        }
    }
}
