//! Programs that the tests start, and files that they read.

use std::env;
use std::path::{Path, PathBuf};
use std::process::Command;

/// A path that counts from the crate's folder.
pub fn in_crate(path: &str) -> PathBuf {
    Path::new(env!("CARGO_MANIFEST_DIR")).join(path)
}

/// The archive that is linked, as the crate's build script found it when the
/// tests were built.
pub fn archive() -> String {
    let dir = option_env!("VESPRULDO_LIB_DIR").filter(|dir| !dir.is_empty());
    let archive = in_crate(dir.unwrap_or("../../target/staticlib")).join("libvespruldo.a");
    archive.display().to_string()
}

/// The words of the command that this variable holds, or else of `usual`.
pub fn command(variable: &str, usual: &str) -> Vec<String> {
    let command = env::var(variable).unwrap_or_default();
    let command = if command.trim().is_empty() {
        usual
    } else {
        &command
    };
    command.split_whitespace().map(String::from).collect()
}

/// Runs the command and answers what it prints.
pub fn run(words: &[String]) -> String {
    let output = Command::new(&words[0]).args(&words[1..]).output();
    let output = output.unwrap_or_else(|why| panic!("{words:?}: {why}"));
    let errors = String::from_utf8_lossy(&output.stderr);
    assert!(output.status.success(), "{words:?}: {errors}");
    String::from_utf8(output.stdout).expect("plain text")
}
