//! The program `second` as its callers see it.

use std::collections::BTreeMap;
use std::fs;
use std::io::Write;
use std::path::{Path, PathBuf};
use std::process::{Command, Output, Stdio};

fn second(arguments: &[&str], input: &[u8]) -> Output {
    let mut child = Command::new(env!("CARGO_BIN_EXE_second"))
        .args(arguments)
        .stdin(Stdio::piped())
        .stdout(Stdio::piped())
        .stderr(Stdio::piped())
        .spawn()
        .expect("the program starts");
    let mut pipe = child.stdin.take().expect("a pipe was asked for");
    // A program that refuses its arguments may end before it reads.
    let _ = pipe.write_all(input);
    drop(pipe);
    child.wait_with_output().expect("the program ends")
}

#[test]
fn cases_are_the_same_each_time_and_answered_line_by_line() {
    let cases = second(&["cases"], b"");
    assert!(cases.status.success());
    assert_eq!(cases.stdout, second(&["cases"], b"").stdout);
    let answers = second(&["answers"], &cases.stdout);
    assert!(answers.status.success());
    let ends = |text: &[u8]| text.iter().filter(|&&c| c == b'\n').count();
    assert_eq!(ends(&answers.stdout), ends(&cases.stdout));
    assert_eq!(answers.stdout.last(), Some(&b'\n'));
}

#[test]
fn edges_are_printed_one_on_each_line() {
    let edges = second(&["edges"], b"");
    assert!(edges.status.success());
    let text = String::from_utf8(edges.stdout).expect("letters, digits and spaces");
    // HyENA, drawers, key books, the key stream and batches.
    assert_eq!(text.lines().count(), 278 + 48 + 676 + 108 + 185);
    assert!(text.starts_with("16 12 0 0 5 16 128 0 a5a5a5a5a5 "));
    assert!(text.contains("d4a5a5a5a5a5\ndraw 0 0 0 000000000000000000000000 0 1 "));
    assert!(text.contains("\nkey 12 12 65535 10 - 0 0\nstream 32 12 0 0 0 0 -\n"));
    let max = u64::MAX;
    let last_stream = format!("\nstream 31 11 {max} 1 1 {max} 09\n");
    assert!(text.contains(&format!(
        "{last_stream}batch 16 3 0 5 0 16909060 {max} 0 18 "
    )));
    let tags = "5a".repeat(16);
    let last_batch = format!("batch 16 3 0 5 16 16909060 9 0 5 16909060 9 a5a5a5a5a5 {tags}");
    assert!(text.ends_with(&format!("\n{last_batch}\n")));
    assert!(!text.contains("  ") && !text.contains(" \n"));
}

#[test]
fn packs_are_printed_one_on_each_line() {
    let packs = second(&["packs"], b"");
    assert!(packs.status.success());
    let text = String::from_utf8(packs.stdout).expect("letters, digits and spaces");
    // Two packs cut, one changed, its shuffles, packs that are built, lone words.
    assert_eq!(text.lines().count(), 11 + 22 + 190 + 64 + 39 + 6 + 25);
    assert!(text.starts_with("least 0 0 12 0 12 0 0\nleast 1 0 12 0 12 0 0\n"));
    assert!(text.contains("\nleast 8 1 2 3 3 7 1 0 0 0 0 2 0\n"));
    assert!(text.ends_with("\nlone 255 255 0 13 0 13 0 0\n"));
    assert!(!text.contains("  ") && !text.contains(" \n"));
}

/// A directory that is not there yet, and goes with this.
struct Fresh(PathBuf);

impl Fresh {
    fn new(name: &str) -> Fresh {
        let name = format!("second-{name}-{}", std::process::id());
        let directory = std::env::temp_dir().join(name);
        let _ = fs::remove_dir_all(&directory);
        Fresh(directory)
    }

    /// What the command writes to it: the names and bytes of all files.
    fn written_by(&self, command: &str) -> BTreeMap<PathBuf, Vec<u8>> {
        let name = self.0.to_str().expect("a name in Unicode");
        let ended = second(&[command, name], b"");
        assert!(ended.status.success());
        assert!(ended.stdout.is_empty() && ended.stderr.is_empty());
        let mut files = BTreeMap::new();
        collect(&self.0, &mut files);
        files
    }
}

impl Drop for Fresh {
    fn drop(&mut self) {
        let _ = fs::remove_dir_all(&self.0);
    }
}

/// Adds the files in `directory` and below it.
fn collect(directory: &Path, files: &mut BTreeMap<PathBuf, Vec<u8>>) {
    for entry in fs::read_dir(directory).expect("a directory") {
        let path = entry.expect("an entry").path();
        if path.is_dir() {
            collect(&path, files);
        } else {
            let bytes = fs::read(&path).expect("a file");
            files.insert(path, bytes);
        }
    }
}

#[test]
fn golden_run_has_five_files() {
    let fresh = Fresh::new("golden");
    let files = fresh.written_by("golden");
    let names = ["args", "data/last-term", "data/song.card", "data/this-term"];
    let names = names.into_iter().chain(["stdout"]);
    assert!(files
        .keys()
        .cloned()
        .eq(names.map(|name| fresh.0.join(name))));
    assert!(files[&fresh.0.join("args")].starts_with(b"open\n--book-hex\nthis-term\n"));
    // Over the same files too.
    assert_eq!(fresh.written_by("golden"), files);
}

#[test]
fn tool_cases_are_the_same_each_time_and_in_a_table() {
    let fresh = Fresh::new("tool-cases");
    let files = fresh.written_by("tool-cases");
    let table = String::from_utf8(files[&fresh.0.join("table")].clone()).expect("a text");
    assert!(table.lines().count() > 150 && table.ends_with('\n'));
    for line in table.lines() {
        let fields: Vec<&str> = line.split('|').collect();
        assert_eq!(fields.len(), 4, "{line}");
        if fields[0] == "0" {
            assert!(files.contains_key(&fresh.0.join(fields[1])), "{line}");
        }
    }
    assert!(fresh.written_by("tool-cases") == files);
}

#[test]
fn a_directory_that_cannot_be_written_is_said() {
    for command in ["golden", "tool-cases"] {
        let ended = second(&[command, "/dev/null/here"], b"");
        assert_eq!(ended.status.code(), Some(1), "{command}");
        assert!(ended.stdout.is_empty());
        assert!(ended.stderr.starts_with(b"second: "), "{command}");
    }
}

#[test]
fn anything_else_gives_a_usage_line_and_status_2() {
    let wrong: [&[&str]; 15] = [
        &[],
        &[""],
        &["case"],
        &["cases", "more"],
        &["answers", "more"],
        &["edges", "more"],
        &["edge"],
        &["packs", "more"],
        &["pack"],
        &["--cases"],
        &["golden"],
        &["golden", "one", "two"],
        &["tool-cases"],
        &["tool-cases", "one", "two"],
        &["cards", "help"],
    ];
    for arguments in wrong {
        let output = second(arguments, b"");
        assert_eq!(output.status.code(), Some(2), "{arguments:?}");
        assert!(output.stdout.is_empty());
        assert!(output.stderr.starts_with(b"usage: second "));
    }
}
