//! The second implementation as a program; its first argument is a command.

use std::ffi::OsString;
use std::io::{self, Read, Write};
use std::path::Path;
use std::process::ExitCode;

use second::{cases, edges, golden, tool_cases};

const USAGE: &str = "usage: second cases | second answers <CASES | second edges | second packs \
                     | second golden DIRECTORY | second tool-cases DIRECTORY";

fn read_all() -> io::Result<Vec<u8>> {
    let mut input = Vec::new();
    io::stdin().lock().read_to_end(&mut input)?;
    Ok(input)
}

fn write_all(output: &str) -> io::Result<()> {
    let mut out = io::stdout().lock();
    out.write_all(output.as_bytes())?;
    out.flush()
}

/// Runs the command in `arguments`; answers whether there is such a command.
fn run(arguments: &[OsString]) -> io::Result<bool> {
    let Some((command, words)) = arguments.split_first() else {
        return Ok(false);
    };
    match (command.to_str().unwrap_or(""), words) {
        ("cases", []) => write_all(&cases::cases())?,
        ("answers", []) => write_all(&cases::answers(&read_all()?))?,
        ("edges", []) => write_all(&edges::edges())?,
        ("packs", []) => write_all(&edges::packs())?,
        ("golden", [directory]) => golden::write(Path::new(directory))?,
        ("tool-cases", [directory]) => tool_cases::write(Path::new(directory))?,
        _ => return Ok(false),
    }
    Ok(true)
}

fn main() -> ExitCode {
    let arguments: Vec<_> = std::env::args_os().skip(1).collect();
    match run(&arguments) {
        Ok(true) => ExitCode::SUCCESS,
        Ok(false) => {
            eprintln!("{USAGE}");
            ExitCode::from(2)
        }
        Err(error) => {
            eprintln!("second: {error}");
            ExitCode::FAILURE
        }
    }
}
