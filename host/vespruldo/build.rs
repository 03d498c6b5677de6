//! Finds the archive `libvespruldo.a`, of the interface that this crate was
//! written for, and has it linked.

use std::env;
use std::fs;
use std::path::{Path, PathBuf};
use std::process::exit;

const ARCHIVE: &str = "libvespruldo.a";
const DIR_VARIABLE: &str = "VESPRULDO_LIB_DIR";

/// An archive defines a function of this name and the number of its interface,
/// which is counted up when a signature or a struct changes.
const INTERFACE_NAME: &str = "vespruldo_interface_";
const INTERFACE: &str = "2";

/// Systems whose calls or whose files of machine code are others than those of
/// the archive: System V's calls, in ELF.
const OTHER_SYSTEMS: [&str; 3] = ["windows", "uefi", "cygwin"];
const OTHER_VENDOR: &str = "apple";

/// What cargo says of the target.
fn target(name: &str) -> String {
    env::var(format!("CARGO_CFG_TARGET_{name}")).unwrap_or_default()
}

/// Why the archive cannot be linked for this target, if so. A linker would say
/// it in words that nobody understands.
fn unfit_target() -> Option<String> {
    let name = env::var("TARGET").unwrap_or_default();
    if target("ARCH") != "x86_64" || target("POINTER_WIDTH") != "64" {
        return Some(format!(
            "x86-64 only: {ARCHIVE} cannot be linked for {name}"
        ));
    }
    let other = OTHER_SYSTEMS.contains(&target("OS").as_str()) || target("VENDOR") == OTHER_VENDOR;
    other.then(|| {
        format!(
            "x86-64 only, with System V's calls and in ELF, as on Linux: \
             {ARCHIVE} cannot be linked for {name}"
        )
    })
}

/// The directory to look in: the one the variable names, or else the one that
/// the build of the archive writes to. A relative name counts from this
/// crate's folder.
fn lib_dir(manifest_dir: &Path) -> PathBuf {
    match env::var_os(DIR_VARIABLE).filter(|dir| !dir.is_empty()) {
        Some(dir) => manifest_dir.join(dir),
        None => manifest_dir.join("../../target/staticlib"),
    }
}

/// The interfaces that are named in the bytes of an archive, where a zero byte
/// ends each name.
fn interfaces(bytes: &[u8]) -> Vec<String> {
    let name = INTERFACE_NAME.as_bytes();
    let places = (0..bytes.len()).filter(|&place| bytes[place..].starts_with(name));
    let mut numbers: Vec<String> = places
        .map(|place| {
            let rest = bytes[place + name.len()..].iter();
            let number: Vec<u8> = rest.copied().take_while(|&byte| byte != 0).collect();
            String::from_utf8_lossy(&number).into_owned()
        })
        .collect();
    numbers.sort();
    numbers.dedup();
    numbers
}

/// Why this file is not the archive to link, if so.
fn unfit_archive(archive: &Path) -> Option<String> {
    let shown = archive.display();
    if !archive.is_file() {
        return Some(format!(
            "{shown} is missing: run `make archive` in the repository's root first, \
             or name the archive's directory in {DIR_VARIABLE}"
        ));
    }
    let bytes = match fs::read(archive) {
        Ok(bytes) => bytes,
        Err(why) => return Some(format!("{shown} cannot be read: {why}")),
    };
    let found = interfaces(&bytes);
    if found.iter().any(|number| number == INTERFACE) {
        return None;
    }
    let found = match &found[..] {
        [] => "names none, as before 0.2.0".to_string(),
        numbers => format!("has {}", numbers.join(", ")),
    };
    let version = env::var("CARGO_PKG_VERSION").unwrap_or_default();
    Some(format!(
        "{shown} is not of interface {INTERFACE}, which vespruldo {version} calls; it {found}: \
         build both from one state of the repository (`make archive`), \
         or name the directory of the archive that belongs to this crate in {DIR_VARIABLE}"
    ))
}

fn refuse_if(unfit: Option<String>) {
    if let Some(why) = unfit {
        eprintln!("{why}");
        exit(1);
    }
}

fn main() {
    let manifest_dir = env::var_os("CARGO_MANIFEST_DIR").expect("cargo names the folder");
    let dir = lib_dir(Path::new(&manifest_dir));
    let archive = dir.join(ARCHIVE);
    println!("cargo:rerun-if-env-changed={DIR_VARIABLE}");
    println!("cargo:rerun-if-changed={}", archive.display());
    refuse_if(unfit_target());
    refuse_if(unfit_archive(&archive));
    println!("cargo:rustc-link-search=native={}", dir.display());
    println!("cargo:rustc-link-lib=static=vespruldo");
}
