//! Tells the linker where the libraries for x86-64 lie when another machine
//! builds for it.

use std::env;

/// Where Debian keeps libraries for x86-64, whatever the machine is.
const X86_64_LIBRARIES: &str = "/usr/lib/x86_64-linux-gnu";

fn main() {
    let host = env::var("HOST").expect("cargo names the host");
    let target = env::var("TARGET").expect("cargo names the target");
    // The machine's own linker knows its own libraries.
    if host != target && target.starts_with("x86_64-") {
        println!("cargo:rustc-link-search=native={X86_64_LIBRARIES}");
    }
    println!("cargo:rerun-if-changed=build.rs");
}
