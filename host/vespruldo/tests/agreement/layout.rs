//! Layouts, numbers and words as the C compiler sees them, beside those of Rust.

use std::collections::BTreeMap;
use std::fs;
use std::mem::{align_of, offset_of, size_of};
use std::path::{Path, PathBuf};

use vespruldo::archive::{
    Batch, Drawer, Drawn, Found, Loaded, PackCard, PackJudged, Stored, Streamed,
};
use vespruldo::Refusal;

use crate::c::{c_name, Header};
use crate::model::differences;
use crate::tokens::number;
use crate::tools::{archive, command, run};

/// By the name in C: of a struct its size and alignment, of a field its offset
/// and size.
pub type Layouts = BTreeMap<String, [u64; 2]>;

/// The words of which numbers are compared.
const NUMBERS: u32 = 256;

/// A program that prints a line for each struct, field and number of the
/// header, and the words of each number that is answered and of others.
fn program(header: &Header) -> String {
    let mut before = String::from("#include <stdio.h>\n#include \"vespruldo.h\"\n");
    let mut body = String::new();
    let mut print = |name: &str, values: &[String]| {
        body += &format!("    printf(\"{name}{}\\n\"", " %lu".repeat(values.len()));
        for value in values {
            body += &format!(", (unsigned long)({value})");
        }
        body += ");\n";
    };
    for (name, fields) in &header.structs {
        let name = c_name(name);
        // C99 has no word for the alignment: it is where the struct lies after
        // a single byte.
        before += &format!("struct after_{name} {{ char byte; {name} it; }};\n");
        let align = format!("offsetof(struct after_{name}, it)");
        print(&name, &[format!("sizeof({name})"), align]);
        for (field, _) in fields {
            let offset = format!("offsetof({name}, {field})");
            let size = format!("sizeof((({name} *)0)->{field})");
            print(&format!("{name}.{field}"), &[offset, size]);
        }
    }
    for name in header.defined.numbers.keys() {
        print(name, &[name.to_string()]);
    }
    for number in 0..NUMBERS {
        let words = format!("vespruldo_words({number})");
        body += &format!("    printf(\"{number}: %s\\n\", {words});\n");
    }
    format!("{before}int main(void)\n{{\n{body}    return 0;\n}}\n")
}

/// What the program prints when it is compiled with this header. Where tests are
/// built for another machine, `CC` names its compiler and `VESPRULDO_RUNNER` what
/// runs its programs.
fn printed(text: &str, header: &Header) -> String {
    let dir: PathBuf = Path::new(env!("CARGO_TARGET_TMPDIR")).join("agreement");
    fs::create_dir_all(&dir).expect("a folder for the program");
    fs::write(dir.join("vespruldo.h"), text).expect("the header");
    fs::write(dir.join("layout.c"), program(header)).expect("the program");
    let in_dir = |name: &str| dir.join(name).display().to_string();
    let mut compile = command("CC", "cc");
    compile
        .extend(["-std=c99", "-Wall", "-Wextra", "-Werror", "-pedantic", "-o"].map(String::from));
    compile.extend(["layout", "layout.c"].map(in_dir));
    // The header asks for the archive's interface.
    compile.push(archive());
    run(&compile);
    let mut start = command("VESPRULDO_RUNNER", "");
    start.push(in_dir("layout"));
    run(&start)
}

fn size_of_field<S, F>(_: fn(&S) -> &F) -> u64 {
    size_of::<F>() as u64
}

/// The entries of a struct and of its fields.
macro_rules! layouts {
    ($name:literal, $type:ty, $($field:ident)*) => {
        [
            ($name.to_string(), [size_of::<$type>() as u64, align_of::<$type>() as u64]),
            $((
                concat!($name, ".", stringify!($field)).to_string(),
                [
                    offset_of!($type, $field) as u64,
                    size_of_field(|whole: &$type| &whole.$field),
                ],
            ),)*
        ]
    };
}

pub fn layouts_in_rust() -> Layouts {
    let mut all = Layouts::new();
    all.extend(layouts!("vespruldo_drawer", Drawer, reader count));
    all.extend(layouts!("vespruldo_drawn", Drawn<12>, number bytes next));
    all.extend(layouts!("vespruldo_drawn_iv", Drawn<48>, number bytes next));
    all.extend(layouts!("vespruldo_stored", Stored, bytes));
    all.extend(layouts!("vespruldo_loaded", Loaded, number drawer));
    all.extend(layouts!("vespruldo_batch", Batch, number next));
    all.extend(layouts!("vespruldo_found", Found, number book offset));
    let pack_card = layouts!("vespruldo_pack_card", PackCard, number kind start length bad next);
    all.extend(pack_card);
    all.extend(layouts!("vespruldo_pack_judged", PackJudged, number cards bad));
    all.extend(layouts!("vespruldo_streamed", Streamed, number next));
    all
}

/// What Rust says of each number.
fn words_in_rust() -> BTreeMap<String, String> {
    let words = |number: u32| match Refusal::try_from(number) {
        Ok(refusal) => refusal.to_string(),
        Err(_) if number == 0 => "done".to_string(),
        Err(why) => why.to_string().replace(&format!("{number} is "), ""),
    };
    let all = (0..NUMBERS).map(|number| (number.to_string(), words(number)));
    all.collect()
}

/// Where the C compiler with this header and Rust, or the C compiler and the
/// reading of the header, do not agree.
pub fn disagreements(text: &str) -> Vec<String> {
    let header = Header::of(text);
    let mut layouts = Layouts::new();
    let mut numbers = BTreeMap::new();
    let mut all_words = BTreeMap::new();
    for line in printed(text, &header).lines() {
        if let Some((number, words)) = line.split_once(": ") {
            all_words.insert(number.to_string(), words.to_string());
            continue;
        }
        let words: Vec<&str> = line.split(' ').collect();
        match words[..] {
            [name, value] => {
                numbers.insert(name.to_string(), number(value));
            }
            [name, first, second] => {
                let values = [first, second].map(number);
                layouts.insert(name.to_string(), values);
            }
            _ => panic!("not understood: {line}"),
        }
    }
    let of_header = &header.defined.numbers;
    [
        differences([("C", &layouts), ("Rust", &layouts_in_rust())]),
        differences([("C", &numbers), ("the header", of_header)]),
        differences([("C", &all_words), ("Rust", &words_in_rust())]),
    ]
    .concat()
}
