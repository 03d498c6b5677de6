//! The interface: what a program that was compiled with an older header relies
//! on. It is recorded in a file, whose entries are only ever added to.

use std::collections::BTreeMap;

use crate::c::{c_name, Header};
use crate::layout::layouts_in_rust;
use crate::model::{Function, Kind, Named};

/// The record of the interface that the header has now.
pub const RECORD: &str = "tests/agreement/interface_2.txt";

/// By the name of a function or struct: how it is declared.
type Entries = BTreeMap<String, String>;

/// A type as C writes it, with the star of a pointer.
fn c_type(kind: &Kind) -> String {
    match kind {
        Kind::Read => "const uint8_t *".to_string(),
        Kind::Listed => "const uint64_t *".to_string(),
        Kind::Written => "uint8_t *".to_string(),
        Kind::Bool => "bool ".to_string(),
        Kind::U16 => "uint16_t ".to_string(),
        Kind::U32 => "uint32_t ".to_string(),
        Kind::U64 => "uint64_t ".to_string(),
        Kind::Size => "size_t ".to_string(),
        Kind::Bytes(_) => "uint8_t ".to_string(),
        Kind::Struct(name) => c_name(name) + " ",
    }
}

/// A function's declaration, a parameter or a buffer to the line.
fn function(name: &str, Function { parameters, result }: &Function) -> String {
    let mut lines: Vec<String> = parameters
        .iter()
        .map(|(parameter, kind)| {
            let length = if kind.is_lent() {
                format!(", size_t {parameter}_len")
            } else {
                String::new()
            };
            format!("    {}{parameter}{length}", c_type(kind))
        })
        .collect();
    if lines.is_empty() {
        lines.push("    void".to_string());
    }
    format!("{}{name}(\n{}\n);", c_type(result), lines.join(",\n"))
}

/// A struct's declaration, with where its fields lie in Rust, which the C compiler
/// is asked about elsewhere; what Rust has not lies nowhere.
fn structure(name: &str, fields: &Named) -> String {
    let layouts = layouts_in_rust();
    let layout = |name: &str| {
        let known = layouts.get(name);
        known.map_or(["nowhere".to_string(), String::new()], |two| {
            two.map(|number| number.to_string())
        })
    };
    let lines = fields.iter().map(|(field, kind)| {
        let [offset, _] = layout(&format!("{name}.{field}"));
        let len = match kind {
            Kind::Bytes(len) => format!("[{len}]"),
            _ => String::new(),
        };
        format!("    {}{field}{len}; at {offset}\n", c_type(kind))
    });
    let lines: String = lines.collect();
    let [size, align] = layout(name);
    format!("struct {name} {{\n{lines}}}; {size} bytes, aligned to {align}")
}

/// What the header has.
fn declared(header: &Header) -> Entries {
    let functions = header.functions.iter();
    let functions = functions.map(|(name, it)| (name.clone(), function(name, it)));
    let structs = header.structs.iter().map(|(name, fields)| {
        let name = c_name(name);
        let declared = structure(&name, fields);
        (name, declared)
    });
    functions.chain(structs).collect()
}

/// The name that an entry declares: that before its first bracket.
fn name_in(entry: &str) -> &str {
    let before = entry.split(['(', '{']).next().unwrap_or_default();
    before.split_whitespace().last().unwrap_or_default()
}

/// What the record has, with an empty line between entries; lines with `#` are
/// for people.
fn recorded(record: &str) -> Entries {
    let lines = record.lines().filter(|line| !line.starts_with('#'));
    let text = lines.collect::<Vec<_>>().join("\n");
    let entries = text.split("\n\n").map(str::trim);
    let mut all = Entries::new();
    for entry in entries.filter(|entry| !entry.is_empty()) {
        let before = all.insert(name_in(entry).to_string(), entry.to_string());
        assert!(before.is_none(), "{RECORD} has {} twice", name_in(entry));
    }
    all
}

/// Says of each function and struct whether it changed, went, or was added.
fn changes(declared: &Entries, recorded: &Entries, number: u64) -> Vec<String> {
    let next = number + 1;
    let count_up = format!(
        "a program compiled with the old header would still link, and fail when run: count \
         VESPRULDO_INTERFACE up to {next} in the header, name the archive's function, its \
         declarations and build.rs's number after it, and record interface {next} in a file of \
         its own"
    );
    let mut all = Vec::new();
    for (name, was) in recorded {
        match declared.get(name) {
            Some(is) if is == was => {}
            Some(is) => all.push(format!("{name} changed from\n{was}\nto\n{is}\n{count_up}")),
            None => all.push(format!("{name} is gone: {count_up}")),
        }
    }
    for (name, is) in declared {
        if !recorded.contains_key(name) {
            all.push(format!(
                "{name} is new, which needs no new number of the interface: add to {RECORD}\n{is}"
            ));
        }
    }
    all
}

/// Where the header's interface is not the recorded one, or has another number
/// than the archive's function, the record's file and the build script.
pub fn disagreements(header: &Header, record: &str, build: &str) -> Vec<String> {
    let number = header.number("INTERFACE");
    let mut all = changes(&declared(header), &recorded(record), number);
    let function = format!("vespruldo_interface_{number}");
    if header.asks_for != function || !header.functions.contains_key(&function) {
        all.push(format!(
            "the header does not declare and ask for {function}"
        ));
    }
    if !RECORD.ends_with(&format!("/interface_{number}.txt")) {
        all.push(format!("{RECORD} is not the record of interface {number}"));
    }
    if !build.contains(&format!("const INTERFACE: &str = \"{number}\";")) {
        all.push(format!(
            "build.rs looks for another interface than {number}"
        ));
    }
    all
}
