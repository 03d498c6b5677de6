//! The declarations of the crate over the archive.

use std::collections::BTreeMap;

use crate::model::{declare, with_buffers, Function, Functions, Kind, Named, Structs};
use crate::tokens::Tokens;

/// What the file of raw declarations has.
#[derive(Default)]
pub struct Archive {
    pub structs: Structs,
    pub functions: Functions,
}

/// `Drawn<N>` is two structs elsewhere: each length, and the name it has there.
const DRAWN: [(&str, &str); 2] = [("12", "Drawn"), ("48", "DrawnIv")];

impl Archive {
    pub fn of(text: &str) -> Archive {
        let mut archive = Archive::default();
        let mut tokens = Tokens::of(text);
        while !tokens.at_end() {
            skip_attributes(&mut tokens);
            if tokens.take("pub") {
                archive.structure(&mut tokens);
            } else {
                tokens.expect("extern \"C\"");
                archive.functions(tokens.group());
            }
        }
        archive
    }

    fn structure(&mut self, tokens: &mut Tokens) {
        tokens.expect("struct");
        let name = tokens.name();
        if !tokens.take("<") {
            declare(&mut self.structs, name, fields(tokens.group()));
            return;
        }
        tokens.expect("const N : usize >");
        assert_eq!(name, "Drawn", "the only struct of any length");
        let body = tokens.group();
        for (len, name) in DRAWN {
            let fields = fields(body.replaced("N", len));
            declare(&mut self.structs, name.to_string(), fields);
        }
    }

    fn functions(&mut self, mut tokens: Tokens) {
        while !tokens.at_end() {
            tokens.expect("pub fn");
            let name = tokens.name();
            let parameters = with_buffers(named(tokens.group()));
            tokens.expect("- >");
            let result = kind(&mut tokens);
            tokens.expect(";");
            declare(&mut self.functions, name, Function { parameters, result });
        }
    }
}

fn skip_attributes(tokens: &mut Tokens) {
    while tokens.take("#") {
        tokens.skip_group();
    }
}

/// The fields of a struct, all of them public.
fn fields(mut tokens: Tokens) -> Named {
    let mut fields = Named::new();
    while !tokens.at_end() {
        tokens.expect("pub");
        fields.push(one_named(&mut tokens));
    }
    fields
}

/// The parameters of a function.
fn named(mut tokens: Tokens) -> Named {
    let mut named = Named::new();
    while !tokens.at_end() {
        named.push(one_named(&mut tokens));
    }
    named
}

fn one_named(tokens: &mut Tokens) -> (String, Kind) {
    let name = tokens.name();
    tokens.expect(":");
    let kind = kind(tokens);
    assert!(tokens.take(",") || tokens.at_end(), "{}", tokens.here());
    (name, kind)
}

fn kind(tokens: &mut Tokens) -> Kind {
    if tokens.take("*") {
        if !tokens.take("const") {
            tokens.expect("mut u8");
            return Kind::Written;
        }
        if tokens.take("u64") {
            return Kind::Listed;
        }
        tokens.expect("u8");
        return Kind::Read;
    }
    if tokens.peek() == "[" {
        let mut array = tokens.group();
        array.expect("u8 ;");
        return Kind::Bytes(array.number());
    }
    match tokens.name().as_str() {
        "bool" => Kind::Bool,
        "u16" => Kind::U16,
        "u32" => Kind::U32,
        "u64" => Kind::U64,
        "usize" => Kind::Size,
        "Drawn" => {
            tokens.expect("<");
            let len = tokens.next();
            tokens.expect(">");
            let drawn = DRAWN.iter().find(|drawn| drawn.0 == len);
            Kind::Struct(drawn.expect("a length of Drawn").1.to_string())
        }
        name @ ("Drawer" | "Stored" | "Loaded" | "Batch" | "Found" | "PackCard" | "PackJudged"
        | "Streamed") => Kind::Struct(name.to_string()),
        other => panic!("not understood: the type {other}"),
    }
}

/// The lengths, from the file that has nothing else.
pub fn sizes(text: &str) -> BTreeMap<String, u64> {
    let mut tokens = Tokens::of(text);
    let mut sizes = BTreeMap::new();
    while !tokens.at_end() {
        tokens.expect("pub const");
        let name = tokens.name();
        tokens.expect(": usize =");
        declare(&mut sizes, name, tokens.number());
        tokens.expect(";");
    }
    sizes
}
