//! The header's declarations.

use std::collections::{BTreeMap, BTreeSet};

use crate::model::{camel_case, declare, with_buffers, Function, Functions, Kind, Named, Structs};
use crate::preprocessor::Defined;
use crate::tokens::Tokens;

const PREFIX: &str = "vespruldo_";

#[derive(Default)]
pub struct Header {
    pub defined: Defined,
    /// By their names as `Kind::Struct` has them.
    pub structs: Structs,
    pub functions: Functions,
    /// What the header has itself, and the archive has not.
    pub own: BTreeSet<String>,
    /// What the numbers mean, by the names of the numbers.
    pub words: BTreeMap<String, String>,
    /// The function that whatever includes the header asks for.
    pub asks_for: String,
}

impl Header {
    pub fn of(text: &str) -> Header {
        let mut header = Header::default();
        let mut tokens = Tokens::of(&header.defined.preprocessed(text));
        while !tokens.at_end() {
            if tokens.take("typedef") {
                header.typedef(&mut tokens);
            } else {
                header.declaration(&mut tokens);
            }
        }
        header
    }

    /// The number with this name, without the prefix.
    pub fn number(&self, name: &str) -> u64 {
        self.defined.numbers[&format!("VESPRULDO_{name}")]
    }

    /// A type without `*`.
    fn kind(&self, name: &str) -> Kind {
        match name {
            "bool" => Kind::Bool,
            "uint16_t" => Kind::U16,
            "uint32_t" => Kind::U32,
            "uint64_t" => Kind::U64,
            "size_t" => Kind::Size,
            _ => {
                let name = struct_name(name);
                assert!(self.structs.contains_key(&name), "no struct {name}");
                Kind::Struct(name)
            }
        }
    }

    /// A struct, or a test that fails to compile where structs are packed.
    fn typedef(&mut self, tokens: &mut Tokens) {
        if tokens.take("char") {
            assert!(self.own.insert(tokens.name()), "a test is there twice");
            tokens.skip_group();
            tokens.expect(";");
            return;
        }
        tokens.expect("struct");
        let name = tokens.name();
        let mut fields = tokens.group();
        tokens.expect(&format!("{name} ;"));
        let mut named = Named::new();
        while !fields.at_end() {
            let type_name = fields.name();
            let field = fields.name();
            let kind = if type_name == "uint8_t" {
                let mut len = fields.group();
                Kind::Bytes(self.defined.numbers[&len.next()])
            } else {
                self.kind(&type_name)
            };
            fields.expect(";");
            named.push((field, kind));
        }
        declare(&mut self.structs, struct_name(&name), named);
    }

    /// A function of the archive, or what the header has itself.
    fn declaration(&mut self, tokens: &mut Tokens) {
        let told = self.attributes(tokens);
        if tokens.take("static") {
            self.own(tokens);
            return;
        }
        let result = self.kind(&tokens.name());
        let name = tokens.name();
        let mut rest = tokens.group();
        tokens.expect(";");
        let mut parameters = Named::new();
        while !rest.at_end() && !rest.take("void") {
            parameters.push(self.parameter(&mut rest));
            assert!(rest.take(",") || rest.at_end(), "{name}: {}", rest.here());
        }
        told_rightly(&name, &parameters, told);
        let parameters = with_buffers(parameters);
        declare(&mut self.functions, name, Function { parameters, result });
    }

    /// The attributes that stand here: what they say of the buffers whose first
    /// parameters have these numbers.
    fn attributes(&self, tokens: &mut Tokens) -> BTreeMap<u64, (&'static str, u64)> {
        let mut told = BTreeMap::new();
        loop {
            if self.defined.attributes.contains(tokens.peek()) {
                tokens.next();
            } else if let Some(access) = self.defined.accesses.get(tokens.peek()) {
                tokens.next();
                let mut places = tokens.group();
                let pointer = places.number();
                places.expect(",");
                let before = told.insert(pointer, (*access, places.number()));
                assert!(before.is_none(), "parameter {pointer} is told of twice");
            } else {
                return told;
            }
        }
    }

    fn parameter(&self, tokens: &mut Tokens) -> (String, Kind) {
        let constant = tokens.take("const");
        let type_name = tokens.name();
        if !constant && type_name != "uint8_t" {
            return (tokens.name(), self.kind(&type_name));
        }
        tokens.expect("*");
        let alone = tokens.take("VESPRULDO_RESTRICT");
        let name = tokens.name();
        assert!(alone != constant, "{name}: RESTRICT is for what is written");
        let kind = match (type_name.as_str(), constant) {
            ("uint8_t", true) => Kind::Read,
            ("uint8_t", false) => Kind::Written,
            ("uint64_t", true) => Kind::Listed,
            _ => panic!("{name}: not understood: the type {type_name}"),
        };
        (name, kind)
    }

    /// A helper, a constant, or what asks for the interface.
    fn own(&mut self, tokens: &mut Tokens) {
        if tokens.take("inline") {
            let mut name = tokens.next();
            while tokens.peek() != "(" {
                name = tokens.next();
            }
            tokens.skip_group();
            let body = tokens.group();
            if name == "vespruldo_words" {
                self.words = words(body);
            }
            assert!(self.own.insert(name), "a helper is there twice");
        } else if tokens.take("const") {
            tokens.expect("uint8_t");
            assert!(self.own.insert(tokens.name()), "a constant is there twice");
            tokens.skip_through(";");
        } else {
            tokens.expect("uint32_t ( * const vespruldo_asks_for ) ( void ) =");
            assert!(self.asks_for.is_empty(), "two interfaces are asked for");
            self.asks_for = tokens.name();
            tokens.expect(";");
        }
    }
}

/// What compilers are told of a function's buffers is what its parameters say: a
/// pointer to `const` is only read, and the parameter after it is the length.
fn told_rightly(name: &str, parameters: &Named, told: BTreeMap<u64, (&'static str, u64)>) {
    let mut buffers = BTreeMap::new();
    for (place, (parameter, kind)) in (1..).zip(parameters) {
        if kind.is_lent() {
            buffers.insert(place, (parameter, *kind != Kind::Written));
        }
    }
    let all = told.keys().eq(buffers.keys());
    assert!(all, "{name}: compilers are told of other buffers");
    for (place, (access, len)) in told {
        let (parameter, read) = buffers[&place];
        let right = len == place + 1 && read == (access == "read_only");
        assert!(right, "{name}: what compilers are told of {parameter}");
    }
}

/// The words of each number, from the body of the function that answers them.
fn words(mut body: Tokens) -> BTreeMap<String, String> {
    body.expect("switch ( number )");
    let mut cases = body.group();
    assert!(body.at_end(), "not understood: {}", body.here());
    let mut words = BTreeMap::new();
    while cases.take("case") {
        let name = cases.name();
        cases.expect(": return");
        declare(&mut words, name, cases.next().trim_matches('"').to_string());
        cases.expect(";");
    }
    cases.expect("default : return");
    cases.next();
    cases.expect(";");
    assert!(cases.at_end(), "not understood: {}", cases.here());
    words
}

/// The name in `Kind::Struct` of a struct with this name in C.
fn struct_name(name: &str) -> String {
    let own = name.strip_prefix(PREFIX);
    camel_case(own.unwrap_or_else(|| panic!("not understood: the type {name}")))
}

/// The name in C of a struct with this name in `Kind::Struct`.
pub fn c_name(name: &str) -> String {
    PREFIX.to_string() + &snake_case(name)
}

/// `SomeName` as `some_name`.
pub fn snake_case(name: &str) -> String {
    let mut snake = String::new();
    for c in name.chars() {
        if c.is_uppercase() && !snake.is_empty() {
            snake.push('_');
        }
        snake.extend(c.to_lowercase());
    }
    snake
}
