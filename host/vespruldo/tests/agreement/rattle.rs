//! The functions that the Rattle source exports.

use crate::model::{declare, Function, Functions, Kind, Named};
use crate::tokens::Tokens;

/// The functions of a file that has nothing but them and what they use.
pub fn functions(text: &str) -> Functions {
    let mut functions = Functions::new();
    let mut tokens = Tokens::of(text);
    if tokens.take("#") {
        tokens.expect("! [ tactic ( auto ) ]");
    }
    while !tokens.at_end() {
        if tokens.take("ghost") || tokens.peek() == "use" {
            tokens.expect("use");
            tokens.skip_through(";");
            continue;
        }
        if tokens.take("mod") {
            tokens.skip_through(";");
            continue;
        }
        tokens.expect("# [ unsafe ( no_mangle ) ] pub extern \"C\" fn");
        let name = tokens.name();
        let parameters = parameters(tokens.group());
        tokens.expect("- >");
        let result = kind(&mut tokens);
        // The promise, then the body.
        tokens.expect("ensures");
        tokens.skip_group();
        tokens.skip_group();
        declare(&mut functions, name, Function { parameters, result });
    }
    functions
}

fn parameters(mut tokens: Tokens) -> Named {
    let mut parameters = Named::new();
    while !tokens.at_end() {
        let name = tokens.name();
        tokens.expect(":");
        parameters.push((name, kind(&mut tokens)));
        assert!(tokens.take(",") || tokens.at_end(), "{}", tokens.here());
    }
    parameters
}

fn kind(tokens: &mut Tokens) -> Kind {
    if tokens.take("&") {
        if tokens.take("mut") {
            tokens.expect("[ u8 ]");
            return Kind::Written;
        }
        tokens.expect("[");
        let listed = tokens.take("u64");
        tokens.expect(if listed { "]" } else { "u8 ]" });
        return if listed { Kind::Listed } else { Kind::Read };
    }
    match tokens.name().as_str() {
        "bool" => Kind::Bool,
        "u16" => Kind::U16,
        "u32" => Kind::U32,
        "u64" => Kind::U64,
        "usize" => Kind::Size,
        name @ ("Drawer" | "Drawn" | "DrawnIv" | "Stored" | "Loaded" | "Batch" | "Found"
        | "PackCard" | "PackJudged" | "Streamed") => Kind::Struct(name.to_string()),
        other => panic!("not understood: the type {other}"),
    }
}
