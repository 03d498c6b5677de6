//! What declarations say, in whichever language.

use std::collections::BTreeMap;

/// What goes in or out of a function, or is a field of a struct.
#[derive(Clone, Debug, PartialEq, Eq)]
pub enum Kind {
    /// A buffer that is only read, or a pointer to one.
    Read,
    /// A list of 64-bit numbers that is only read, or a pointer to one.
    Listed,
    /// A buffer that may be written, or a pointer to one.
    Written,
    Bool,
    U16,
    U32,
    U64,
    Size,
    Bytes(u64),
    /// By value; named as in C, but `SomeName` and without the prefix.
    Struct(String),
}

/// Names and kinds, in their order.
pub type Named = Vec<(String, Kind)>;

#[derive(Clone, Debug, PartialEq, Eq)]
pub struct Function {
    pub parameters: Named,
    pub result: Kind,
}

pub type Functions = BTreeMap<String, Function>;

pub type Structs = BTreeMap<String, Named>;

impl Kind {
    /// Whether it is lent: in C a pointer, and then how much there is.
    pub fn is_lent(&self) -> bool {
        matches!(self, Kind::Read | Kind::Listed | Kind::Written)
    }
}

/// Puts the buffers of C or Rust together. Each is a pointer and then a length
/// named after it; no length stands alone. Sizes with other names are numbers.
pub fn with_buffers(parameters: Named) -> Named {
    let mut together = Named::new();
    let mut rest = parameters.into_iter();
    while let Some((name, kind)) = rest.next() {
        match kind {
            _ if kind.is_lent() => {
                let length = Some((format!("{name}_len"), Kind::Size));
                assert_eq!(rest.next(), length, "what follows the pointer {name}");
            }
            Kind::Size if name.ends_with("_len") => panic!("{name} is the length of no buffer"),
            _ => {}
        }
        together.push((name, kind));
    }
    together
}

/// Gives the parameter `old` of a function the name `new`, if it is there.
pub fn rename(functions: &mut Functions, [function, old, new]: [&str; 3]) {
    let Some(found) = functions.get_mut(function) else {
        return;
    };
    for (name, _) in &mut found.parameters {
        if name == old {
            *name = new.to_string();
        }
    }
}

/// Adds what has not been declared before.
pub fn declare<T>(all: &mut BTreeMap<String, T>, name: String, declared: T) {
    let before = all.insert(name.clone(), declared);
    assert!(before.is_none(), "{name} is declared twice");
}

/// `SOME_NAME` or `some_name` as `SomeName`.
pub fn camel_case(name: &str) -> String {
    let word = |word: &str| word[..1].to_uppercase() + &word[1..].to_lowercase();
    name.split('_').map(word).collect()
}

/// Says where the two differ, name by name.
pub fn differences<T: PartialEq + std::fmt::Debug>(
    [left, right]: [(&str, &BTreeMap<String, T>); 2],
) -> Vec<String> {
    let names = left
        .1
        .keys()
        .chain(right.1.keys().filter(|name| !left.1.contains_key(*name)));
    let both = names.map(|name| (name, left.1.get(name), right.1.get(name)));
    both.filter(|(_, of_left, of_right)| of_left != of_right)
        .map(|(name, of_left, of_right)| {
            format!(
                "{name}: {} has {of_left:?}, {} has {of_right:?}",
                left.0, right.0
            )
        })
        .collect()
}
