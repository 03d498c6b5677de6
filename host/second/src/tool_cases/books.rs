//! Key books: "the key is that of this class in this term's key book, or else in
//! last term's" (docs/cards.1, OPTIONS).

use super::run::Form::Any;
use super::Cases;
use crate::{books, card};

/// The class that is looked up, and the classes of two books; the second may
/// not be given.
type Lookup = (u16, &'static [u16], Option<&'static [u16]>);

const LOOKUPS: [Lookup; 8] = [
    (7, &[3, 7, 900], Some(&[5, 8])),
    (7, &[3, 900], Some(&[0, 7])),
    (7, &[6, 7, 8], Some(&[7])),
    (0, &[0, 1, 256], None),
    (65_535, &[], Some(&[65_534, 65_535])),
    (7, &[6, 8, 263, 1792], Some(&[6, 8])),
    (7, &[0], None),
    (0, &[], Some(&[])),
];

/// "The number of entries in two bytes, low one first; for each a class in two
/// bytes, low one first, and a key of 16."
fn book(cases: &mut Cases, classes: &[u16]) -> Vec<u8> {
    let mut book = (classes.len() as u16).to_le_bytes().to_vec();
    for class in classes {
        book.extend(class.to_le_bytes());
        book.extend(cases.random.sixteen());
    }
    book
}

/// Ways in which a book is badly formed: without its count, cut, longer, with a
/// count that is too large or too small, with a class twice, with one that falls.
fn badly_formed(cases: &mut Cases) -> [Vec<u8>; 7] {
    let good = book(cases, &[3, 7, 900]);
    let [mut larger, mut smaller] = [good.clone(), good.clone()];
    larger[0] += 1;
    smaller[0] -= 1;
    let cut = 2 + cases.random.below(good.len() - 2);
    [
        good[..cases.random.below(2)].to_vec(),
        good[..cut].to_vec(),
        [&good[..], &[0]].concat(),
        larger,
        smaller,
        book(cases, &[3, 7, 7]),
        book(cases, &[7, 263, 262]),
    ]
}

/// A run that seals with the key of this class.
fn sealed(
    cases: &mut Cases,
    class: u16,
    this_term: &[u8],
    last_term: Option<&[u8]>,
    bad: &'static str,
) {
    let [nonce, text] = [12, 40].map(|len| cases.random.bytes(len));
    let other = last_term.unwrap_or(&[0, 0]);
    let found = books::find(this_term, other, class).number;
    let zeros = cases.random.pick(&["", "", "0", "000000000000000000000"]);
    let mut run = cases.run("seal");
    run.input("book", this_term, Any);
    if let Some(last_term) = last_term {
        run.input("last-book", last_term, Any);
    }
    run.option("class", &format!("{zeros}{class}"));
    run.input("nonce", &nonce, Any);
    run.input("in", &text, Any);
    let key = books::part(this_term, other, class);
    match found {
        0 => run.gives(card::seal(key, &nonce, &[], &text), "in"),
        11 => run.refused(11, "class"),
        number => run.refused(number, bad),
    }
}

pub fn add(cases: &mut Cases) {
    for (class, this_term, last_term) in LOOKUPS {
        let this_term = book(cases, this_term);
        let last_term = last_term.map(|classes| book(cases, classes));
        sealed(cases, class, &this_term, last_term.as_deref(), "");
    }
    for bad in badly_formed(cases) {
        let good = book(cases, &[7, 900]);
        // Also where the other book has the class, and where neither has it.
        let class = cases.random.pick(&[7, 8]);
        sealed(cases, class, &bad, Some(&good), "book");
        sealed(cases, class, &good, Some(&bad), "last-book");
    }
}
