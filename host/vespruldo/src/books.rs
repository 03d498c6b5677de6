//! The lookup in two key books, with the key's length in its type.

use crate::bytes::Key;
use crate::refusal::Refusal;
use crate::slices;

/// The key book without entries.
const NO_ENTRIES: [u8; 2] = [0, 0];

/// Looks up the key of `class` in this term's key book and, if that has none, in
/// last term's, if there is one. The key handed back is that part of the book
/// itself, not a copy, and stays there: nothing wipes it. If both books have an
/// entry for the class, this term's book wins.
///
/// A key book is a count of two bytes, then for each entry a class number of
/// two bytes and a key of 16, all numbers little-endian. Both books are judged
/// whole before either is searched.
///
/// ```
/// use vespruldo::{find_key, open, seal, Data, Drawer, Refusal};
///
/// let entry = |class: u16, key: [u8; 16]| [&class.to_le_bytes()[..], &key].concat();
/// let this_term = [vec![1, 0], entry(7, [1; 16])].concat();
/// let last_term = [vec![2, 0], entry(7, [2; 16]), entry(300, [3; 16])].concat();
///
/// let key = find_key(&this_term, Some(&last_term), 7)?;
/// assert_eq!(key.as_bytes(), &[1; 16]);
/// let sealed = seal(key, Drawer::start(42, 0).draw()?, Data(b"class 7"), b"Anna, desk 4")?;
/// assert_eq!(open(key, Data(b"class 7"), &sealed)?, b"Anna, desk 4");
///
/// let key = find_key(&this_term, Some(&last_term), 300)?;
/// assert_eq!(key.as_bytes(), &[3; 16]);
/// let missing = find_key(&this_term, None, 300);
/// assert_eq!(missing.err(), Some(Refusal::ClassMissing));
/// # Ok::<(), Refusal>(())
/// ```
///
/// # Errors
///
/// The first of these that applies: [`Refusal::BookForm`] if either book is not
/// 2 + 18·count bytes long or its class numbers do not strictly rise,
/// [`Refusal::ClassMissing`] if neither has an entry for the class.
pub fn find_key<'a>(
    this_term: &'a [u8],
    last_term: Option<&'a [u8]>,
    class: u16,
) -> Result<&'a Key, Refusal> {
    slices::find_part(this_term, last_term.unwrap_or(&NO_ENTRIES), class).map(Key::from_ref)
}

#[cfg(test)]
mod tests {
    use super::*;

    #[test]
    fn key_is_the_part_of_the_book_itself() {
        let this_term = [&[1, 0, 7, 0][..], &[1; 16]].concat();
        let last_term = [&[1, 0, 9, 0][..], &[2; 16]].concat();
        for (class, book) in [(7, &this_term), (9, &last_term)] {
            let key = find_key(&this_term, Some(&last_term), class).expect("a key");
            assert_eq!(key.as_bytes().as_ptr(), book[4..].as_ptr());
        }
        // What was lent is not wiped.
        assert_eq!((this_term[4], last_term[4]), (1, 2));
    }

    #[test]
    fn refusals_are_passed_on() {
        let refused = |this, last| find_key(this, last, 7).err();
        for last in [None, Some(&[0, 0][..])] {
            assert_eq!(refused(&[0, 0], last), Some(Refusal::ClassMissing));
            assert_eq!(refused(&[0], last), Some(Refusal::BookForm));
        }
        // No book is not a book of no bytes.
        assert_eq!(refused(&[0, 0], Some(&[])), Some(Refusal::BookForm));
    }

    #[test]
    fn one_book_is_enough() {
        let book = [&[1, 0, 7, 0][..], &[1; 16]].concat();
        let key = find_key(&book, None, 7).expect("a key");
        assert_eq!(key.as_bytes().as_ptr(), book[4..].as_ptr());
        assert_eq!(find_key(&book, None, 0).err(), Some(Refusal::ClassMissing));
    }
}
