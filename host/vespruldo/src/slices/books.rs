//! The lookup in two key books.

use crate::archive::Found;
use crate::refusal::{result_of, Refusal};
use crate::sizes::KEY_BYTES;

/// What may be refused.
const PROMISED: [Refusal; 2] = [Refusal::BookForm, Refusal::ClassMissing];

/// Looks up the key of `class` in two key books, this term's and last term's.
/// The 16 bytes handed back are that part of the book itself; if both books have
/// an entry for the class, this term's book wins.
///
/// A key book is a count of two bytes, then for each entry a class number of
/// two bytes and a key of 16, all numbers little-endian. Both books are judged
/// whole before either is searched.
///
/// ```
/// use vespruldo::Refusal;
///
/// let entry = |class: u16, key: [u8; 16]| [&class.to_le_bytes()[..], &key].concat();
/// let this_term = [vec![1, 0], entry(7, [1; 16])].concat();
/// let last_term = [vec![2, 0], entry(7, [2; 16]), entry(300, [3; 16])].concat();
///
/// assert_eq!(vespruldo::slices::find_key(&this_term, &last_term, 7)?, [1; 16]);
/// assert_eq!(vespruldo::slices::find_key(&this_term, &last_term, 300)?, [3; 16]);
/// let missing = vespruldo::slices::find_key(&this_term, &last_term, 8);
/// assert_eq!(missing, Err(Refusal::ClassMissing));
///
/// // The first book would do, but the second has lost a byte.
/// let refused = vespruldo::slices::find_key(&this_term, &last_term[..37], 7);
/// assert_eq!(refused, Err(Refusal::BookForm));
/// # Ok::<(), Refusal>(())
/// ```
///
/// # Errors
///
/// The first of these that applies: [`Refusal::BookForm`] if either book is not
/// 2 + 18·count bytes long or its class numbers do not strictly rise,
/// [`Refusal::ClassMissing`] if neither has an entry for the class.
pub fn find_key<'a>(
    this_term: &'a [u8],
    last_term: &'a [u8],
    class: u16,
) -> Result<&'a [u8], Refusal> {
    find_part(this_term, last_term, class).map(<[u8; KEY_BYTES]>::as_slice)
}

/// [`find_key`], with the length of what is found in its type.
pub(crate) fn find_part<'a>(
    this_term: &'a [u8],
    last_term: &'a [u8],
    class: u16,
) -> Result<&'a [u8; KEY_BYTES], Refusal> {
    let found = call!(vespruldo_key_find: this_term, last_term; class;);
    part(&found, this_term, last_term)
}

/// The part of the books that an answer of the archive speaks of.
///
/// # Panics
///
/// On an answer that the archive does not promise: any other 16 bytes are not
/// the key of the class.
fn part<'a>(
    found: &Found,
    this_term: &'a [u8],
    last_term: &'a [u8],
) -> Result<&'a [u8; KEY_BYTES], Refusal> {
    result_of(found.number, &PROMISED)?;
    let Found { book, offset, .. } = found;
    let lent = match book {
        0 => Some(this_term),
        1 => Some(last_term),
        _ => None,
    };
    let key = lent
        .and_then(|lent| lent.get(*offset..))
        .and_then(<[u8]>::first_chunk);
    match key {
        Some(key) => Ok(key),
        None => panic!("the archive answered place {offset} of book {book}, where no key can be"),
    }
}

#[cfg(test)]
mod tests {
    use super::*;

    /// What is made of an answer, over books of 20 and 38 bytes.
    fn part_of(number: u32, book: u32, offset: usize) -> Result<Vec<u8>, Refusal> {
        let this_term: Vec<u8> = (0..20).collect();
        let last_term: Vec<u8> = (100..138).collect();
        let found = Found {
            number,
            book,
            offset,
        };
        part(&found, &this_term, &last_term).map(|key| key.to_vec())
    }

    #[test]
    fn part_is_sixteen_bytes_from_the_place_on() {
        assert_eq!(part_of(0, 0, 4), Ok((4..20).collect()));
        assert_eq!(part_of(0, 1, 4), Ok((104..120).collect()));
        assert_eq!(part_of(0, 1, 22), Ok((122..138).collect()));
    }

    #[test]
    fn refusals_hand_nothing_back() {
        assert_eq!(part_of(10, 0, 0), Err(Refusal::BookForm));
        assert_eq!(part_of(11, 0, 0), Err(Refusal::ClassMissing));
    }

    #[test]
    #[should_panic(expected = "the archive answered 9,")]
    fn a_number_not_promised_is_not_swallowed() {
        let _ = part_of(9, 0, 4);
    }

    #[test]
    #[should_panic(expected = "place 4 of book 2")]
    fn a_third_book_is_not_swallowed() {
        let _ = part_of(0, 2, 4);
    }

    #[test]
    #[should_panic(expected = "place 5 of book 0")]
    fn a_part_across_the_end_is_not_swallowed() {
        let _ = part_of(0, 0, 5);
    }

    #[test]
    #[should_panic(expected = "place 18446744073709551615 of book 1")]
    #[cfg(target_pointer_width = "64")]
    fn a_place_beyond_all_books_is_not_swallowed() {
        let _ = part_of(0, 1, usize::MAX);
    }
}
