//! Key books at the edges: of every length and order that is refused, and of
//! some that are not.
//!
//! The line of a lookup is `key THIS LAST CLASS NUMBER PART BOOK OFFSET`. THIS
//! and LAST say by number which kind of book is lent as this term's and as last
//! term's; what was answered follows. PART is the key, or `-` for none.

use super::filled;
use crate::books::{find, part, Found};
use crate::lines::{print_field, Order};

/// The bytes of the buffers that books are lent from, a count and three
/// entries.
const BUFFER: usize = 56;

/// How a book is made: its count, its length in bytes, and the class numbers at
/// the places of the three entries.
#[derive(Clone, Copy)]
struct Kind(u16, usize, [u16; 3]);

const KINDS: [Kind; 13] = [
    Kind(0, 0, [0, 0, 0]),
    Kind(0, 1, [0, 0, 0]),
    Kind(0, 2, [0, 0, 0]),
    Kind(0, 3, [0, 0, 0]),
    Kind(1, 20, [7, 0, 0]),
    Kind(1, 19, [7, 0, 0]),
    Kind(3, 56, [7, 256, 65_535]),
    Kind(3, 56, [7, 7, 300]),
    Kind(3, 56, [300, 7, 400]),
    Kind(3, 56, [7, 300, 299]),
    Kind(3, 56, [0, 8, 256]),
    Kind(3, 38, [7, 256, 65_535]),
    Kind(2, 56, [7, 256, 65_535]),
];

const CLASSES: [u16; 4] = [0, 7, 256, 65_535];

/// The book of this kind, its keys filled with this salt.
fn book(salt: usize, Kind(count, len, classes): Kind) -> Vec<u8> {
    let mut buffer = filled(salt, BUFFER);
    let mut put = |place: usize, number: u16| {
        buffer[place..place + 2].copy_from_slice(&number.to_le_bytes());
    };
    put(0, count);
    for (e, class) in classes.into_iter().enumerate() {
        put(2 + 18 * e, class);
    }
    buffer.truncate(len);
    buffer
}

/// The line of a lookup in books of these kinds.
fn line(
    [this, last]: [usize; 2],
    class: u16,
    find: impl Fn(&[u8], &[u8], u16) -> Found,
    part: impl for<'a> Fn(&'a [u8], &'a [u8], u16) -> &'a [u8],
) -> String {
    let [this_term, last_term] = [book(5, KINDS[this]), book(6, KINDS[last])];
    let Found {
        number,
        book,
        offset,
    } = find(&this_term, &last_term, class);
    let part = part(&this_term, &last_term, class);
    let part = print_field(part, Order::ByteZeroFirst);
    format!("key {this} {last} {class} {number} {part} {book} {offset}")
}

/// All lines of key books.
pub fn lines() -> Vec<String> {
    let mut list = Vec::new();
    for this in 0..KINDS.len() {
        for last in 0..KINDS.len() {
            for class in CLASSES {
                list.push(line([this, last], class, find, part));
            }
        }
    }
    list
}

#[cfg(test)]
mod tests {
    use super::super::tests::{fields, with_number};
    use super::*;

    /// Four kinds are well formed: 2 without a class, 4 with 7, 6 with 7, 256
    /// and 65,535, and 10 with 0, 8 and 256. So one of the four holds class 0,
    /// two hold 7, two 256 and one 65,535.
    #[test]
    fn every_number_comes_as_often_as_it_was_meant_to() {
        let lines = lines();
        assert_eq!(lines.len(), 13 * 13 * 4);
        assert!(lines.iter().all(|line| fields(line).len() == 8));
        assert_eq!(with_number(&lines, 4, 10), (13 * 13 - 4 * 4) * 4);
        // Both books are among the kinds without the class.
        assert_eq!(with_number(&lines, 4, 11), 9 + 4 + 4 + 9);
        // This term's book is among those with it, or last term's alone is.
        let in_this = 4 + 8 + 8 + 4;
        let in_last = 3 + 4 + 4 + 3;
        assert_eq!(with_number(&lines, 4, 0), in_this + in_last);
        assert_eq!(with_number(&lines, 6, 1), in_last);
        assert_eq!(with_number(&lines, 6, 0), lines.len() - in_last);
        let keys = lines.iter().filter(|line| fields(line)[5].len() == 32);
        assert_eq!(keys.count(), in_this + in_last);
        let nothing = lines.iter().filter(|line| fields(line)[5] == "-");
        assert_eq!(nothing.count(), lines.len() - in_this - in_last);
    }

    #[test]
    fn lookups_come_in_their_order() {
        let lines = lines();
        let starts = |n: usize, front: &str| {
            assert!(lines[n].starts_with(front), "{}", lines[n]);
        };
        starts(0, "key 0 0 0 ");
        starts(1, "key 0 0 7 ");
        starts(2, "key 0 0 256 ");
        starts(3, "key 0 0 65535 ");
        starts(4, "key 0 1 0 ");
        starts(51, "key 0 12 65535 ");
        starts(52, "key 1 0 0 ");
        starts(675, "key 12 12 65535 ");
    }

    #[test]
    fn books_are_made_by_their_rule() {
        assert!(book(5, KINDS[0]).is_empty());
        assert_eq!(book(5, KINDS[1]), [0]);
        assert_eq!(book(6, KINDS[3]), [0, 0, 0]);
        let one = book(5, KINDS[4]);
        // 5 + 29·4 = 121 and 5 + 29·19 = 556 = 2·256 + 44.
        assert_eq!((one.len(), &one[..5]), (20, &[1, 0, 7, 0, 121][..]));
        assert_eq!(one[19], 44);
        let three = book(6, KINDS[6]);
        assert_eq!(three.len(), 56);
        assert_eq!((three[0], three[1]), (3, 0));
        // 6 + 29·4 = 122, 6 + 29·22 = 644 = 2·256 + 132 and 6 + 29·55 = 1601 =
        // 6·256 + 65; class 256 at 20 and class 65,535 at 38.
        assert_eq!((three[4], &three[20..23]), (122, &[0, 1, 132][..]));
        assert_eq!((three[38], three[39], three[55]), (255, 255, 65));
    }

    /// The line of a made-up lookup that notes what it was lent.
    #[test]
    fn both_questions_are_about_the_same_books_and_class() {
        let find = |this: &[u8], last: &[u8], class: u16| {
            assert_eq!((this, last, class), (&[0, 0][..], &[0][..], 9));
            Found {
                number: 12,
                book: 3,
                offset: 45,
            }
        };
        fn last_terms<'a>(this: &'a [u8], last: &'a [u8], class: u16) -> &'a [u8] {
            assert_eq!((this, last, class), (&[0, 0][..], &[0][..], 9));
            last
        }
        assert_eq!(line([2, 1], 9, find, last_terms), "key 2 1 9 12 00 3 45");
    }

    #[test]
    fn lines_show_what_the_document_says() {
        let of = |kinds: [usize; 2], class: u16| line(kinds, class, find, part);
        // Sixteen bytes from place 4 on, and from place 22 on.
        let [this, last] = [5, 6].map(|salt| {
            let bytes = filled(salt, 38);
            [&bytes[4..20], &bytes[22..]].map(|key| print_field(key, Order::ByteZeroFirst))
        });
        assert_eq!(of([4, 6], 7), format!("key 4 6 7 0 {} 0 4", this[0]));
        assert_eq!(of([10, 6], 7), format!("key 10 6 7 0 {} 1 4", last[0]));
        assert_eq!(of([6, 6], 256), format!("key 6 6 256 0 {} 0 22", this[1]));
        assert_eq!(of([4, 6], 256), format!("key 4 6 256 0 {} 1 22", last[1]));
        assert_eq!(of([4, 4], 256), "key 4 4 256 11 - 0 0");
        assert_eq!(of([4, 5], 7), "key 4 5 7 10 - 0 0");
        assert_eq!(of([7, 4], 7), "key 7 4 7 10 - 0 0");
    }
}
