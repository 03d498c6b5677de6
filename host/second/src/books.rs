//! The lookup in two key books (document 01, Drawer and key books).

/// The bytes of a book's count, and of a class number.
const TWO: usize = 2;

/// The bytes of a key.
const KEY: usize = 16;

/// The bytes of an entry, "a class number of two bytes, little-endian, and a
/// 16-byte key".
const ENTRY: usize = TWO + KEY;

/// A class number, and where in its book the class's key starts.
struct Entry {
    class: u16,
    key: usize,
}

/// Where a key is: the document's number, the book, 0 for this term's and 1 for
/// last term's, and the key's place in it. Both are 0 unless the number is.
#[derive(Clone, Copy, Debug, PartialEq, Eq)]
pub struct Found {
    pub number: u32,
    pub book: u32,
    pub offset: usize,
}

/// The two bytes at `place`, little-endian.
fn two_bytes(book: &[u8], place: usize) -> u16 {
    u16::from_le_bytes([book[place], book[place + 1]])
}

/// The entries of a book, or nothing if it is badly formed. "It is well formed
/// when its length is 2 + 18·count and class numbers strictly rise."
fn entries(book: &[u8]) -> Option<Vec<Entry>> {
    // Without two bytes there is no count.
    if book.len() < TWO {
        return None;
    }
    let count = usize::from(two_bytes(book, 0));
    if book.len() != TWO + ENTRY * count {
        return None;
    }
    let entry = |n| {
        let place = TWO + ENTRY * n;
        Entry {
            class: two_bytes(book, place),
            key: place + TWO,
        }
    };
    let entries: Vec<Entry> = (0..count).map(entry).collect();
    let rises = |pair: &[Entry]| pair[0].class < pair[1].class;
    entries.windows(2).all(rises).then_some(entries)
}

/// Where the key of `class` starts, if the class has an entry.
fn key_of(entries: &[Entry], class: u16) -> Option<usize> {
    let entry = entries.iter().find(|entry| entry.class == class);
    entry.map(|entry| entry.key)
}

/// Looks `class` up in both books; "this term's book wins". Answers document
/// 01's number: 0 found, 10 "either key book badly formed", 11 "neither book
/// has an entry for the class".
pub fn find(this_term: &[u8], last_term: &[u8], class: u16) -> Found {
    let refused = |number| Found {
        number,
        book: 0,
        offset: 0,
    };
    // Both are judged whole before either is searched: "the smallest number is
    // given".
    let (Some(this), Some(last)) = (entries(this_term), entries(last_term)) else {
        return refused(10);
    };
    for (book, entries) in [(0, this), (1, last)] {
        if let Some(offset) = key_of(&entries, class) {
            return Found {
                number: 0,
                book,
                offset,
            };
        }
    }
    refused(11)
}

/// "The key handed back is that part of the book itself"; refused, "an empty
/// part is handed back". "The part is 16 bytes long exactly when the number is
/// 0."
pub fn part<'a>(this_term: &'a [u8], last_term: &'a [u8], class: u16) -> &'a [u8] {
    let found = find(this_term, last_term, class);
    if found.number != 0 {
        return &[];
    }
    let book = [this_term, last_term][found.book as usize];
    &book[found.offset..found.offset + KEY]
}

#[cfg(test)]
mod tests {
    use super::*;

    /// The book with these entries; each key is sixteen times one byte.
    fn book(entries: &[(u16, u8)]) -> Vec<u8> {
        let mut book = vec![entries.len() as u8, (entries.len() >> 8) as u8];
        for &(class, key) in entries {
            book.extend([class as u8, (class >> 8) as u8]);
            book.extend([key; 16]);
        }
        book
    }

    /// Expects that the class is found there, and the part of the book itself.
    fn expect_key(books: [&[u8]; 2], class: u16, book: u32, offset: usize) {
        let found = find(books[0], books[1], class);
        let expected = Found {
            number: 0,
            book,
            offset,
        };
        assert_eq!(found, expected, "class {class}");
        let there = &books[book as usize][offset..offset + 16];
        let part = part(books[0], books[1], class);
        assert_eq!(part.as_ptr_range(), there.as_ptr_range(), "class {class}");
    }

    /// Expects `number`, which is not 0, and an empty part.
    fn expect_refused(number: u32, books: [&[u8]; 2], class: u16) {
        let found = find(books[0], books[1], class);
        let expected = Found {
            number,
            book: 0,
            offset: 0,
        };
        assert_eq!(found, expected, "{books:02x?} {class}");
        assert!(part(books[0], books[1], class).is_empty());
    }

    /// A book written out by hand: two entries, classes 7 and 0x0102.
    #[rustfmt::skip]
    const BY_HAND: [u8; 38] = [
        2, 0,
        7, 0, 10, 11, 12, 13, 14, 15, 16, 17, 18, 19, 20, 21, 22, 23, 24, 25,
        2, 1, 30, 31, 32, 33, 34, 35, 36, 37, 38, 39, 40, 41, 42, 43, 44, 45,
    ];

    #[test]
    fn keys_are_found_by_class_in_either_book() {
        let books: [&[u8]; 2] = [&BY_HAND, &[0, 0]];
        expect_key(books, 7, 0, 4);
        expect_key(books, 0x0102, 0, 22);
        assert_eq!(part(&BY_HAND, &[0, 0], 7)[..3], [10, 11, 12]);
        assert_eq!(part(&BY_HAND, &[0, 0], 0x0102)[15], 45);
        for class in [0, 6, 8, 0x0101, 0x0103, 0x0201, 0x0700, 65_535] {
            expect_refused(11, books, class);
        }
        let books: [&[u8]; 2] = [&[0, 0], &BY_HAND];
        expect_key(books, 7, 1, 4);
        expect_key(books, 0x0102, 1, 22);
        expect_refused(11, books, 0x0201);
        expect_refused(11, [&[0, 0], &[0, 0]], 0);
    }

    #[test]
    fn this_terms_book_wins() {
        let this = book(&[(0, 1), (9, 2)]);
        let last = book(&[(0, 3), (5, 4), (65_535, 5)]);
        let books: [&[u8]; 2] = [&this, &last];
        expect_key(books, 0, 0, 4);
        expect_key(books, 9, 0, 22);
        expect_key(books, 5, 1, 22);
        expect_key(books, 65_535, 1, 40);
        expect_refused(11, books, 4);
        // Also where both hold the same bytes.
        let same = this.clone();
        expect_key([&this, &same], 9, 0, 22);
        expect_key([&this, &this], 9, 0, 22);
    }

    #[test]
    fn either_book_badly_formed_is_refused_before_any_search() {
        let good = book(&[(7, 1), (8, 2)]);
        let same_twice = book(&[(7, 1), (7, 2)]);
        let falls = book(&[(8, 1), (7, 2)]);
        let late = book(&[(7, 1), (8, 2), (10, 3), (9, 4)]);
        let mut one_more = good.clone();
        one_more[0] += 1;
        let mut one_fewer = good.clone();
        one_fewer[0] -= 1;
        let longer = [&good[..], &[0]].concat();
        let mut high_count = good.clone();
        high_count[1] = 1;
        let bad: [&[u8]; 11] = [
            &[],
            &[0],
            &[1, 0],
            &[0, 0, 0],
            &same_twice,
            &falls,
            &late,
            &one_more,
            &one_fewer,
            &longer,
            &high_count,
        ];
        for bad in bad {
            for class in [7, 300] {
                expect_refused(10, [bad, &good], class);
                expect_refused(10, [&good, bad], class);
                expect_refused(10, [bad, bad], class);
                expect_refused(10, [bad, &[0, 0]], class);
                expect_refused(10, [&[0, 0], bad], class);
            }
        }
        expect_key([&good, &good], 7, 0, 4);
    }

    #[test]
    fn largest_book_has_65535_entries() {
        let entries: Vec<(u16, u8)> = (1..=65_535).map(|class| (class, 6)).collect();
        let large = book(&entries);
        assert_eq!(large.len(), 1_179_632);
        let books: [&[u8]; 2] = [&large, &[0, 0]];
        expect_key(books, 1, 0, 4);
        expect_key(books, 65_535, 0, 1_179_616);
        expect_refused(11, books, 0);
        // What sixteen bits keep of that length.
        expect_refused(10, [&large[..65_520], &[0, 0]], 1);
    }
}
