//! The lookup of the archive beside that of the second implementation, and books
//! to look in.

use second::books::{self, Found};
use second::random::Random;
// The archive's function itself: the safe one does not show what is answered
// beside a refusal.
use vespruldo::archive;

use super::number;

/// This term's book and last term's.
pub type Books<'a> = [&'a [u8]; 2];

/// What the archive answers.
pub fn raw_find([this, last]: Books, class: u16) -> Found {
    // SAFETY: both books are lent for the whole call and only read.
    let archive::Found {
        number,
        book,
        offset,
    } = unsafe {
        archive::vespruldo_key_find(this.as_ptr(), this.len(), last.as_ptr(), last.len(), class)
    };
    Found {
        number,
        book,
        offset,
    }
}

/// Both look the class up, and all that is answered agrees.
pub fn compare(books: Books, class: u16) -> Found {
    let [this, last] = books;
    let case = || format!("class {class} in {} and {} bytes", this.len(), last.len());
    let found = books::find(this, last, class);
    assert_eq!(raw_find(books, class), found, "{}", case());
    let key = vespruldo::slices::find_key(this, last, class);
    assert_eq!(number(key), found.number, "{}", case());
    if let Ok(key) = key {
        // By address: the same bytes elsewhere are not that part of the book.
        let there = &books[found.book as usize][found.offset..found.offset + 16];
        assert_eq!(key.as_ptr_range(), there.as_ptr_range(), "{}", case());
    }
    found
}

/// The book with these classes, well formed if they strictly rise, and
/// random-looking keys.
pub fn book(random: &mut Random, classes: &[u16]) -> Vec<u8> {
    let count = u16::try_from(classes.len()).expect("a count of two bytes");
    let mut book = count.to_le_bytes().to_vec();
    for class in classes {
        book.extend(class.to_le_bytes());
        book.extend(random.sixteen());
    }
    book
}

/// The book with another count and the same bytes otherwise.
pub fn with_count(book: &[u8], count: u16) -> Vec<u8> {
    [&count.to_le_bytes(), &book[2..]].concat()
}
