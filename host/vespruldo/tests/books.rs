//! The lookup in key books of the archive beside the second implementation.

mod common;

use std::collections::BTreeSet;

use common::books::{book, compare, raw_find, with_count, Books};
use common::{times, up_to, with_flip, Guarded};
use second::books::Found;
use second::random::Random;

/// The well-formed book without entries.
const EMPTY: [u8; 2] = [0, 0];

/// Both look each class up in copies of the books with guards. Nothing there
/// changes.
fn compare_all(books: Books, classes: impl IntoIterator<Item = u16>) -> Vec<Found> {
    let mut lent = books.map(Guarded::around);
    let before = lent.clone();
    let copies = lent.each_mut().map(|book| &*book.lent());
    let found = classes
        .into_iter()
        .map(|class| compare(copies, class))
        .collect();
    assert!(lent == before, "books, or their guards");
    found
}

/// The answer that refuses with this number.
fn refused(number: u32) -> Found {
    Found {
        number,
        book: 0,
        offset: 0,
    }
}

/// Each class is refused with this number.
fn refuse(number: u32, books: Books, classes: &[u16]) {
    for found in compare_all(books, classes.iter().copied()) {
        assert_eq!(found, refused(number), "{classes:?}");
    }
}

/// Each class is refused where `bad` is either book or both, whether or not the
/// other one, `good`, has an entry for it.
fn refuse_form(bad: &[u8], good: &[u8], classes: &[u16]) {
    for books in [[bad, good], [good, bad], [bad, bad]] {
        refuse(10, books, classes);
    }
}

/// Random-looking classes below `end` in rising order, `len` of them or, where
/// one came twice, fewer.
fn random_classes(random: &mut Random, len: usize, end: usize) -> Vec<u16> {
    let classes: BTreeSet<u16> = (0..len).map(|_| up_to(random, end - 1) as u16).collect();
    Vec::from_iter(classes)
}

/// Where the key of `class` is by the document's rule, in well-formed books with
/// these classes.
fn expected(lists: [&[u16]; 2], class: u16) -> Found {
    let in_list = |list: &[u16]| list.iter().position(|&listed| listed == class);
    let found = |book: u32, n: usize| Found {
        number: 0,
        book,
        offset: 2 + 18 * n + 2,
    };
    match lists.map(in_list) {
        [Some(n), _] => found(0, n),
        [None, Some(n)] => found(1, n),
        [None, None] => refused(11),
    }
}

/// Looks `classes` up in well-formed books with the classes of these lists.
fn look_up(random: &mut Random, lists: [&[u16]; 2], classes: &[u16]) {
    let [this, last] = lists.map(|list| book(random, list));
    let found = compare_all([&this, &last], classes.iter().copied());
    for (&class, found) in classes.iter().zip(found) {
        assert_eq!(found, expected(lists, class), "class {class}");
    }
}

/// Classes that have an entry, their neighbours, and those with their two bytes
/// exchanged.
fn near(lists: [&[u16]; 2]) -> Vec<u16> {
    let listed = lists.concat();
    let near = |class: &u16| {
        let (before, after) = (class.wrapping_sub(1), class.wrapping_add(1));
        [before, *class, after, class.swap_bytes()]
    };
    let ends = [0, u16::MAX];
    listed.iter().flat_map(near).chain(ends).collect()
}

#[test]
fn random_books_agree() {
    let mut random = Random::new(90);
    for _ in 0..times(600) {
        // Among few classes, so that both books have the same ones, or among
        // all.
        let end = [20, 400, 1 << 16][up_to(&mut random, 2)];
        let most = [3, 30, 300][up_to(&mut random, 2)];
        let [this, last] = [most; 2].map(|most| {
            let len = up_to(&mut random, most);
            random_classes(&mut random, len, end)
        });
        let lists: [&[u16]; 2] = [&this, &last];
        look_up(&mut random, lists, &near(lists));
    }
}

#[test]
fn every_class_is_found_where_it_is_or_missing() {
    let mut random = Random::new(91);
    let every: Vec<u16> = (0..=u16::MAX).collect();
    let mut this = random_classes(&mut random, 300, 65_535);
    let mut last = random_classes(&mut random, 300, 65_535);
    // The first class and the last one, one in each book.
    this[0] = 0;
    last.retain(|&class| class != 0);
    last.push(u16::MAX);
    look_up(&mut random, [&this, &last], &every);
    look_up(&mut random, [&last, &this], &every);
}

#[test]
fn largest_books_agree() {
    let mut random = Random::new(92);
    for missing in [0, 40_000, u16::MAX] {
        let all_but_one: Vec<u16> = (0..=u16::MAX).filter(|&class| class != missing).collect();
        let few = [missing];
        let mut classes = near([&few, &[256, 32_768]]);
        classes.extend((0..30).map(|_| random.next_u64() as u16));
        for lists in [
            [&all_but_one[..], &[]],
            [&all_but_one, &few],
            [&few, &all_but_one],
            [&all_but_one, &all_but_one],
        ] {
            look_up(&mut random, lists, &classes);
        }
    }
}

/// Damage at the very end of the largest book.
#[test]
fn largest_books_are_judged_to_their_end() {
    let mut random = Random::new(93);
    let mut classes: Vec<u16> = (0..u16::MAX).collect();
    let good = book(&mut random, &classes);
    assert_eq!(good.len(), 2 + 18 * 65_535);
    let small = book(&mut random, &[0]);
    refuse(11, [&good, &small], &[u16::MAX]);
    classes.swap(65_533, 65_534);
    refuse_form(&book(&mut random, &classes), &small, &[0]);
    classes[65_533] = classes[65_534];
    refuse_form(&book(&mut random, &classes), &small, &[0]);
    refuse_form(&good[..good.len() - 1], &small, &[0]);
    refuse_form(&good[..good.len() - 18], &small, &[0]);
    refuse_form(&[&good[..], &[0]].concat(), &small, &[0]);
    refuse_form(&with_count(&good, u16::MAX - 1), &small, &[0]);
}

/// Every length to the end of a few entries with every count to a few more: well
/// formed is only 2 + 18·count.
#[test]
fn every_length_is_judged_by_the_count() {
    let mut random = Random::new(94);
    let classes = [3, 7, 300, 301, 40_000];
    let whole = book(&mut random, &classes);
    let good = book(&mut random, &[7, 500]);
    for count in 0..7_u16 {
        let whole = with_count(&whole, count);
        for len in 0..=whole.len() {
            let part = &whole[..len];
            if len < 2 || len != 2 + 18 * usize::from(count) {
                refuse_form(part, &good, &[3, 7, 500, 9]);
                continue;
            }
            let entries = &classes[..usize::from(count)];
            for (books, lists) in [
                ([part, &good], [entries, &[7, 500]]),
                ([&good, part], [&[7, 500], entries]),
            ] {
                for class in near(lists) {
                    assert_eq!(compare(books, class), expected(lists, class));
                }
            }
        }
    }
}

#[test]
fn longer_books_are_judged_by_the_count_too() {
    let mut random = Random::new(95);
    let good = book(&mut random, &[7, 500]);
    for count in [1, 2, 14, 15, 255, 256, 300] {
        let classes: Vec<u16> = (0..count).map(|n| 5 * n + 2).collect();
        let whole = book(&mut random, &classes);
        refuse(11, [&whole, &good], &[1]);
        for other in [count - 1, count + 1, count ^ 0x100, count.swap_bytes()] {
            if other != count {
                refuse_form(&with_count(&whole, other), &good, &[2, 7]);
            }
        }
        refuse_form(&whole[..whole.len() - 1], &good, &[2, 7]);
        refuse_form(&[&whole[..], &[0]].concat(), &good, &[2, 7]);
        refuse_form(&[&[0], &whole[..]].concat(), &good, &[2, 7]);
        // A whole entry fewer or more.
        refuse_form(&whole[..whole.len() - 18], &good, &[2, 7]);
        refuse_form(&[&whole[..], &[255; 18]].concat(), &good, &[2, 7]);
    }
}

/// At each place two neighbours exchanged, or equal, or all from there on
/// fallen below the rest; every class is looked up, those before the damage too.
#[test]
fn classes_must_strictly_rise() {
    let mut random = Random::new(96);
    let good = book(&mut random, &[7, 500]);
    for len in [2, 3, 4, 5, 9, 40] {
        let classes: Vec<u16> = (0..len).map(|n| 7 + 251 * n).collect();
        for place in 1..classes.len() {
            let mut exchanged = classes.clone();
            exchanged.swap(place - 1, place);
            let mut equal = classes.clone();
            equal[place] = equal[place - 1];
            let mut fallen = classes.clone();
            fallen.rotate_left(place);
            for bad in [exchanged, equal, fallen] {
                refuse_form(&book(&mut random, &bad), &good, &bad);
            }
        }
    }
}

/// Pairs that rise or fall by one, where bytes carry over or a sign would turn.
#[test]
fn classes_are_compared_as_whole_numbers() {
    let mut random = Random::new(97);
    for low in [0, 1, 254, 255, 256, 511, 0x0fff, 0x7fff, 0x8000, 0xfffe] {
        let high = low + 1;
        look_up(&mut random, [&[low, high], &[]], &[low, high]);
        let falls = book(&mut random, &[high, low]);
        refuse_form(&falls, &EMPTY, &[low, high]);
        let exchanged = high.swap_bytes();
        let (first, second) = (high.min(exchanged), high.max(exchanged));
        if first < second {
            look_up(&mut random, [&[], &[first, second]], &[first, second]);
            let falls = book(&mut random, &[second, first]);
            refuse_form(&falls, &EMPTY, &[first, second]);
        }
    }
}

/// A bit of a count makes a book badly formed; a bit of a key changes no answer.
/// With a bit of a class, both agree on whatever comes of it.
#[test]
fn every_flipped_bit_agrees() {
    let mut random = Random::new(98);
    let lists: [&[u16]; 2] = [&[3, 260, 261], &[3, 4, 0x8104]];
    let whole = lists.map(|list| book(&mut random, list));
    let classes = near(lists);
    for n in 0..2 {
        for i in 0..8 * whole[n].len() {
            let mut flipped = whole.clone();
            flipped[n] = with_flip(&whole[n], i);
            let [this, last] = &flipped;
            let byte = i / 8;
            let place = byte.saturating_sub(2) % 18;
            // The class as it is now, if the bit was one of a class.
            let entry = byte.saturating_sub(2) / 18;
            let now = lists[n][entry] ^ (1 << (8 * (place % 2) + i % 8));
            let found = compare_all([this, last], classes.iter().copied().chain([now]));
            for (&class, found) in classes.iter().zip(found) {
                if byte < 2 {
                    assert_eq!(found, refused(10), "bit {i} of {n}");
                } else if place >= 2 {
                    assert_eq!(found, expected(lists, class), "bit {i} of {n}");
                }
            }
        }
    }
}

/// The addresses tell, as `compare` looks at them, also where the bytes do not.
#[test]
fn this_terms_book_wins() {
    let mut random = Random::new(99);
    let lists: [&[u16]; 2] = [&[0, 7, 300], &[7, 9, 300, u16::MAX]];
    look_up(&mut random, lists, &near(lists));
    let whole = book(&mut random, &[0, 7, 300, u16::MAX]);
    let same = whole.clone();
    for (n, class) in [0, 7, 300, u16::MAX].into_iter().enumerate() {
        // Two books with equal bytes, and one book that is lent as both.
        for books in [[&whole[..], &same], [&same, &whole], [&whole, &whole]] {
            let found = Found {
                number: 0,
                book: 0,
                offset: 4 + 18 * n,
            };
            assert_eq!(compare(books, class), found);
        }
        let key = vespruldo::slices::find_key(&whole, &same, class).expect("a key");
        assert_eq!(key.as_ptr(), whole[4 + 18 * n..].as_ptr());
        let key = vespruldo::slices::find_key(&EMPTY, &same, class).expect("a key");
        assert_eq!(key.as_ptr(), same[4 + 18 * n..].as_ptr());
    }
    refuse(11, [&whole, &whole], &[1, 8, 299]);
}

/// One book inside another's bytes: what is lent twice is only read.
#[test]
fn overlapping_books_are_looked_up() {
    let mut random = Random::new(100);
    let mut outer = book(&mut random, &[5, 6]);
    // From place 4 on, the first key and what follows it are a book too.
    let inner = [&[1, 0], &9_u16.to_le_bytes()[..]].concat();
    outer[4..8].copy_from_slice(&inner);
    let inner = &outer[4..24];
    let found = |book, offset| Found {
        number: 0,
        book,
        offset,
    };
    assert_eq!(compare([&outer, inner], 6), found(0, 22));
    assert_eq!(compare([&outer, inner], 9), found(1, 4));
    assert_eq!(compare([inner, &outer], 9), found(0, 4));
    assert_eq!(compare([inner, &outer], 5), found(1, 4));
}

/// Neither a book nor its guards change by one call alone; a second one might
/// undo what the first wrote.
#[test]
fn books_are_only_read() {
    let mut random = Random::new(104);
    let this = book(&mut random, &[7, 300]);
    let last = book(&mut random, &[7, 9, 40_000]);
    for books in [
        [&this[..], &last],
        [&this, &last[1..]],
        [&this[..37], &last],
    ] {
        for class in [7, 9, 10] {
            let mut lent = books.map(Guarded::around);
            let before = lent.clone();
            raw_find(lent.each_mut().map(|book| &*book.lent()), class);
            assert!(lent == before, "the archive, class {class}");
            let [this, last] = lent.each_mut().map(Guarded::lent);
            let _ = vespruldo::slices::find_key(this, last, class);
            assert!(lent == before, "the safe function, class {class}");
        }
    }
}

/// Also where the class is in the good one.
#[test]
fn either_book_badly_formed_is_refused() {
    let mut random = Random::new(101);
    let good = book(&mut random, &[7, 8]);
    let all_bad: [Vec<u8>; 8] = [
        vec![],
        vec![0],
        vec![1],
        vec![1, 0],
        vec![0, 1],
        vec![0, 0, 0],
        book(&mut random, &[7, 7]),
        book(&mut random, &[7, 9, 8]),
    ];
    for bad in &all_bad {
        for good in [&good[..], &EMPTY] {
            refuse_form(bad, good, &[7, 8, 9]);
        }
        for other in &all_bad {
            refuse(10, [bad, other], &[7, 8, 9]);
        }
    }
}

/// A slice of nothing lies nowhere. A book without entries is well formed.
#[test]
fn empty_slices_are_refused_and_empty_books_are_not() {
    for class in [0, 7, u16::MAX] {
        assert_eq!(compare([&[], &[]], class), refused(10));
        assert_eq!(compare([&[], &EMPTY], class), refused(10));
        assert_eq!(compare([&EMPTY, &[]], class), refused(10));
        assert_eq!(compare([&EMPTY, &EMPTY], class), refused(11));
    }
}

/// Lengths that are right to whoever keeps only their low bits, or those of
/// 2 + 18·count.
#[test]
fn no_length_is_cut_before_it_is_judged() {
    let mut random = Random::new(102);
    let good = book(&mut random, &[7, 500]);
    for more in [1 << 8, 1 << 16, 1 << 24] {
        let longer = [&good[..], &vec![255; more]].concat();
        refuse_form(&longer, &good, &[7]);
        refuse_form(&[&EMPTY[..], &vec![0; more]].concat(), &good, &[7]);
    }
    let classes: Vec<u16> = (0..u16::MAX).collect();
    let mut large = book(&mut random, &classes);
    for count in 0..=u16::MAX {
        large[..2].copy_from_slice(&count.to_le_bytes());
        let len = 2 + 18 * usize::from(count);
        for cut in [len % (1 << 8), len % (1 << 16)] {
            if cut != len {
                assert_eq!(compare([&large[..cut], &good], 7), refused(10));
                assert_eq!(compare([&good, &large[..cut]], 7), refused(10));
            }
        }
    }
}

/// Hardly any of the memory is ever touched, so the system need not provide it.
#[test]
#[cfg(target_pointer_width = "64")]
fn lengths_of_2_to_the_32_and_more_are_refused() {
    let mut random = Random::new(103);
    let good = book(&mut random, &[7, 500]);
    for short in [&EMPTY[..], &good] {
        let mut huge = vec![0; (1 << 32) + short.len()];
        huge[..short.len()].copy_from_slice(short);
        // What its low 32 bits say would be well formed.
        assert_eq!(compare([short, short], 9), refused(11));
        for class in [7, 9] {
            assert_eq!(compare([&huge, &good], class), refused(10));
            assert_eq!(compare([&good, &huge], class), refused(10));
            assert_eq!(compare([&huge, &huge], class), refused(10));
        }
    }
}
