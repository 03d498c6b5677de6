//! The drawer of the archive beside the second implementation.

mod common;

use std::collections::BTreeSet;

use common::{number, times, up_to, with_flip, Guarded};
use second::random::Random;
use second::{drawer, drawer_file};
// The archive's functions themselves: the safe ones show neither the bytes that
// a refused draw answers nor the drawer that it hands back.
use vespruldo::archive;
use vespruldo::{Drawer, Iv, Nonce, Refusal};

/// What is taken from a drawer: a draw or an iv.
#[derive(Clone, Copy, Debug)]
enum Taken {
    Draw,
    Iv,
}

const BOTH: [Taken; 2] = [Taken::Draw, Taken::Iv];

/// The document's number, the bytes, and reader number and count of the drawer
/// handed back.
type Answer = (u32, Vec<u8>, u32, u64);

fn raw_answer<const N: usize>(drawn: archive::Drawn<N>) -> Answer {
    let archive::Drawer { reader, count } = drawn.next;
    (drawn.number, drawn.bytes.to_vec(), reader, count)
}

fn seconds_answer<const N: usize>(drawn: drawer::Draw<N>) -> Answer {
    let drawer::Drawer { reader, count } = drawn.next;
    (drawn.number, drawn.bytes.to_vec(), reader, count)
}

impl Taken {
    fn random(random: &mut Random) -> Taken {
        BOTH[up_to(random, 1)]
    }

    /// What the archive answers.
    fn raw(self, reader: u32, count: u64) -> Answer {
        // SAFETY: drawers and answers go by value, and every drawer is allowed.
        unsafe {
            let drawer = archive::vespruldo_drawer_start(reader, count);
            match self {
                Taken::Draw => raw_answer(archive::vespruldo_drawer_draw(drawer)),
                Taken::Iv => raw_answer(archive::vespruldo_drawer_iv(drawer)),
            }
        }
    }

    /// What the second implementation answers.
    fn seconds(self, reader: u32, count: u64) -> Answer {
        let drawer = drawer::start(reader, count);
        match self {
            Taken::Draw => seconds_answer(drawer::draw(drawer)),
            Taken::Iv => seconds_answer(drawer::iv(drawer)),
        }
    }

    /// What the safe function answers.
    fn safe(self, drawer: &mut Drawer) -> Result<Vec<u8>, Refusal> {
        match self {
            Taken::Draw => drawer.draw().map(|nonce| nonce.as_bytes().to_vec()),
            Taken::Iv => drawer.draw_iv().map(|iv| iv.as_bytes().to_vec()),
        }
    }

    /// Takes this from `drawer`, and all that is answered agrees. Gives the
    /// number that was handed out, once, if one was.
    fn compare(self, drawer: &mut Drawer) -> Option<Vec<u8>> {
        let (reader, count) = (drawer.reader(), drawer.count());
        let case = format!("{self:?} at {reader} {count}");
        let expected = self.seconds(reader, count);
        assert_eq!(self.raw(reader, count), expected, "{case}");
        let safe = self.safe(drawer);
        assert_eq!(number(safe.clone()), expected.0, "{case}");
        assert_eq!(drawer.reader(), expected.2, "{case}");
        assert_eq!(drawer.count(), expected.3, "{case}");
        let bytes = safe.ok()?;
        assert_eq!(bytes, expected.1, "{case}");
        Some(bytes[..12].to_vec())
    }
}

/// The drawer at its start, which holds what it was given.
fn start(reader: u32, count: u64) -> Drawer {
    // SAFETY: numbers and drawers go by value, and all of them are allowed.
    let raw = unsafe { archive::vespruldo_drawer_start(reader, count) };
    assert_eq!((raw.reader, raw.count), (reader, count));
    let drawer = Drawer::start(reader, count);
    assert_eq!((drawer.reader(), drawer.count()), (reader, count));
    drawer
}

/// A draw and an iv, each from this drawer.
fn compare_both(reader: u32, count: u64) {
    for taken in BOTH {
        taken.compare(&mut start(reader, count));
    }
}

/// Counts next to each power of two, and as far from the end.
fn border_counts() -> BTreeSet<u64> {
    (0..64)
        .map(|bit| 1_u64 << bit)
        .flat_map(|power| [power - 1, power, power + 1])
        .flat_map(|count| [count, u64::MAX - count])
        .collect()
}

#[test]
fn every_border_of_the_numbers_agrees() {
    for count in border_counts() {
        for reader in [0, 1, 0x0102_0304, 0x8000_0000, u32::MAX] {
            compare_both(reader, count);
        }
    }
    for bit in 0..32 {
        for count in [0, 0x0102_0304_0506_0708, u64::MAX - 1, u64::MAX] {
            compare_both(1 << bit, count);
            compare_both(u32::MAX >> bit, count);
        }
    }
}

#[test]
fn random_drawers_agree() {
    let mut random = Random::new(80);
    for _ in 0..times(200_000) {
        compare_both(random.next_u64() as u32, random.next_u64());
    }
}

/// "Its count after any draws is its start plus the number of draws given", and
/// no count comes twice. The starts are those from which some byte of the count
/// carries over on the way, and random ones.
#[test]
fn numbers_from_one_start_never_repeat() {
    let mut random = Random::new(81);
    let mut starts = vec![0, 1 << 63];
    starts.extend((2..8).map(|byte| (1_u64 << (8 * byte)) - 1000));
    starts.extend((0..8).map(|_| random.next_u64() >> 1));
    for count in starts {
        let reader = random.next_u64() as u32;
        let mut drawer = start(reader, count);
        let mut numbers = BTreeSet::new();
        for given in 0..10_000 {
            assert_eq!(drawer.count(), count + given);
            let drawn = Taken::random(&mut random).compare(&mut drawer);
            let drawn = drawn.expect("such a drawer is far from spent");
            assert!(numbers.insert(drawn), "{reader} {count} {given}");
        }
        assert_eq!(drawer, Drawer::start(reader, count + 10_000));
    }
}

/// With so many counts left, as many numbers are handed out, the last with count
/// 2^64 - 2. Then everything is refused, and nothing changes any more.
#[test]
fn drawers_end_where_the_document_says() {
    let mut random = Random::new(82);
    for left in 0..300 {
        let reader = [0, u32::MAX, random.next_u64() as u32][up_to(&mut random, 2)];
        let mut drawer = start(reader, u64::MAX - left);
        let mut last = None;
        for given in 0..left {
            last = Taken::random(&mut random).compare(&mut drawer);
            assert!(last.is_some(), "{given} of {left}");
        }
        let last_count = (u64::MAX - 1).to_le_bytes();
        assert!(last.is_none_or(|number| number[4..] == last_count));
        for _ in 0..20 {
            let taken = Taken::random(&mut random);
            assert_eq!(taken.compare(&mut drawer), None, "{left}");
            assert_eq!(taken.safe(&mut drawer), Err(Refusal::DrawerSpent));
            assert_eq!(drawer, Drawer::start(reader, u64::MAX));
        }
    }
}

/// Reader 0 at count 0 draws zeros, a number like any other; the zeros of a
/// refused draw are none.
#[test]
fn zeros_are_told_apart_by_the_number() {
    for (taken, len) in [(Taken::Draw, 12), (Taken::Iv, 48)] {
        assert_eq!(taken.raw(0, 0), (0, vec![0; len], 0, 1));
        for reader in [0, 1, u32::MAX] {
            let refused = (9, vec![0; len], reader, u64::MAX);
            assert_eq!(taken.raw(reader, u64::MAX), refused);
        }
    }
    assert_eq!(Drawer::start(0, 0).draw(), Ok(Nonce::never_used([0; 12])));
    assert_eq!(Drawer::start(0, 0).draw_iv(), Ok(Iv::never_used([0; 48])));
}

/// A drawer holds nothing but its two numbers: started again from a count that
/// was written down, it goes on just as the first one does.
#[test]
fn drawers_go_on_from_the_count_written_down() {
    let mut random = Random::new(83);
    for _ in 0..1000 {
        let mut drawer = start(random.next_u64() as u32, random.next_u64() >> 1);
        for _ in 0..up_to(&mut random, 5) {
            Taken::random(&mut random).compare(&mut drawer);
        }
        let mut again = start(drawer.reader(), drawer.count());
        for _ in 0..5 {
            let taken = Taken::random(&mut random);
            assert_eq!(taken.compare(&mut again), taken.compare(&mut drawer));
            assert_eq!(again, drawer);
        }
    }
}

/// The bytes of a drawer, on which all agree.
fn stored(reader: u32, count: u64) -> Vec<u8> {
    // SAFETY: drawers and answers go by value, and every drawer is allowed.
    let raw = unsafe { archive::vespruldo_drawer_store(archive::Drawer { reader, count }) };
    let expected = drawer_file::store(drawer::start(reader, count));
    assert_eq!(raw.bytes[..], expected, "{reader} {count}");
    assert_eq!(Drawer::start(reader, count).to_bytes()[..], expected);
    expected
}

/// The drawer that these bytes are, on which all agree; nothing if they are
/// refused, and what is answered then is spent. The bytes stay as they are.
fn loaded(random: &mut Random, bytes: &[u8]) -> Option<(u32, u64)> {
    let mut lent = Guarded::holding(random, bytes);
    let before = lent.clone();
    let (place, len) = (lent.lent().as_ptr(), bytes.len());
    // SAFETY: the bytes are lent for the whole call and only read.
    let raw = unsafe { archive::vespruldo_drawer_load(place, len) };
    assert!(lent == before, "the bytes, or their guards");
    let expected = drawer_file::load(bytes).map(|drawer| (drawer.reader, drawer.count));
    let (number, drawer) = match expected {
        Some(drawer) => (0, drawer),
        None => (106, (0, u64::MAX)),
    };
    assert_eq!(raw.number, number, "{bytes:?}");
    assert_eq!((raw.drawer.reader, raw.drawer.count), drawer, "{bytes:?}");
    let safe = Drawer::from_bytes(bytes).map(|drawer| (drawer.reader(), drawer.count()));
    assert_eq!(safe, expected.ok_or(Refusal::DrawerDamaged));
    expected
}

#[test]
fn stored_drawers_are_loaded_again() {
    let mut random = Random::new(84);
    for count in border_counts() {
        for reader in [0, 1, 0x0102_0304, u32::MAX] {
            let bytes = stored(reader, count);
            assert_eq!(loaded(&mut random, &bytes), Some((reader, count)));
        }
    }
    for _ in 0..times(20_000) {
        let (reader, count) = (random.next_u64() as u32, random.next_u64());
        let bytes = stored(reader, count);
        assert_eq!(loaded(&mut random, &bytes), Some((reader, count)));
    }
}

#[test]
fn every_flipped_bit_of_a_stored_drawer_is_seen() {
    let mut random = Random::new(85);
    for (reader, count) in [(0, 0), (7, 258), (u32::MAX, u64::MAX)] {
        let bytes = stored(reader, count);
        for bit in 0..8 * bytes.len() {
            assert_eq!(loaded(&mut random, &with_flip(&bytes, bit)), None, "{bit}");
        }
        // The numbers of one drawer with the digest of another.
        let other = stored(reader, count ^ 1);
        assert_eq!(
            loaded(&mut random, &[&bytes[..12], &other[12..]].concat()),
            None
        );
    }
}

#[test]
fn stored_drawers_of_another_length_are_refused() {
    let mut random = Random::new(86);
    let bytes = stored(7, 258);
    for len in 0..44 {
        assert_eq!(loaded(&mut random, &bytes[..len]), None, "{len}");
        assert_eq!(loaded(&mut random, &bytes[44 - len..]), None, "{len}");
    }
    // Lengths that are allowed to whoever keeps only their low bits, too.
    for more in [1, 12, 44, 1 << 8, 1 << 16] {
        let longer = [&bytes[..], &vec![0; more]].concat();
        assert_eq!(loaded(&mut random, &longer), None, "{more}");
        let later = [&vec![0; more], &bytes[..]].concat();
        assert_eq!(loaded(&mut random, &later), None, "{more}");
    }
    assert_eq!(loaded(&mut random, &[0; 44]), None);
    // A slice of nothing lies nowhere.
    assert_eq!(Drawer::from_bytes(&[]), Err(Refusal::DrawerDamaged));
}

/// Hardly any of the memory is ever touched, so the system need not provide it.
#[test]
#[cfg(target_pointer_width = "64")]
fn stored_drawers_of_2_to_the_32_bytes_and_more_are_refused() {
    let bytes = stored(7, 258);
    let mut huge = vec![0; (1 << 32) + 44];
    huge[..44].copy_from_slice(&bytes);
    assert_eq!(Drawer::from_bytes(&huge), Err(Refusal::DrawerDamaged));
}

/// Whoever does not look at the number draws nothing from a refused drawer.
#[test]
fn refused_drawers_are_spent() {
    // SAFETY: the bytes are lent for the whole call, and the rest goes by value.
    unsafe {
        let damaged = archive::vespruldo_drawer_load([7; 44].as_ptr(), 44);
        assert_eq!(damaged.number, 106);
        let drawn = archive::vespruldo_drawer_draw(damaged.drawer);
        assert_eq!((drawn.number, drawn.bytes), (9, [0; 12]));
        assert_eq!(drawn.next, damaged.drawer);
        let drawn = archive::vespruldo_drawer_iv(damaged.drawer);
        assert_eq!((drawn.number, drawn.bytes), (9, [0; 48]));
        assert_eq!(drawn.next, damaged.drawer);
    }
}

/// A drawer that is stored after each draw goes on where it was, and a spent one
/// stays so.
#[test]
fn drawers_go_on_from_the_bytes_stored() {
    let mut random = Random::new(87);
    let mut drawer = start(7, u64::MAX - 20);
    let mut numbers = BTreeSet::new();
    for _ in 0..20 {
        let drawn = Taken::random(&mut random).compare(&mut drawer);
        assert!(numbers.insert(drawn.expect("not spent yet")));
        drawer = Drawer::from_bytes(&drawer.to_bytes()).expect("a drawer");
    }
    assert_eq!(drawer.draw(), Err(Refusal::DrawerSpent));
    assert_eq!(drawer, start(7, u64::MAX));
}
