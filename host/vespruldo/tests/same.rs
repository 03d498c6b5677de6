//! The archive's comparison in constant time beside `==`. That its time depends
//! on the lengths alone is for tests/constant_time.c.

mod common;

use std::mem::transmute;

use common::{times, up_to, with_flip, Guarded};
use second::random::Random;
use vespruldo::{archive, same};

/// The archive's function as one that answers a byte, of which `bool` would not
/// show whether it is more than 0 or 1.
type Raw = unsafe extern "C" fn(*const u8, usize, *const u8, usize) -> u8;

/// What the archive answers.
fn raw(a: &[u8], b: &[u8]) -> u8 {
    let function: unsafe extern "C" fn(*const u8, usize, *const u8, usize) -> bool =
        archive::vespruldo_same;
    // SAFETY: a `bool` and a byte come back in the same place. Both buffers are
    // lent for the whole call and only read.
    unsafe {
        let function: Raw = transmute(function);
        function(a.as_ptr(), a.len(), b.as_ptr(), b.len())
    }
}

/// What both say of two buffers, in both orders; nothing there changes.
fn compare(random: &mut Random, a: &[u8], b: &[u8]) -> bool {
    let mut lent = [a, b].map(|bytes| Guarded::holding(random, bytes));
    let before = lent.clone();
    let [first, second] = lent.each_mut().map(|buffer| &*buffer.lent());
    for [a, b] in [[first, second], [second, first]] {
        assert_eq!(raw(a, b), u8::from(a == b), "{} and {}", a.len(), b.len());
        assert_eq!(same(a, b), a == b, "{} and {}", a.len(), b.len());
    }
    assert!(lent == before, "what is compared, or its guards");
    a == b
}

/// Every length at which a comparison by words or by vectors has a rest, and
/// every bit that can differ.
#[test]
fn every_bit_counts() {
    let mut random = Random::new(230);
    for len in 0..=80 {
        let bytes = random.bytes(len);
        assert!(compare(&mut random, &bytes, &bytes.clone()));
        for bit in 0..8 * len {
            assert!(!compare(&mut random, &bytes, &with_flip(&bytes, bit)));
        }
    }
}

/// Bits that differ in pairs, at the same place of two bytes, do not cancel.
#[test]
fn no_two_bits_cancel() {
    let mut random = Random::new(231);
    for len in [2, 8, 16, 32, 64] {
        let bytes = random.bytes(len);
        for first in 0..len {
            for second in 0..first {
                let bit = up_to(&mut random, 7);
                let other = with_flip(&with_flip(&bytes, 8 * first + bit), 8 * second + bit);
                assert!(!compare(&mut random, &bytes, &other), "{first}, {second}");
            }
        }
    }
}

/// Buffers that differ in every byte, or in all but one.
#[test]
fn bytes_that_differ_everywhere_are_told_apart() {
    let mut random = Random::new(232);
    for len in 1..=64 {
        let bytes = random.bytes(len);
        for with in [0x01, 0x80, 0xff] {
            let mut other: Vec<u8> = bytes.iter().map(|byte| byte ^ with).collect();
            assert!(!compare(&mut random, &bytes, &other));
            let place = up_to(&mut random, len - 1);
            other[place] = bytes[place];
            assert_eq!(compare(&mut random, &bytes, &other), len == 1);
        }
    }
}

#[test]
fn lengths_count() {
    let mut random = Random::new(233);
    let bytes = random.bytes(70);
    for a in 0..=70 {
        for b in 0..=70 {
            assert_eq!(compare(&mut random, &bytes[..a], &bytes[..b]), a == b);
            // Nor is a longer one the same if only zeros are more.
            assert_eq!(compare(&mut random, &vec![0; a], &vec![0; b]), a == b);
        }
    }
}

#[test]
fn random_buffers_agree() {
    let mut random = Random::new(234);
    for _ in 0..times(20_000) {
        let len = up_to(&mut random, 300);
        let a = random.bytes(len);
        let mut b = a.clone();
        for _ in 0..up_to(&mut random, 2) {
            if len > 0 {
                b = with_flip(&b, up_to(&mut random, 8 * len - 1));
            }
        }
        compare(&mut random, &a, &b);
    }
}

/// Long buffers that differ at an end or in the middle, or not at all.
#[test]
fn long_buffers_agree() {
    let mut random = Random::new(235);
    for len in [4096, 65_536, 1_000_003] {
        let bytes = random.bytes(len);
        assert!(compare(&mut random, &bytes, &bytes.clone()));
        for place in [0, len / 2, len - 1] {
            assert!(!compare(&mut random, &bytes, &with_flip(&bytes, 8 * place)));
        }
    }
}

/// What is compared may overlap, or be one.
#[test]
fn overlapping_buffers_are_compared() {
    let bytes = [7, 7, 7, 7, 8];
    assert!(same(&bytes, &bytes));
    assert!(same(&bytes[..3], &bytes[1..4]));
    assert!(!same(&bytes[..4], &bytes[1..]));
}

/// Lengths that differ by 2^32 differ. A slice of nothing lies nowhere. The
/// memory is never written, so the system need not provide it.
#[test]
#[cfg(target_pointer_width = "64")]
fn no_length_is_cut_before_it_is_judged() {
    let huge = vec![0; (1 << 32) + 5];
    for more in [1 << 8, 1 << 16, 1 << 24, 1 << 32] {
        assert!(!same(&huge[..more + 5], &huge[..5]), "{more}");
        assert!(!same(&[], &huge[..more]), "{more}");
    }
    assert!(same(&[], &[]));
}
