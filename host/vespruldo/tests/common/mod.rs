//! What the comparisons with the second implementation share.

// Each file of tests is a program of its own and uses its part of this.
#![allow(dead_code)]

pub mod books;
pub mod cards;
pub mod packs;
pub mod pairs;

use std::env;
use std::fmt::Debug;

use second::batch::Batch;
use second::chacha::Streamed;
use second::random::Random;
use vespruldo::Refusal;

// The longest that document 01 allows: associated data, a text, a wide block.
pub const LONGEST_DATA: usize = 65_536;
pub const LONGEST_TEXT: usize = 1_048_576;
pub const LONGEST_BLOCK: usize = 1_048_608;

// Of a card: the longest text, and what it has besides its ciphertext.
pub const LONGEST_CARD_TEXT: usize = 65_535;
pub const CARD_EXTRA: usize = 30;

/// The document's number for an outcome. The safe functions take every number
/// to an outcome of its own or panic, so nothing is lost.
pub fn number<T>(outcome: Result<T, Refusal>) -> u32 {
    outcome.map_or_else(Refusal::number, |_| 0)
}

/// Whether an emulator runs the tests: tools/host-tests names it in this
/// variable, which is empty on x86-64 itself.
pub fn emulated() -> bool {
    env::var_os("VESPRULDO_RUNNER").is_some_and(|runner| !runner.is_empty())
}

/// As many random cases as asked for, or a twentieth of them under an emulator,
/// which is some twenty times slower.
pub fn times(cases: usize) -> usize {
    if emulated() {
        cases.div_ceil(20)
    } else {
        cases
    }
}

/// A random-looking number from 0 to `most`.
pub fn up_to(random: &mut Random, most: usize) -> usize {
    (random.next_u64() % (most as u64 + 1)) as usize
}

/// `bytes` with bit `i` flipped.
pub fn with_flip(bytes: &[u8], i: usize) -> Vec<u8> {
    let mut flipped = bytes.to_vec();
    flipped[i / 8] ^= 1 << (i % 8);
    flipped
}

/// A lent part inside a larger buffer, so that bytes written outside show.
#[derive(Clone, PartialEq)]
pub struct Guarded {
    whole: Vec<u8>,
    start: usize,
    len: usize,
}

impl Guarded {
    const GUARD: usize = 160;

    /// A lent part with random bytes, at one of sixteen alignments.
    pub fn new(random: &mut Random, len: usize) -> Guarded {
        let start = Guarded::GUARD + up_to(random, 15);
        let whole = random.bytes(start + len + Guarded::GUARD);
        Guarded { whole, start, len }
    }

    /// The same with these bytes in the lent part.
    pub fn holding(random: &mut Random, bytes: &[u8]) -> Guarded {
        let mut guarded = Guarded::new(random, bytes.len());
        guarded.lent().copy_from_slice(bytes);
        guarded
    }

    /// A lent part with these bytes.
    pub fn around(bytes: &[u8]) -> Guarded {
        let guard = [0x5a; Guarded::GUARD];
        Guarded {
            whole: [&guard, bytes, &guard].concat(),
            start: Guarded::GUARD,
            len: bytes.len(),
        }
    }

    pub fn lent(&mut self) -> &mut [u8] {
        &mut self.whole[self.start..self.start + self.len]
    }
}

/// What a function answers: the document's number, and perhaps more.
pub trait Answer: Copy + Debug + PartialEq {
    fn number(self) -> u32;
}

impl Answer for u32 {
    fn number(self) -> u32 {
        self
    }
}

impl Answer for Streamed {
    fn number(self) -> u32 {
        self.number
    }
}

impl Answer for Batch {
    fn number(self) -> u32 {
        self.number
    }
}

type Work<const R: usize, const W: usize, A> = Box<dyn Fn([&[u8]; R], [&mut [u8]; W]) -> A>;

/// A function of the archive beside the same function of the second
/// implementation. It reads `R` buffers, works in `W` more and answers `A`.
pub struct Pair<const R: usize, const W: usize, A = u32> {
    name: String,
    ours: Work<R, W, A>,
    seconds: Work<R, W, A>,
    /// What the document asks for as the answer, from the lengths alone.
    expected: Box<dyn Fn([usize; R], [usize; W]) -> A>,
    /// From the lengths: how many bytes at the front of the first buffer worked
    /// in are 0 after a refusal with 7.
    zeroed: fn([usize; R], [usize; W]) -> usize,
}

impl<const R: usize, const W: usize, A: Answer> Pair<R, W, A> {
    pub fn new(
        name: impl Into<String>,
        ours: impl Fn([&[u8]; R], [&mut [u8]; W]) -> A + 'static,
        seconds: impl Fn([&[u8]; R], [&mut [u8]; W]) -> A + 'static,
        expected: impl Fn([usize; R], [usize; W]) -> A + 'static,
    ) -> Pair<R, W, A> {
        Pair {
            name: name.into(),
            ours: Box::new(ours),
            seconds: Box::new(seconds),
            expected: Box::new(expected),
            zeroed: |_, _| 0,
        }
    }

    /// The same with a refusal that leaves zeros.
    pub fn zeroing(self, zeroed: fn([usize; R], [usize; W]) -> usize) -> Pair<R, W, A> {
        Pair { zeroed, ..self }
    }

    /// Runs both on the same bytes and compares the answer and all bytes,
    /// guards too. A refusal must leave what the document says.
    pub fn run(&self, mut read: [Guarded; R], before: [Guarded; W]) -> (A, [Guarded; W]) {
        let read_lens = read.each_ref().map(|buffer| buffer.len);
        let lens = before.each_ref().map(|buffer| buffer.len);
        let case = format!("{}, reads {read_lens:?}, works in {lens:?}", self.name);
        let read_before = read.clone();
        let mut ours = before.clone();
        let mut seconds = before.clone();

        let lent = read.each_mut().map(|buffer| &*buffer.lent());
        let answer = (self.seconds)(lent, seconds.each_mut().map(Guarded::lent));
        if answer.number() != 0 {
            let mut left = before;
            if answer.number() == 7 {
                left[0].lent()[..(self.zeroed)(read_lens, lens)].fill(0);
            }
            assert!(seconds == left, "what a refusal leaves: {case}");
        }
        let our_answer = (self.ours)(lent, ours.each_mut().map(Guarded::lent));
        assert_eq!(our_answer, answer, "{case}");
        // Not `assert_eq`, which would print buffers of many megabytes.
        assert!(ours == seconds, "worked in, or its guards: {case}");
        assert!(read == read_before, "read, or its guards: {case}");
        (answer, ours)
    }

    /// What both make of the bytes `before`, which neither may refuse.
    pub fn done(&self, read: [&[u8]; R], before: [&[u8]; W]) -> [Vec<u8>; W] {
        let (answer, mut after) = self.run(read.map(Guarded::around), before.map(Guarded::around));
        assert_eq!(answer.number(), 0, "{}", self.name);
        after.each_mut().map(|buffer| buffer.lent().to_vec())
    }

    /// Both must refuse with this number.
    pub fn refused(&self, number: u32, read: [&[u8]; R], before: [&[u8]; W]) {
        let (answer, _) = self.run(read.map(Guarded::around), before.map(Guarded::around));
        assert_eq!(answer.number(), number, "{}", self.name);
    }

    /// Runs both on random-looking buffers with guards and compares the answer and
    /// all bytes. The answer's number is handed back.
    pub fn compare(&self, random: &mut Random, read_lens: [usize; R], lens: [usize; W]) -> u32 {
        let read = read_lens.map(|len| Guarded::new(random, len));
        let before = lens.map(|len| Guarded::new(random, len));
        let (answer, _) = self.run(read, before);
        let expected = (self.expected)(read_lens, lens);
        assert_eq!(answer, expected, "{} {read_lens:?} {lens:?}", self.name);
        answer.number()
    }

    /// The same where the answer is known beforehand.
    pub fn answer(&self, answer: A, random: &mut Random, read_lens: [usize; R], lens: [usize; W]) {
        assert_eq!((self.expected)(read_lens, lens), answer, "{}", self.name);
        self.compare(random, read_lens, lens);
    }

    /// Flips each bit of each buffer that is read, in turn: each result changes
    /// that has any bytes.
    pub fn damage_read(&self, read: [&[u8]; R], before: [&[u8]; W]) {
        let undamaged = self.done(read, before);
        for n in 0..R {
            for i in 0..8 * read[n].len() {
                let flipped = with_flip(read[n], i);
                let mut read = read;
                read[n] = &flipped;
                let damaged = self.done(read, before);
                for (damaged, undamaged) in damaged.iter().zip(&undamaged) {
                    let changed = damaged != undamaged || undamaged.is_empty();
                    assert!(changed, "{}, bit {i} of {n}", self.name);
                }
            }
        }
    }

    /// Flips each bit of each buffer worked in, in turn, and hands the undamaged
    /// and the damaged results to `check`.
    pub fn damage_worked(
        &self,
        read: [&[u8]; R],
        before: [&[u8]; W],
        check: impl Fn(&[Vec<u8>; W], &[Vec<u8>; W]) -> bool,
    ) {
        let undamaged = self.done(read, before);
        for n in 0..W {
            for i in 0..8 * before[n].len() {
                let flipped = with_flip(before[n], i);
                let mut before = before;
                before[n] = &flipped;
                let damaged = self.done(read, before);
                assert!(check(&undamaged, &damaged), "{}, {n}, bit {i}", self.name);
            }
        }
    }

    /// Makes each buffer in turn longer by 2^32 than is allowed: a length must
    /// be judged before it is cut to 32 bits.
    #[cfg(target_pointer_width = "64")]
    pub fn refuse_huge(&self, read_lens: [usize; R], lens: [usize; W]) {
        for n in 0..R + W {
            self.refuse_one_huge(n, read_lens, lens);
        }
    }

    /// The same with buffer `n` alone, counted over those read and then those
    /// worked in. The memory is never written, so the system need not provide
    /// it.
    #[cfg(target_pointer_width = "64")]
    pub fn refuse_one_huge(&self, n: usize, read_lens: [usize; R], lens: [usize; W]) {
        let len = *read_lens.iter().chain(&lens).nth(n).expect("a buffer");
        let mut huge = vec![0; (1 << 32) + len];
        let small = [7; 256];
        let mut read = read_lens.map(|len| &small[..len]);
        let mut worked = lens.map(|len| vec![7; len]);
        let mut lent = worked.each_mut().map(|buffer| &mut buffer[..]);
        if n < R {
            read[n] = &huge;
        } else {
            lent[n - R] = &mut huge;
        }
        let lent_lens = lent.each_ref().map(|buffer| buffer.len());
        let expected = (self.expected)(read.map(<[u8]>::len), lent_lens);
        assert_ne!(expected.number(), 0, "{}, huge {n}", self.name);
        assert_eq!((self.ours)(read, lent), expected, "{}", self.name);
        assert_eq!(worked, lens.map(|len| vec![7; len]), "{}", self.name);
        let ends = [&huge[..4096], &huge[huge.len() - 4096..]];
        assert!(ends.concat().iter().all(|&b| b == 0), "{}", self.name);
    }
}
