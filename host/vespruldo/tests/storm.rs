//! A million short random cases, fewer under an emulator, over all functions of
//! the archive that are lent or handed anything, beside the second
//! implementation, from many threads at once, each on buffers of its own.

mod common;

use std::collections::BTreeMap;
use std::panic;
use std::sync::Barrier;
use std::thread;

use common::books::{self, book, with_count};
use common::packs::{compare_judges, compare_next, Lesson};
use common::pairs::{self, judged, judged_card_open};
use common::{
    times, up_to, with_flip, Answer, Guarded, Pair, CARD_EXTRA, LONGEST_BLOCK, LONGEST_CARD_TEXT,
    LONGEST_DATA, LONGEST_TEXT,
};
use second::random::Random;
use second::{card, drawer, drawer_file, hyena};
use vespruldo::archive;

const THREADS: u64 = 16;
const FIRST_SEED: u64 = 2000;

/// How many, over all threads.
fn cases() -> u64 {
    times(1_000_000) as u64
}

#[derive(Clone, Copy, Debug, PartialEq, Eq, PartialOrd, Ord)]
enum Entry {
    Seal,
    Open,
    SealShort,
    OpenShort,
    SealInPlace,
    OpenInPlace,
    CardSeal,
    CardOpen,
    GiftEncipher,
    GiftDecipher,
    ChaCha20,
    Blake2b,
    LionessEncipher,
    LionessDecipher,
    DrawerStart,
    DrawerDraw,
    DrawerIv,
    DrawerStore,
    DrawerLoad,
    SealBatch,
    KeyFind,
    PackNext,
    PackJudge,
    Same,
}

/// Each entry point, how many of a thousand cases are its own, and the numbers
/// that it answers.
const ENTRIES: [(Entry, usize, &[u32]); 24] = [
    (Entry::Seal, 50, &[0, 1, 2, 3, 4, 5, 6]),
    (Entry::Open, 60, &[0, 1, 2, 3, 4, 5, 6, 7]),
    (Entry::SealShort, 40, &[0, 1, 2, 4, 5, 6]),
    (Entry::OpenShort, 50, &[0, 1, 2, 4, 5, 6, 7]),
    (Entry::SealInPlace, 45, &[0, 1, 2, 3, 4, 5]),
    (Entry::OpenInPlace, 50, &[0, 1, 2, 3, 4, 5, 7]),
    (Entry::CardSeal, 45, &[0, 1, 2, 3, 4, 6]),
    (Entry::CardOpen, 65, &[0, 1, 3, 6, 7, 12, 15]),
    (Entry::GiftEncipher, 35, &[0, 1, 4]),
    (Entry::GiftDecipher, 35, &[0, 1, 4]),
    (Entry::ChaCha20, 65, &[0, 1, 2, 4, 8]),
    (Entry::Blake2b, 55, &[0, 1, 4, 6]),
    (Entry::LionessEncipher, 40, &[0, 1, 2, 4]),
    (Entry::LionessDecipher, 40, &[0, 1, 2, 4]),
    (Entry::DrawerStart, 15, &[0]),
    (Entry::DrawerDraw, 30, &[0, 9]),
    (Entry::DrawerIv, 35, &[0, 9]),
    (Entry::DrawerStore, 25, &[0]),
    (Entry::DrawerLoad, 35, &[0, 106]),
    (Entry::SealBatch, 45, &[0, 1, 3, 4, 5, 6, 9, 18]),
    (Entry::KeyFind, 55, &[0, 10, 11]),
    (Entry::PackNext, 40, &[0, 12, 13, 14, 15]),
    (Entry::PackJudge, 25, &[0, 12, 13, 14, 15]),
    (Entry::Same, 20, &[0, 1]),
];

impl Entry {
    fn random(random: &mut Random) -> Entry {
        let mut place = up_to(random, 999);
        for (entry, share, _) in ENTRIES {
            if place < share {
                return entry;
            }
            place -= share;
        }
        panic!("the shares of the entry points are less than a thousand");
    }
}

/// What document 01, Sizes, allows as the length of a buffer.
#[derive(Clone, Copy)]
enum Size {
    Exactly(usize),
    Between(usize, usize),
    /// At least the length of the buffer that stands at this place, and so many
    /// bytes more.
    Room(usize, usize),
}

const TEXT: Size = Size::Between(0, LONGEST_TEXT);
const DATA: Size = Size::Between(0, LONGEST_DATA);

/// Key, nonce, associated data, text, tag and room.
const HYENA: [Size; 6] = [
    Size::Exactly(16),
    Size::Exactly(12),
    DATA,
    TEXT,
    Size::Exactly(16),
    Size::Room(3, 0),
];

/// The same without data.
const HYENA_SHORT: [Size; 5] = [
    Size::Exactly(16),
    Size::Exactly(12),
    TEXT,
    Size::Exactly(16),
    Size::Room(2, 0),
];

/// Key, nonce, associated data, buffer and tag.
const IN_PLACE: [Size; 5] = [
    Size::Exactly(16),
    Size::Exactly(12),
    DATA,
    TEXT,
    Size::Exactly(16),
];

/// Key, nonce, associated data, text, and room for the card.
const CARD_SEAL: [Size; 5] = [
    Size::Exactly(16),
    Size::Exactly(12),
    DATA,
    Size::Between(0, LONGEST_CARD_TEXT),
    Size::Room(3, CARD_EXTRA),
];

/// Key, associated data, the text that a card says it has, which cannot be too
/// long, and room for it.
const CARD_OPEN: [Size; 4] = [
    Size::Exactly(16),
    DATA,
    Size::Between(0, 200),
    Size::Room(2, 0),
];

const GIFT: [Size; 2] = [Size::Exactly(16), Size::Exactly(16)];
const CHACHA20: [Size; 3] = [Size::Exactly(32), Size::Exactly(12), TEXT];
const BLAKE2B: [Size; 3] = [Size::Between(0, 64), TEXT, Size::Between(1, 64)];
const LIONESS: [Size; 3] = [
    Size::Exactly(128),
    Size::Exactly(48),
    Size::Between(33, LONGEST_BLOCK),
];

/// One of these.
fn one_of<T: Copy>(random: &mut Random, choice: &[T]) -> T {
    choice[up_to(random, choice.len() - 1)]
}

/// One time out of so many.
fn once_in(random: &mut Random, times: usize) -> bool {
    up_to(random, times - 1) == 0
}

impl Size {
    /// A short length that is allowed. `lens` are those of the buffers before.
    fn right(self, random: &mut Random, lens: &[usize]) -> usize {
        match self {
            Size::Exactly(len) => len,
            Size::Between(least, most) => {
                let more = if once_in(random, 16) { 200 } else { 40 };
                most.min(least + up_to(random, more))
            }
            Size::Room(place, more) if once_in(random, 2) => lens[place] + more,
            Size::Room(place, more) => lens[place] + more + up_to(random, 20),
        }
    }

    /// A length that mostly is not allowed: wrong by one, nothing, or any. Long
    /// buffers take time, so where only they are wrong, the length often is
    /// allowed after all.
    fn wrong(self, random: &mut Random, lens: &[usize]) -> usize {
        let below = |random: &mut Random, least: usize| {
            let any = up_to(random, least);
            one_of(random, &[least.saturating_sub(1), 0, any])
        };
        match self {
            Size::Exactly(len) if once_in(random, 2) => len + 1 + below(random, len),
            Size::Exactly(len) => below(random, len),
            Size::Between(_, most) if once_in(random, 2 + most / 64_000) => {
                most + 1 + below(random, 17)
            }
            Size::Between(0, _) => self.right(random, lens),
            Size::Between(least, _) => below(random, least),
            Size::Room(place, more) => below(random, lens[place] + more),
        }
    }
}

/// Lengths of the buffers of one call. In half of the cases all are allowed; in
/// the others mostly one is wrong, and often more, so that several refusals
/// apply.
fn lengths<const N: usize>(random: &mut Random, sizes: [Size; N]) -> [usize; N] {
    let wrong_place = once_in(random, 2).then(|| up_to(random, N - 1));
    let mut lens = [0; N];
    for (n, size) in sizes.into_iter().enumerate() {
        let wrong = wrong_place.is_some_and(|place| place == n || once_in(random, 4));
        let len = if wrong { Size::wrong } else { Size::right };
        lens[n] = len(size, random, &lens[..n]);
    }
    lens
}

/// What is opened: key, nonce, associated data, ciphertext and tag.
type Parts = [Vec<u8>; 5];

/// Puts the ciphertext in the place of the text, and its tag. Not the archive
/// seals: it must open what others sealed.
fn sealed([key, nonce, data, text, mut tag]: Parts) -> Parts {
    let mut ciphertext = vec![0; text.len()];
    let number = hyena::seal(&key, &nonce, &data, &text, &mut ciphertext, &mut tag);
    assert_eq!(number, 0, "the second implementation seals");
    [key, nonce, data, ciphertext, tag]
}

/// Damages one bit of one part: of the tag where the part chosen is empty.
fn damage(random: &mut Random, parts: &mut Parts) {
    let chosen = up_to(random, 4);
    let place = if parts[chosen].is_empty() { 4 } else { chosen };
    let bit = up_to(random, 8 * parts[place].len() - 1);
    parts[place] = with_flip(&parts[place], bit);
}

/// What to open where these are the lengths, room for it, and the number that
/// must be answered. Where the lengths are allowed, half of what is opened is
/// undamaged.
fn opening(random: &mut Random, lens: [usize; 6]) -> ([Guarded; 5], Guarded, u32) {
    let [key, nonce, data, text, tag, room] = lens;
    let mut parts = [key, nonce, data, text, tag].map(|len| random.bytes(len));
    let mut expected = judged(lens);
    if expected == 0 {
        parts = sealed(parts);
        if once_in(random, 2) {
            damage(random, &mut parts);
            expected = 7;
        }
    }
    let parts = parts.map(|part| Guarded::holding(random, &part));
    (parts, Guarded::new(random, room), expected)
}

/// What to open in place where these are the lengths, and the number that must be
/// answered: as above, but that the buffer is text and room.
fn opening_in_place(random: &mut Random, lens: [usize; 5]) -> ([Guarded; 4], Guarded, u32) {
    let [key, nonce, data, buffer, tag] = lens;
    let lens = [key, nonce, data, buffer, tag, buffer];
    let ([key, nonce, data, buffer, tag], _, expected) = opening(random, lens);
    ([key, nonce, data, tag], buffer, expected)
}

/// Cuts a card short, adds bytes or flips a bit.
fn damage_card(random: &mut Random, card: &mut Vec<u8>) {
    match up_to(random, 3) {
        0 => card.truncate(up_to(random, card.len() - 1)),
        1 => {
            let more = 1 + up_to(random, 40);
            card.extend(random.bytes(more));
        }
        _ => *card = with_flip(card, up_to(random, 8 * card.len() - 1)),
    }
}

/// What to open as a card where these are the lengths, room for it, and the
/// number that must be answered. Half of the cards are undamaged.
fn opening_card(random: &mut Random, lens: [usize; 4]) -> ([Guarded; 3], Guarded, u32) {
    let [key_len, data_len, text_len, room_len] = lens;
    // A key or data of a wrong length has sealed nothing.
    let sealed_len = if data_len > LONGEST_DATA { 0 } else { data_len };
    let [mut key, nonce, mut data, text] =
        [16, 12, sealed_len, text_len].map(|len| random.bytes(len));
    // Not the archive seals: it must open what others sealed.
    let mut bytes = card::seal(&key, &nonce, &data, &text).expect("the lengths are allowed");
    key.resize(key_len, 0);
    data.resize(data_len, 0);
    let damaged = once_in(random, 2);
    if damaged {
        damage_card(random, &mut bytes);
    }
    let said = [12, 13].map(|place| bytes.get(place).copied().unwrap_or(0));
    let said = usize::from(u16::from_le_bytes(said));
    let judged = judged_card_open([key_len, data_len, bytes.len()], said, room_len);
    let expected = if judged == 0 && damaged { 7 } else { judged };
    let read = [key, data, bytes].map(|part| Guarded::holding(random, &part));
    (read, Guarded::new(random, room_len), expected)
}

/// A start from which a short text ends near the counter's end, one behind that,
/// one from which it ends near 2^64, or any.
fn chacha20_start(random: &mut Random) -> u64 {
    let (end, few, any) = (1 << 32, up_to(random, 4) as u64, random.next_u64());
    let before = end - 1 - few;
    let behind = one_of(random, &[end + few, u64::MAX - few, any]);
    one_of(random, &[before, behind, any >> 32, any >> 56])
}

/// Reader number and count, each at a border or any.
fn drawer_numbers(random: &mut Random) -> (u32, u64) {
    let reader = random.next_u64() as u32;
    let (few, count) = (up_to(random, 3) as u64, random.next_u64());
    (
        one_of(random, &[0, u32::MAX, reader, reader]),
        one_of(random, &[few, u64::MAX - few, count]),
    )
}

/// Both draw, or take an iv, and answer the same number, bytes and drawer.
fn compare_draws<const N: usize>(
    random: &mut Random,
    ours: unsafe extern "C" fn(archive::Drawer) -> archive::Drawn<N>,
    seconds: fn(drawer::Drawer) -> drawer::Draw<N>,
) -> u32 {
    let (reader, count) = drawer_numbers(random);
    // SAFETY: drawers and answers go by value, and every drawer is allowed.
    let drawn = unsafe { ours(archive::Drawer { reader, count }) };
    let expected = seconds(drawer::Drawer { reader, count });
    let case = format!("reader {reader}, count {count}");
    assert_eq!(drawn.number, expected.number, "{case}");
    assert_eq!(drawn.bytes, expected.bytes, "{case}");
    let next = (drawn.next.reader, drawn.next.count);
    assert_eq!(next, (expected.next.reader, expected.next.count), "{case}");
    drawn.number
}

fn compare_starts(random: &mut Random) -> u32 {
    let (reader, count) = drawer_numbers(random);
    // SAFETY: numbers and drawers go by value, and all of them are allowed.
    let started = unsafe { archive::vespruldo_drawer_start(reader, count) };
    let expected = drawer::start(reader, count);
    let case = format!("reader {reader}, count {count}");
    assert_eq!(started.reader, expected.reader, "{case}");
    assert_eq!(started.count, expected.count, "{case}");
    0
}

/// Both store a drawer in the same bytes.
fn compare_stores(random: &mut Random) -> u32 {
    let (reader, count) = drawer_numbers(random);
    // SAFETY: drawers and answers go by value, and every drawer is allowed.
    let stored = unsafe { archive::vespruldo_drawer_store(archive::Drawer { reader, count }) };
    let expected = drawer_file::store(drawer::start(reader, count));
    assert_eq!(stored.bytes[..], expected, "reader {reader}, count {count}");
    0
}

/// Both load a drawer from its bytes, in half of the cases damaged ones.
fn compare_loads(random: &mut Random) -> u32 {
    let (reader, count) = drawer_numbers(random);
    let mut bytes = drawer_file::store(drawer::start(reader, count));
    match up_to(random, 5) {
        0 => bytes = with_flip(&bytes, up_to(random, 8 * bytes.len() - 1)),
        1 => bytes.truncate(up_to(random, bytes.len() - 1)),
        2 => {
            let more = 1 + up_to(random, 20);
            bytes.extend(random.bytes(more));
        }
        _ => {}
    }
    let expected = drawer_file::load(&bytes);
    let mut lent = Guarded::holding(random, &bytes);
    let before = lent.clone();
    let place = lent.lent().as_ptr();
    // SAFETY: the bytes are lent for the whole call and only read.
    let loaded = unsafe { archive::vespruldo_drawer_load(place, bytes.len()) };
    assert!(lent == before, "the bytes, or their guards");
    let refused = drawer::start(0, u64::MAX);
    let drawer = expected.unwrap_or(refused);
    assert_eq!(loaded.number, expected.map_or(106, |_| 0), "{bytes:?}");
    assert_eq!(loaded.drawer.reader, drawer.reader, "{bytes:?}");
    assert_eq!(loaded.drawer.count, drawer.count, "{bytes:?}");
    loaded.number
}

/// The lengths of a batch, mostly right ones.
fn batch_lengths(random: &mut Random) -> Vec<u64> {
    let (few, any) = (1 + up_to(random, 3), 1 + up_to(random, 11));
    let none_or_many = one_of(random, &[0, 13, 14, 40]);
    let cards = one_of(random, &[few, few, few, any, any, any, any, none_or_many]);
    let mut lengths: Vec<u64> = (0..cards).map(|_| up_to(random, 20) as u64).collect();
    if cards > 0 && once_in(random, 16) {
        let long = one_of(random, &[LONGEST_TEXT as u64 + 1, 1 << 32, u64::MAX]);
        lengths[up_to(random, cards - 1)] = long;
    }
    lengths
}

/// Both seal a batch, with a drawer that is sometimes nearly spent.
fn compare_batches(random: &mut Random) -> u32 {
    let listed = batch_lengths(random);
    let (reader, mut count) = drawer_numbers(random);
    if once_in(random, 4) {
        count = u64::MAX - up_to(random, 14) as u64;
    }
    let sum: u64 = listed.iter().filter(|len| **len <= 20).sum();
    let sizes = [
        Size::Exactly(16),
        DATA,
        Size::Exactly(sum as usize),
        Size::Exactly(16 * listed.len()),
        Size::Room(2, 0),
    ];
    let [key, data, texts, tags, room] = lengths(random, sizes);
    let pair = pairs::seal_batch(&listed, drawer::start(reader, count));
    pair.compare(random, [key, data, texts], [room, tags])
}

/// Two buffers are compared: the same, or with a bit flipped, or another length.
fn compare_comparisons(random: &mut Random) -> u32 {
    let len = up_to(random, 80);
    let a = random.bytes(len);
    let mut b = a.clone();
    match up_to(random, 3) {
        0 if len > 0 => b = with_flip(&b, up_to(random, 8 * len - 1)),
        1 if len > 0 => b.truncate(up_to(random, len - 1)),
        _ => {}
    }
    let mut lent = [&a, &b].map(|bytes| Guarded::holding(random, bytes));
    let before = lent.clone();
    let [first, second] = lent.each_mut().map(|buffer| &*buffer.lent());
    // SAFETY: both are lent for the whole call and only read.
    let same = unsafe {
        let [a, b] = [first, second].map(<[u8]>::as_ptr);
        archive::vespruldo_same(a, first.len(), b, second.len())
    };
    assert!(lent == before, "what is compared, or its guards");
    assert_eq!(same, a == b, "{a:?} and {b:?}");
    u32::from(same)
}

/// A book with a few classes from 0 to `most`, one time out of four damaged in
/// count, order or length.
fn random_book(random: &mut Random, most: usize) -> Vec<u8> {
    let len = up_to(random, 5);
    let mut classes: Vec<u16> = (0..len).map(|_| up_to(random, most) as u16).collect();
    classes.sort_unstable();
    classes.dedup();
    let damage = up_to(random, 15);
    if damage == 0 && classes.len() > 1 {
        let n = up_to(random, classes.len() - 2);
        classes[n + 1] = one_of(random, &classes[..=n]);
    }
    let mut book = book(random, &classes);
    let count = classes.len() as u16;
    match damage {
        1 => {
            let any = random.next_u64() as u16;
            let [less, more] = [count.wrapping_sub(1), count + 1];
            book = with_count(&book, one_of(random, &[less, more, count << 8, any]));
        }
        2 => book.truncate(up_to(random, book.len() - 1)),
        3 => {
            let more = one_of(random, &[1, 2, 18, 36]);
            book.extend(random.bytes(more));
        }
        _ => {}
    }
    book
}

/// Both look a class up in two books, which may be one.
fn compare_lookups(random: &mut Random) -> u32 {
    // Of few classes each book has many, and so both have the same ones.
    let most = one_of(random, &[3, 12, 12, 0x2ff, 0xffff]);
    let books = [most; 2].map(|most| random_book(random, most));
    let listed = books.each_ref().map(|book| book.get(2..4));
    let any = (up_to(random, most) as u16).to_le_bytes();
    let class = one_of(random, &[listed[0], listed[1], None, None, None]).unwrap_or(&any);
    let class = u16::from_le_bytes([class[0], class[1]]);

    let mut lent = books.map(|book| Guarded::holding(random, &book));
    let before = lent.clone();
    let [this, last] = lent.each_mut().map(|book| &*book.lent());
    let books = if once_in(random, 8) {
        [this, this]
    } else {
        [this, last]
    };
    let found = books::compare(books, class);
    assert!(lent == before, "books, or their guards, class {class}");
    found.number
}

/// Hands a lesson pack, in half of the cases a damaged one, to `compare`, which
/// changes nothing there.
fn compare_packs<T>(random: &mut Random, compare: impl FnOnce(&[u8]) -> T) -> T {
    let lesson = Lesson::random(random);
    let pack = if once_in(random, 2) {
        lesson.damaged(random)
    } else {
        lesson.pack()
    };
    let mut lent = Guarded::holding(random, &pack);
    let before = lent.clone();
    let answer = compare(lent.lent());
    assert!(lent == before, "the pack, or its guards");
    answer
}

/// Both answer the same at a place, mostly one that a reader can come to.
fn compare_cards(random: &mut Random) -> u32 {
    let (near, any) = (up_to(random, 15), random.next_u64() as usize);
    let place = one_of(random, &[near, near, near, near, any]);
    compare_packs(random, |pack| compare_next(pack, place)).number
}

/// The pairs that a thread compares; ChaCha20's depends on where it starts, and a
/// batch's on its lengths and its drawer.
struct Pairs {
    seal: Pair<4, 2>,
    open: Pair<5, 1>,
    seal_short: Pair<3, 2>,
    open_short: Pair<4, 1>,
    seal_in_place: Pair<3, 2>,
    open_in_place: Pair<4, 1>,
    card_seal: Pair<4, 1>,
    card_open: Pair<3, 1>,
    gift_encipher: Pair<1, 1>,
    gift_decipher: Pair<1, 1>,
    blake2b: Pair<2, 1>,
    lioness_encipher: Pair<2, 1>,
    lioness_decipher: Pair<2, 1>,
}

impl Pairs {
    fn new() -> Pairs {
        Pairs {
            seal: pairs::seal(),
            open: pairs::open(),
            seal_short: pairs::seal_short(),
            open_short: pairs::open_short(),
            seal_in_place: pairs::seal_in_place(),
            open_in_place: pairs::open_in_place(),
            card_seal: pairs::card_seal(),
            card_open: pairs::card_open(),
            gift_encipher: pairs::gift_encipher(),
            gift_decipher: pairs::gift_decipher(),
            blake2b: pairs::blake2b(),
            lioness_encipher: pairs::lioness_encipher(),
            lioness_decipher: pairs::lioness_decipher(),
        }
    }

    /// A case of this entry point; answers the number on which both agree.
    fn compare(&self, entry: Entry, random: &mut Random) -> u32 {
        match entry {
            Entry::Seal | Entry::SealShort | Entry::SealInPlace | Entry::CardSeal => {
                self.compare_sealings(entry, random)
            }
            Entry::Open | Entry::OpenShort | Entry::OpenInPlace | Entry::CardOpen => {
                self.compare_openings(entry, random)
            }
            Entry::GiftEncipher => compare_gifts(&self.gift_encipher, random),
            Entry::GiftDecipher => compare_gifts(&self.gift_decipher, random),
            Entry::ChaCha20 => {
                let start = chacha20_start(random);
                compare_threes(&pairs::chacha20(start), random, CHACHA20)
            }
            Entry::Blake2b => compare_threes(&self.blake2b, random, BLAKE2B),
            Entry::LionessEncipher => compare_threes(&self.lioness_encipher, random, LIONESS),
            Entry::LionessDecipher => compare_threes(&self.lioness_decipher, random, LIONESS),
            Entry::DrawerStart => compare_starts(random),
            Entry::DrawerDraw => {
                compare_draws(random, archive::vespruldo_drawer_draw, drawer::draw)
            }
            Entry::DrawerIv => compare_draws(random, archive::vespruldo_drawer_iv, drawer::iv),
            Entry::DrawerStore => compare_stores(random),
            Entry::DrawerLoad => compare_loads(random),
            Entry::SealBatch => compare_batches(random),
            Entry::KeyFind => compare_lookups(random),
            Entry::PackNext => compare_cards(random),
            Entry::PackJudge => compare_packs(random, compare_judges).number,
            Entry::Same => compare_comparisons(random),
        }
    }

    fn compare_sealings(&self, entry: Entry, random: &mut Random) -> u32 {
        match entry {
            Entry::Seal => {
                let [key, nonce, data, text, tag, room] = lengths(random, HYENA);
                let read_lens = [key, nonce, data, text];
                self.seal.compare(random, read_lens, [room, tag])
            }
            Entry::SealShort => {
                let [key, nonce, text, tag, room] = lengths(random, HYENA_SHORT);
                let read_lens = [key, nonce, text];
                self.seal_short.compare(random, read_lens, [room, tag])
            }
            Entry::SealInPlace => {
                let [key, nonce, data, buffer, tag] = lengths(random, IN_PLACE);
                let read_lens = [key, nonce, data];
                self.seal_in_place.compare(random, read_lens, [buffer, tag])
            }
            Entry::CardSeal => {
                let [key, nonce, data, text, room] = lengths(random, CARD_SEAL);
                let read_lens = [key, nonce, data, text];
                self.card_seal.compare(random, read_lens, [room])
            }
            _ => panic!("{entry:?} seals nothing"),
        }
    }

    fn compare_openings(&self, entry: Entry, random: &mut Random) -> u32 {
        let ((number, _), expected) = match entry {
            Entry::Open => {
                let lens = lengths(random, HYENA);
                let (parts, room, expected) = opening(random, lens);
                (self.open.run(parts, [room]), expected)
            }
            Entry::OpenShort => {
                let [key, nonce, text, tag, room] = lengths(random, HYENA_SHORT);
                let lens = [key, nonce, 0, text, tag, room];
                let ([key, nonce, _, text, tag], room, expected) = opening(random, lens);
                let parts = [key, nonce, text, tag];
                (self.open_short.run(parts, [room]), expected)
            }
            Entry::OpenInPlace => {
                let lens = lengths(random, IN_PLACE);
                let (parts, buffer, expected) = opening_in_place(random, lens);
                (self.open_in_place.run(parts, [buffer]), expected)
            }
            Entry::CardOpen => {
                let lens = lengths(random, CARD_OPEN);
                let (parts, room, expected) = opening_card(random, lens);
                (self.card_open.run(parts, [room]), expected)
            }
            _ => panic!("{entry:?} opens nothing"),
        };
        assert_eq!(number, expected, "{entry:?}");
        number
    }
}

fn compare_gifts(pair: &Pair<1, 1>, random: &mut Random) -> u32 {
    let [key, block] = lengths(random, GIFT);
    pair.compare(random, [key], [block])
}

/// Two buffers are read, and one is worked in.
fn compare_threes<A: Answer>(pair: &Pair<2, 1, A>, random: &mut Random, sizes: [Size; 3]) -> u32 {
    let [first, second, worked] = lengths(random, sizes);
    pair.compare(random, [first, second], [worked])
}

/// How often each entry point answered each number.
type Tally = BTreeMap<(Entry, u32), u64>;

/// Where a thread is, said when a case fails, so that it can be found again.
struct Place {
    seed: u64,
    case: u64,
    entry: Entry,
}

impl Drop for Place {
    fn drop(&mut self) {
        if thread::panicking() {
            let Place { seed, case, entry } = self;
            eprintln!("seed {seed}, case {case}: {entry:?}");
        }
    }
}

/// A thread's part of the cases, from its own generator.
fn compare_cases(seed: u64) -> Tally {
    let mut random = Random::new(seed);
    let pairs = Pairs::new();
    let mut tally = Tally::new();
    for case in 0..cases() / THREADS {
        let entry = Entry::random(&mut random);
        let _place = Place { seed, case, entry };
        let number = pairs.compare(entry, &mut random);
        *tally.entry((entry, number)).or_default() += 1;
    }
    tally
}

/// All threads begin at the same time.
fn compare_in_threads() -> Tally {
    let start = Barrier::new(THREADS as usize);
    let work = |seed| {
        start.wait();
        compare_cases(seed)
    };
    let mut tally = Tally::new();
    thread::scope(|scope| {
        let seeds = FIRST_SEED..FIRST_SEED + THREADS;
        let threads: Vec<_> = seeds.map(|seed| scope.spawn(move || work(seed))).collect();
        for thread in threads {
            let part = thread
                .join()
                .unwrap_or_else(|why| panic::resume_unwind(why));
            for (answer, times) in part {
                *tally.entry(answer).or_default() += times;
            }
        }
    });
    tally
}

#[test]
fn a_million_cases_from_many_threads_agree() {
    let mut tally = compare_in_threads();
    assert_eq!(tally.values().sum::<u64>(), cases());
    for (entry, _, numbers) in ENTRIES {
        for &number in numbers {
            let times = tally.remove(&(entry, number)).unwrap_or(0);
            println!("{entry:?} {number}: {times}");
            // Little is shown of what hardly ever came.
            assert!(times >= cases() / 10_000, "{entry:?} {number}: {times}");
        }
    }
    assert!(tally.is_empty(), "not promised: {tally:?}");
}
