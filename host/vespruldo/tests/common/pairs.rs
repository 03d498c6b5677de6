//! The archive's functions that answer a number, each beside the same function
//! of the second implementation.

use std::rc::Rc;

use second::batch::Batch;
use second::chacha::Streamed;
use second::drawer::Drawer;
use second::{batch, blake, card, chacha, drawer, gift, hyena, lioness};
use vespruldo::{archive, slices};

use super::{
    number, Pair, CARD_EXTRA, LONGEST_BLOCK, LONGEST_CARD_TEXT, LONGEST_DATA, LONGEST_TEXT,
};

/// The number for these lengths: that of the first that is not allowed, or 0.
pub fn judged([key, nonce, data, text, tag, room]: [usize; 6]) -> u32 {
    let wrong = [
        (1, key != 16),
        (2, nonce != 12),
        (3, data > LONGEST_DATA),
        (4, text > LONGEST_TEXT),
        (5, tag != 16),
        (6, room < text),
    ];
    first_wrong(wrong)
}

/// The number that stands beside the first of these that is so, or 0.
fn first_wrong<const N: usize>(wrong: [(u32, bool); N]) -> u32 {
    let first = wrong.into_iter().find(|(_, wrong)| *wrong);
    first.map_or(0, |(number, _)| number)
}

/// Every choice of lengths of key, nonce, data, text and tag that are not allowed,
/// on two sides of what is, each with the smallest number that applies, or 0.
pub fn choices_of_lengths() -> impl Iterator<Item = ([usize; 5], u32)> {
    let right = [16, 12, 0, 33, 16];
    let wrong = [
        [15, 11, LONGEST_DATA + 1, LONGEST_TEXT + 1, 15],
        [17, 13, LONGEST_DATA + 16, LONGEST_TEXT + 16, 17],
    ];
    (0..1 << 5).flat_map(move |choice| {
        let is_wrong = move |n: usize| choice >> n & 1 == 1;
        let smallest = (0..5).zip(1..).find(|(n, _)| is_wrong(*n));
        let smallest = smallest.map_or(0, |(_, number)| number);
        wrong.map(|wrong| {
            let lens = std::array::from_fn(|n| if is_wrong(n) { wrong[n] } else { right[n] });
            (lens, smallest)
        })
    })
}

/// The number for these lengths in opening, where the tag is not the recomputed
/// one. Of random-looking bytes none ever is.
fn judged_with_wrong_tag(lens: [usize; 6]) -> u32 {
    match judged(lens) {
        0 => 7,
        refusal => refusal,
    }
}

pub fn seal() -> Pair<4, 2> {
    Pair::new(
        "seal",
        |[key, nonce, data, text], [room, tag]| {
            number(slices::seal(key, nonce, data, text, room, tag))
        },
        |[key, nonce, data, text], [room, tag]| hyena::seal(key, nonce, data, text, room, tag),
        |[key, nonce, data, text], [room, tag]| judged([key, nonce, data, text, tag, room]),
    )
}

pub fn open() -> Pair<5, 1> {
    Pair::new(
        "open",
        |[key, nonce, data, text, tag], [room]| {
            number(slices::open(key, nonce, data, text, tag, room))
        },
        |[key, nonce, data, text, tag], [room]| hyena::open(key, nonce, data, text, tag, room),
        |[key, nonce, data, text, tag], [room]| {
            judged_with_wrong_tag([key, nonce, data, text, tag, room])
        },
    )
    .zeroing(|[_, _, _, text, _], _| text)
}

pub fn seal_short() -> Pair<3, 2> {
    Pair::new(
        "seal_short",
        |[key, nonce, text], [room, tag]| number(slices::seal_short(key, nonce, text, room, tag)),
        |[key, nonce, text], [room, tag]| hyena::seal_short(key, nonce, text, room, tag),
        |[key, nonce, text], [room, tag]| judged([key, nonce, 0, text, tag, room]),
    )
}

pub fn open_short() -> Pair<4, 1> {
    Pair::new(
        "open_short",
        |[key, nonce, text, tag], [room]| number(slices::open_short(key, nonce, text, tag, room)),
        |[key, nonce, text, tag], [room]| hyena::open_short(key, nonce, text, tag, room),
        |[key, nonce, text, tag], [room]| judged_with_wrong_tag([key, nonce, 0, text, tag, room]),
    )
    .zeroing(|[_, _, text, _], _| text)
}

pub fn seal_in_place() -> Pair<3, 2> {
    Pair::new(
        "seal_in_place",
        |[key, nonce, data], [buffer, tag]| {
            number(slices::seal_in_place(key, nonce, data, buffer, tag))
        },
        |[key, nonce, data], [buffer, tag]| hyena::seal_in_place(key, nonce, data, buffer, tag),
        |[key, nonce, data], [buffer, tag]| judged([key, nonce, data, buffer, tag, buffer]),
    )
}

pub fn open_in_place() -> Pair<4, 1> {
    Pair::new(
        "open_in_place",
        |[key, nonce, data, tag], [buffer]| {
            number(slices::open_in_place(key, nonce, data, buffer, tag))
        },
        |[key, nonce, data, tag], [buffer]| hyena::open_in_place(key, nonce, data, buffer, tag),
        |[key, nonce, data, tag], [buffer]| {
            judged_with_wrong_tag([key, nonce, data, buffer, tag, buffer])
        },
    )
    .zeroing(|_, [buffer]| buffer)
}

fn judged_card_seal([key, nonce, data, text]: [usize; 4], [room]: [usize; 1]) -> u32 {
    let wrong = [
        (1, key != 16),
        (2, nonce != 12),
        (3, data > LONGEST_DATA),
        (4, text > LONGEST_CARD_TEXT),
        (6, room < text + CARD_EXTRA),
    ];
    first_wrong(wrong)
}

pub fn card_seal() -> Pair<4, 1> {
    Pair::new(
        "card_seal",
        |[key, nonce, data, text], [room]| number(slices::card_seal(key, nonce, data, text, room)),
        |[key, nonce, data, text], [room]| card::seal_into(key, nonce, data, text, room),
        judged_card_seal,
    )
}

/// The number for these lengths in opening a card that says that its text has
/// `text` bytes; 0 stands for a right tag.
pub fn judged_card_open([key, data, card]: [usize; 3], text: usize, room: usize) -> u32 {
    let wrong = [
        (1, key != 16),
        (3, data > LONGEST_DATA),
        (12, card < text + CARD_EXTRA),
        (15, card > text + CARD_EXTRA),
        (6, room < text),
    ];
    first_wrong(wrong)
}

/// What is expected of lengths alone is for a card that is whole, or as long as
/// a card can be: of random-looking ones hardly any is.
pub fn card_open() -> Pair<3, 1> {
    Pair::new(
        "card_open",
        |[key, data, card], [room]| number(slices::card_open(key, data, card, room)),
        |[key, data, card], [room]| card::open_into(key, data, card, room),
        |read_lens, [room]| {
            let text = read_lens[2].saturating_sub(CARD_EXTRA);
            match judged_card_open(read_lens, text.min(LONGEST_CARD_TEXT), room) {
                0 => 7,
                refusal => refusal,
            }
        },
    )
    .zeroing(|[_, _, card], _| card - CARD_EXTRA)
}

/// The answer for these lengths of buffers, with this list of lengths and this
/// drawer. Nothing is counted or added in 64 bits.
fn judged_batch(
    [key, data, texts]: [usize; 3],
    (lengths, drawer): (&[u64], Drawer),
    [room, tags]: [usize; 2],
) -> Batch {
    let listed = lengths.len() as u128;
    let sum: u128 = lengths.iter().map(|&length| u128::from(length)).sum();
    let wrong = [
        (1, key != 16),
        (3, data > LONGEST_DATA),
        (
            4,
            lengths.iter().any(|&length| length > LONGEST_TEXT as u64),
        ),
        (5, tags as u128 != 16 * listed),
        (6, room < texts),
        (9, u128::from(u64::MAX - drawer.count) < listed),
        (18, !(1..=12).contains(&listed) || sum != texts as u128),
    ];
    let number = first_wrong(wrong);
    let drawn = if number == 0 { listed as u64 } else { 0 };
    let next = drawer::start(drawer.reader, drawer.count + drawn);
    Batch { number, next }
}

/// The archive's own answer, with the drawer that comes with a refusal.
pub fn batched(
    [key, data, texts]: [&[u8]; 3],
    (lengths, drawer): (&[u64], Drawer),
    [room, tags]: [&mut [u8]; 2],
) -> Batch {
    let Drawer { reader, count } = drawer;
    // SAFETY: each pointer comes with its slice's own length, and room and tags,
    // lent mutably, lie apart from each other and from what is read.
    let archive::Batch { number, next } = unsafe {
        archive::vespruldo_seal_batch(
            key.as_ptr(),
            key.len(),
            data.as_ptr(),
            data.len(),
            texts.as_ptr(),
            texts.len(),
            lengths.as_ptr(),
            lengths.len(),
            archive::Drawer { reader, count },
            room.as_mut_ptr(),
            room.len(),
            tags.as_mut_ptr(),
            tags.len(),
        )
    };
    let next = drawer::start(next.reader, next.count);
    Batch { number, next }
}

/// What the safe function answers, which moves a drawer on and hands back nonces,
/// with room and tags of its own of these lengths.
fn batched_safely(
    [key, data, texts]: [&[u8]; 3],
    (lengths, drawer): (&[u64], Drawer),
    lens: [usize; 2],
) -> Batch {
    let [mut room, mut tags] = lens.map(|len| vec![0; len]);
    let mut moved = vespruldo::Drawer::start(drawer.reader, drawer.count);
    let sealed = slices::seal_batch(key, data, texts, lengths, &mut moved, &mut room, &mut tags);
    if let Ok(nonces) = sealed.clone() {
        let mut next = drawer;
        assert_eq!(nonces.len(), lengths.len());
        for nonce in nonces {
            let drawn = drawer::draw(next);
            assert_eq!((drawn.number, &drawn.bytes), (0, nonce.as_bytes()));
            next = drawn.next;
        }
    }
    Batch {
        number: number(sealed),
        next: drawer::start(moved.reader(), moved.count()),
    }
}

/// A batch with this list of lengths and this drawer.
pub fn seal_batch(lengths: &[u64], drawer: Drawer) -> Pair<3, 2, Batch> {
    let listed: Rc<[u64]> = lengths.into();
    let (seconds, expected) = (listed.clone(), listed.clone());
    // Whoever takes a length too many takes one that is allowed.
    let lent = [&[1], lengths, &[1]].concat();
    Pair::new(
        format!("seal_batch of {lengths:?} by {drawer:?}"),
        move |read, written| {
            let list = &lent[1..=listed.len()];
            let lens = written.each_ref().map(|buffer| buffer.len());
            let answer = batched(read, (list, drawer), written);
            assert_eq!(list, &*listed, "the lengths are only read");
            assert_eq!(batched_safely(read, (list, drawer), lens), answer);
            answer
        },
        move |[key, data, texts], [room, tags]| {
            batch::seal(key, data, texts, &seconds, drawer, room, tags)
        },
        move |read_lens, lens| judged_batch(read_lens, (&expected, drawer), lens),
    )
}

fn judged_gift([key_len]: [usize; 1], [block_len]: [usize; 1]) -> u32 {
    if key_len != 16 {
        1
    } else if block_len != 16 {
        4
    } else {
        0
    }
}

pub fn gift_encipher() -> Pair<1, 1> {
    Pair::new(
        "gift_encipher",
        |[key], [block]| number(slices::gift_encipher(key, block)),
        |[key], [block]| gift::encipher(key, block),
        judged_gift,
    )
}

pub fn gift_decipher() -> Pair<1, 1> {
    Pair::new(
        "gift_decipher",
        |[key], [block]| number(slices::gift_decipher(key, block)),
        |[key], [block]| gift::decipher(key, block),
        judged_gift,
    )
}

/// The answer for these lengths. No sum is ever cut to 64 bits.
fn judged_chacha20([key, nonce]: [usize; 2], start: u64, text: usize) -> Streamed {
    let next = u128::from(start) + text.div_ceil(64) as u128;
    let wrong = [
        (1, key != 32),
        (2, nonce != 12),
        (4, text > LONGEST_TEXT),
        (8, next > 1 << 32),
    ];
    match first_wrong(wrong) {
        0 => Streamed {
            number: 0,
            next: next as u64,
        },
        number => Streamed {
            number,
            next: start,
        },
    }
}

/// The archive's own answer, with what comes with a refusal.
pub fn streamed(key: &[u8], nonce: &[u8], start: u64, text: &mut [u8]) -> Streamed {
    // SAFETY: each pointer comes with its slice's own length, and the text, lent
    // mutably, lies apart from the others.
    let archive::Streamed { number, next } = unsafe {
        archive::vespruldo_chacha20(
            key.as_ptr(),
            key.len(),
            nonce.as_ptr(),
            nonce.len(),
            start,
            text.as_mut_ptr(),
            text.len(),
        )
    };
    Streamed { number, next }
}

/// The key stream from this counter on.
pub fn chacha20(start: u64) -> Pair<2, 1, Streamed> {
    Pair::new(
        format!("chacha20, start {start:#x}"),
        move |[key, nonce], [text]| {
            let len = text.len();
            let answer = streamed(key, nonce, start, text);
            // The safe one on a text of its own, or what a refusal had added to this
            // one would be taken off again.
            let safe = slices::chacha20(key, nonce, start, &mut vec![0; len]);
            assert_eq!(number(safe), answer.number);
            assert!(safe.is_err() || safe == Ok(answer.next));
            answer
        },
        move |[key, nonce], [text]| chacha::stream(key, nonce, start, text),
        move |read_lens, [text_len]| judged_chacha20(read_lens, start, text_len),
    )
}

fn judged_blake2b([key_len, text_len]: [usize; 2], [room_len]: [usize; 1]) -> u32 {
    if key_len > 64 {
        1
    } else if text_len > LONGEST_TEXT {
        4
    } else if !(1..=64).contains(&room_len) {
        6
    } else {
        0
    }
}

pub fn blake2b() -> Pair<2, 1> {
    Pair::new(
        "blake2b",
        |[key, text], [room]| number(slices::blake2b(key, text, room)),
        |[key, text], [room]| blake::digest(key, text, room),
        judged_blake2b,
    )
}

fn judged_lioness([key_len, iv_len]: [usize; 2], [block_len]: [usize; 1]) -> u32 {
    if key_len != 128 {
        1
    } else if iv_len != 48 {
        2
    } else if !(33..=LONGEST_BLOCK).contains(&block_len) {
        4
    } else {
        0
    }
}

pub fn lioness_encipher() -> Pair<2, 1> {
    Pair::new(
        "lioness_encipher",
        |[key, iv], [block]| number(slices::lioness_encipher(key, iv, block)),
        |[key, iv], [block]| lioness::encipher(key, iv, block),
        judged_lioness,
    )
}

pub fn lioness_decipher() -> Pair<2, 1> {
    Pair::new(
        "lioness_decipher",
        |[key, iv], [block]| number(slices::lioness_decipher(key, iv, block)),
        |[key, iv], [block]| lioness::decipher(key, iv, block),
        judged_lioness,
    )
}
