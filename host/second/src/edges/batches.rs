//! Batches at the edges (document 02, K3): how many cards there are and how many
//! draws remain, every choice of refusals, and lengths that are too long, do not
//! add up or would wrap around.
//!
//! The line of a batch is `batch KEY AD TEXTS ROOM TAGS READER COUNT LISTED
//! LENGTH.. NUMBER READER COUNT ROOMBYTES TAGBYTES`. The first five fields after
//! the word are lengths in bytes; the drawer follows, how many lengths are
//! listed, and each of them; then what was answered, with the drawer handed back,
//! and all bytes of the room and of the tags after the call.

use super::drawers::numbers;
use super::{filled, ROOM_BYTE, SPARE, TAG_BYTE};
use crate::batch::{seal, Batch};
use crate::drawer::{start, Drawer};
use crate::lines::{print_field, Order};

const READER: u32 = 0x0102_0304;

/// How many lengths are listed, and how many draws remain.
const LISTED: [usize; 5] = [0, 1, 2, 12, 13];
const LEFT: [u64; 6] = [0, 1, 11, 12, 13, u64::MAX];

/// The count of the drawer in the calls of [`SUMS`].
const COUNT: u64 = 9;

const LONGEST: u64 = 1_048_576;
const HALF: u64 = 1 << 63;
const MAX: u64 = u64::MAX;

/// How many lengths are listed, the four numbers that they are made of, and the
/// lengths in bytes of texts and tags.
#[rustfmt::skip]
const SUMS: [(usize, [u64; 4], usize, usize); 27] = [
    (1, [MAX, 0, 0, 0], 0, 16),
    (1, [MAX, 0, 0, 0], 5, 16),
    (2, [MAX, 6, 0, 0], 5, 32),
    (2, [6, MAX, 0, 0], 5, 32),
    (2, [HALF, HALF, 0, 0], 0, 32),
    (1, [LONGEST, 0, 0, 0], 17, 16),
    (1, [LONGEST + 1, 0, 0, 0], 17, 16),
    (1, [16, 0, 0, 0], 17, 16),
    (1, [18, 0, 0, 0], 17, 16),
    (1, [17, 0, 0, 0], 17, 16),
    (1, [0, 0, 0, 0], 0, 16),
    (2, [0, 0, 0, 0], 0, 32),
    (2, [0, 17, 0, 0], 17, 32),
    (2, [17, 0, 0, 0], 17, 32),
    (12, [LONGEST, LONGEST, LONGEST, 0], 17, 192),
    (12, [0, 0, 0, 0], 0, 192),
    (12, [1, 1, 1, 0], 12, 191),
    (12, [1, 1, 1, 0], 12, 192),
    (12, [1, 1, 1, 0], 12, 193),
    (12, [1, 1, 1, 0], 12, 208),
    (13, [1, 1, 1, MAX], 13, 208),
    (13, [1, 1, 1, 1], 13, 192),
    (13, [1, 1, 1, 1], 13, 208),
    (13, [1, 1, 1, 1], 12, 208),
    (0, [0, 0, 0, 0], 1, 0),
    (0, [0, 0, 0, 0], 0, 1),
    (0, [0, 0, 0, 0], 0, 16),
];

/// Five lengths in bytes, the count of the drawer, and the lengths listed.
#[derive(Clone)]
struct Call {
    key: usize,
    data: usize,
    texts: usize,
    room: usize,
    tags: usize,
    count: u64,
    lengths: Vec<u64>,
}

/// A list of this many lengths, at most 13.
fn listed(n: usize, [a, b, c, d]: [u64; 4]) -> Vec<u64> {
    let mut lengths = vec![c; 13];
    [lengths[0], lengths[1], lengths[12]] = [a, b, d];
    lengths.truncate(n);
    lengths
}

/// The fields of a call, up to the lengths listed.
fn front(call: &Call) -> String {
    let Call {
        key,
        data,
        texts,
        room,
        tags,
        count,
        lengths,
    } = call;
    let drawer = numbers(start(READER, *count));
    let listed: String = lengths.iter().map(|length| format!(" {length}")).collect();
    let n = lengths.len();
    format!("batch {key} {data} {texts} {room} {tags} {drawer} {n}{listed}")
}

/// The line of a call.
fn line(
    call: &Call,
    seal: impl Fn(&[u8], &[u8], &[u8], &[u64], Drawer, &mut [u8], &mut [u8]) -> Batch,
) -> String {
    let salted = [(1, call.key), (3, call.data), (4, call.texts)];
    let [key, data, texts] = salted.map(|(salt, len)| filled(salt, len));
    let (mut room, mut tags) = (vec![ROOM_BYTE; call.room], vec![TAG_BYTE; call.tags]);
    let (lengths, drawer) = (&call.lengths, start(READER, call.count));
    let batch = seal(&key, &data, &texts, lengths, drawer, &mut room, &mut tags);
    let answered = format!("{} {}", batch.number, numbers(batch.next));
    let [room, tags] = [room, tags].map(|bytes| print_field(&bytes, Order::ByteZeroFirst));
    format!("{} {answered} {room} {tags}", front(call))
}

/// Every number of cards with every number of draws.
fn grid() -> Vec<Call> {
    let mut list = Vec::new();
    for n in LISTED {
        for left in LEFT {
            let lengths = listed(n, [16, 0, 3, 17]);
            let texts = lengths.iter().sum::<u64>() as usize;
            list.push(Call {
                key: 16,
                data: 3,
                texts,
                room: texts + SPARE,
                tags: 16 * n,
                count: u64::MAX - left,
                lengths,
            });
        }
    }
    list
}

/// Every choice of refusals, so that their order shows: bit n of a mark says
/// whether the one at place n of 1, 3, 4, 5, 6, 9, 18 applies.
fn refused() -> Vec<Call> {
    let call = |mark: u32| {
        let wrong = |n: u32| (mark >> n & 1) as usize;
        Call {
            key: [16, 17][wrong(0)],
            data: [3, 65_537][wrong(1)],
            texts: 17,
            room: [20, 16][wrong(4)],
            tags: [32, 31][wrong(3)],
            count: [0x0102_0304_0506_0708, u64::MAX - 1][wrong(5)],
            lengths: vec![[5, LONGEST + 1][wrong(2)], [12, 13][wrong(6)]],
        }
    };
    (0..128).map(call).collect()
}

/// Lists of lengths that are too long, add up to the texts or do not, and would
/// if sums could wrap around.
fn sums() -> Vec<Call> {
    let call = |(n, numbers, texts, tags)| Call {
        key: 16,
        data: 3,
        texts,
        room: texts + SPARE,
        tags,
        count: COUNT,
        lengths: listed(n, numbers),
    };
    SUMS.map(call).to_vec()
}

/// All lines of batches.
pub fn lines() -> Vec<String> {
    let calls = [grid(), refused(), sums()].concat();
    calls.iter().map(|call| line(call, seal)).collect()
}

#[cfg(test)]
mod tests {
    use super::super::tests::{fields, with_number};
    use super::*;
    use crate::drawer::draw;
    use crate::hyena::open;
    use crate::lines::field;

    /// The last five fields: what was answered and left.
    fn back(line: &str) -> [&str; 5] {
        let fields = fields(line);
        let last = &fields[fields.len() - 5..];
        last.try_into().expect("five fields")
    }

    /// How many of `lines` answer each of the numbers 0, 1, 3, 4, 5, 6, 9, 18.
    fn counts(lines: &[String]) -> [usize; 8] {
        let answered: Vec<String> = lines.iter().map(|line| back(line)[0].into()).collect();
        [0, 1, 3, 4, 5, 6, 9, 18].map(|number| with_number(&answered, 0, number))
    }

    /// The three rules' lines.
    fn three() -> [Vec<String>; 3] {
        let mut lines = lines();
        let sums = lines.split_off(30 + 128);
        let refused = lines.split_off(30);
        [lines, refused, sums]
    }

    /// Worked out by hand. Of the grid, five batches of one card are done, four
    /// of two and three of twelve; without cards all six are 18, and two with
    /// thirteen.
    #[test]
    fn every_number_comes_as_often_as_it_was_meant_to() {
        let [grid, refused, sums] = three();
        let fields_are = |line: &String| {
            let fields = fields(line);
            fields.len() == 14 + fields[8].parse::<usize>().expect("a number")
        };
        assert!(lines().iter().all(fields_are));
        assert_eq!([grid.len(), refused.len(), sums.len()], [30, 128, 27]);
        assert_eq!(counts(&grid), [12, 0, 0, 0, 0, 0, 10, 8]);
        assert_eq!(counts(&refused), [1, 64, 32, 16, 8, 4, 2, 1]);
        assert_eq!(counts(&sums), [7, 0, 0, 7, 6, 0, 0, 7]);
    }

    #[test]
    fn lists_are_made_of_four_numbers() {
        let of = |n| listed(n, [6, 7, 8, 9]);
        assert!(of(0).is_empty());
        assert_eq!(of(1), [6]);
        assert_eq!(of(2), [6, 7]);
        assert_eq!(of(12), [6, 7, 8, 8, 8, 8, 8, 8, 8, 8, 8, 8]);
        assert_eq!(of(13), [6, 7, 8, 8, 8, 8, 8, 8, 8, 8, 8, 8, 9]);
    }

    #[test]
    fn calls_come_in_their_order_and_none_comes_twice() {
        let calls = [grid(), refused(), sums()].concat();
        let mut fronts: Vec<String> = calls.iter().map(front).collect();
        let is = |n: usize, front: &str| assert_eq!(fronts[n], format!("batch {front}"));
        let threes = ["3"; 10].join(" ");
        is(0, "16 3 0 5 0 16909060 18446744073709551615 0");
        is(1, "16 3 0 5 0 16909060 18446744073709551614 0");
        is(5, "16 3 0 5 0 16909060 0 0");
        is(8, "16 3 16 21 16 16909060 18446744073709551604 1 16");
        is(15, "16 3 16 21 32 16909060 18446744073709551603 2 16 0");
        is(
            22,
            &format!("16 3 46 51 192 16909060 18446744073709551602 12 16 0 {threes}"),
        );
        is(
            29,
            &format!("16 3 63 68 208 16909060 0 13 16 0 {threes} 17"),
        );
        is(30, "16 3 17 20 32 16909060 72623859790382856 2 5 12");
        is(31, "17 3 17 20 32 16909060 72623859790382856 2 5 12");
        is(32, "16 65537 17 20 32 16909060 72623859790382856 2 5 12");
        is(34, "16 3 17 20 32 16909060 72623859790382856 2 1048577 12");
        is(38, "16 3 17 20 31 16909060 72623859790382856 2 5 12");
        is(46, "16 3 17 16 32 16909060 72623859790382856 2 5 12");
        is(62, "16 3 17 20 32 16909060 18446744073709551614 2 5 12");
        is(94, "16 3 17 20 32 16909060 72623859790382856 2 5 13");
        is(
            157,
            "17 65537 17 16 31 16909060 18446744073709551614 2 1048577 13",
        );
        fronts.sort_unstable();
        fronts.dedup();
        assert_eq!(fronts.len(), 30 + 128 + 27);
    }

    /// The line of a made-up sealing that notes what it was lent.
    #[test]
    fn line_shows_what_was_answered_and_left() {
        let call = Call {
            key: 2,
            data: 1,
            texts: 3,
            room: 4,
            tags: 2,
            count: 5,
            lengths: vec![7, u64::MAX],
        };
        let seal = |key: &[u8],
                    data: &[u8],
                    texts: &[u8],
                    lengths: &[u64],
                    drawer: Drawer,
                    room: &mut [u8],
                    tags: &mut [u8]| {
            assert_eq!(
                (key, data, texts),
                (&[1, 30][..], &[3][..], &[4, 33, 62][..])
            );
            assert_eq!(
                (lengths, drawer),
                (&[7, u64::MAX][..], start(16_909_060, 5))
            );
            assert_eq!((&*room, &*tags), (&[0xa5; 4][..], &[0x5a; 2][..]));
            room[1] = 0x11;
            tags[0] = 0x22;
            let next = start(8, 9);
            Batch { number: 6, next }
        };
        let expected = "batch 2 1 3 4 2 16909060 5 2 7 18446744073709551615 6 8 9 a511a5a5 225a";
        assert_eq!(line(&call, seal), expected);
    }

    #[test]
    fn lines_show_what_the_document_says() {
        let [grid, refused, _] = three();
        let [spent, reader] = ["18446744073709551615", "16909060"];
        // "9 here exactly when fewer draws remain than lengths listed, so never
        // for no cards."
        let expected =
            format!("batch 16 3 0 5 0 {reader} {spent} 0 18 {reader} {spent} a5a5a5a5a5 -");
        assert_eq!(grid[0], expected);
        assert_eq!(back(&grid[6])[..3], ["9", reader, spent]);
        assert_eq!(back(&grid[7])[..3], ["0", reader, spent]);
        assert_eq!(back(&grid[21])[..3], ["0", reader, spent]);
        assert_eq!(back(&grid[23])[..3], ["0", reader, "12"]);
        assert_eq!(back(&grid[28])[..3], ["18", reader, "18446744073709551602"]);
        assert_eq!(back(&refused[0])[..3], ["0", reader, "72623859790382858"]);
        // Each refusal by itself.
        let alone = [0, 1, 2, 3, 4, 5, 6].map(|n| back(&refused[1 << n])[0]);
        assert_eq!(alone, ["1", "3", "4", "5", "6", "9", "18"]);
    }

    /// Texts, room and tags, the lengths that are listed, and the number, all
    /// worked out by hand.
    #[test]
    fn every_list_of_lengths_comes_in_its_order_with_its_number() {
        let twelve = |length: &str| format!("12 {}", [length; 12].join(" "));
        let thirteen = |last: &str| format!("13 {} {last}", ["1"; 12].join(" "));
        let [max, half] = ["18446744073709551615", "9223372036854775808"];
        let expected = [
            ("0 5 16", format!("1 {max}"), "4"),
            ("5 10 16", format!("1 {max}"), "4"),
            ("5 10 32", format!("2 {max} 6"), "4"),
            ("5 10 32", format!("2 6 {max}"), "4"),
            ("0 5 32", format!("2 {half} {half}"), "4"),
            ("17 22 16", "1 1048576".into(), "18"),
            ("17 22 16", "1 1048577".into(), "4"),
            ("17 22 16", "1 16".into(), "18"),
            ("17 22 16", "1 18".into(), "18"),
            ("17 22 16", "1 17".into(), "0"),
            ("0 5 16", "1 0".into(), "0"),
            ("0 5 32", "2 0 0".into(), "0"),
            ("17 22 32", "2 0 17".into(), "0"),
            ("17 22 32", "2 17 0".into(), "0"),
            ("17 22 192", twelve("1048576"), "18"),
            ("0 5 192", twelve("0"), "0"),
            ("12 17 191", twelve("1"), "5"),
            ("12 17 192", twelve("1"), "0"),
            ("12 17 193", twelve("1"), "5"),
            ("12 17 208", twelve("1"), "5"),
            ("13 18 208", thirteen(max), "4"),
            ("13 18 192", thirteen("1"), "5"),
            ("13 18 208", thirteen("1"), "18"),
            ("12 17 208", thirteen("1"), "18"),
            ("1 6 0", "0".into(), "18"),
            ("0 5 1", "0".into(), "5"),
            ("0 5 16", "0".into(), "5"),
        ];
        let [_, _, sums] = three();
        assert_eq!(sums.len(), expected.len());
        for (line, (lent, lengths, number)) in sums.iter().zip(expected) {
            let front = format!("batch 16 3 {lent} 16909060 9 {lengths} {number} 16909060 ");
            assert!(line.starts_with(&front), "{line}, not {front}");
        }
    }

    /// "A refused batch draws nothing and writes nothing"; the cards of any other
    /// open again with the next draws.
    #[test]
    fn lines_show_cards_that_open_and_what_a_refusal_leaves() {
        let (key, data) = (filled(1, 16), filled(3, 3));
        for (call, line) in [grid(), refused(), sums()].concat().iter().zip(lines()) {
            let [number, _, count, room, tags] = back(&line);
            let read =
                |shown: &str| field(shown.as_bytes(), Order::ByteZeroFirst).expect("a field");
            let (room, tags) = (read(room), read(tags));
            if number != "0" {
                assert_eq!(count, call.count.to_string(), "{line}");
                assert_eq!(
                    (room, tags),
                    (vec![0xa5; call.room], vec![0x5a; call.tags]),
                    "{line}"
                );
                continue;
            }
            let (mut drawer, mut opened) = (start(READER, call.count), Vec::new());
            for (&length, tag) in call.lengths.iter().zip(tags.chunks(16)) {
                let drawn = draw(drawer);
                let mut text = vec![0; length as usize];
                let ciphertext = &room[opened.len()..opened.len() + text.len()];
                let number = open(&key, &drawn.bytes, &data, ciphertext, tag, &mut text);
                assert_eq!(number, 0, "{line}");
                opened.extend(text);
                drawer = drawn.next;
            }
            assert_eq!(opened, filled(4, call.texts), "{line}");
            assert_eq!(count, drawer.count.to_string(), "{line}");
            assert!(
                room[call.texts..].iter().all(|&byte| byte == 0xa5),
                "{line}"
            );
        }
    }
}
