//! Drawers at the edges: counts where bytes carry over and where a drawer is
//! spent.
//!
//! The line of a drawer is `draw READER COUNT` and then, for a draw, an iv and
//! a draw, each on the drawer that the last one handed back, `NUMBER BYTES
//! READER COUNT`: what it answered, and the drawer handed back.

use crate::drawer::{draw, iv, start, Draw, Drawer};
use crate::lines::{print_field, Order};

const READERS: [u32; 4] = [0, 1, 0x0102_0304, u32::MAX];

const COUNTS: [u64; 12] = [
    0,
    1,
    255,
    256,
    0xffff_ffff,
    0x1_0000_0000,
    0x0102_0304_0506_0708,
    1 << 63,
    u64::MAX - 3,
    u64::MAX - 2,
    u64::MAX - 1,
    u64::MAX,
];

/// The fields of a drawer.
pub fn numbers(drawer: Drawer) -> String {
    format!("{} {}", drawer.reader, drawer.count)
}

/// The fields of what a draw or an iv answered.
fn answered<const N: usize>(drawn: &Draw<N>) -> String {
    let bytes = print_field(&drawn.bytes, Order::ByteZeroFirst);
    format!("{} {bytes} {}", drawn.number, numbers(drawn.next))
}

/// A drawer's line.
fn line(
    drawer: Drawer,
    draw: impl Fn(Drawer) -> Draw<12>,
    iv: impl Fn(Drawer) -> Draw<48>,
) -> String {
    let first = draw(drawer);
    let second = iv(first.next);
    let third = draw(second.next);
    [
        "draw".to_string(),
        numbers(drawer),
        answered(&first),
        answered(&second),
        answered(&third),
    ]
    .join(" ")
}

/// The drawers, those of one reader after another.
fn drawers() -> Vec<Drawer> {
    READERS
        .iter()
        .flat_map(|&reader| COUNTS.map(|count| start(reader, count)))
        .collect()
}

/// All lines of drawers.
pub fn lines() -> Vec<String> {
    let of = |drawer: &Drawer| line(*drawer, draw, iv);
    drawers().iter().map(of).collect()
}

#[cfg(test)]
mod tests {
    use super::super::tests::{fields, with_number};
    use super::*;

    /// Of each reader's twelve counts the last one is spent at the first step,
    /// the last two are at the second and the last three at the third.
    #[test]
    fn every_number_comes_as_often_as_it_was_meant_to() {
        let lines = lines();
        assert_eq!(lines.len(), 4 * 12);
        assert!(lines.iter().all(|line| fields(line).len() == 15));
        for (place, spent) in [(3, 4), (7, 4 * 2), (11, 4 * 3)] {
            assert_eq!(with_number(&lines, place, 9), spent);
            assert_eq!(with_number(&lines, place, 0), 48 - spent);
        }
    }

    #[test]
    fn drawers_come_in_their_order() {
        let lines = lines();
        let fronts: Vec<[&str; 2]> = lines
            .iter()
            .map(|line| [fields(line)[1], fields(line)[2]])
            .collect();
        assert_eq!(fronts[0], ["0", "0"]);
        assert_eq!(fronts[1], ["0", "1"]);
        assert_eq!(fronts[4], ["0", "4294967295"]);
        assert_eq!(fronts[5], ["0", "4294967296"]);
        assert_eq!(fronts[11], ["0", "18446744073709551615"]);
        assert_eq!(fronts[12], ["1", "0"]);
        assert_eq!(fronts[24 + 6], ["16909060", "72623859790382856"]);
        assert_eq!(fronts[36 + 7], ["4294967295", "9223372036854775808"]);
        assert_eq!(fronts[36 + 8], ["4294967295", "18446744073709551612"]);
    }

    /// The line of a made-up draw and iv that note what they were handed.
    #[test]
    fn each_step_is_on_the_drawer_that_the_last_one_handed_back() {
        let draw = |drawer: Drawer| Draw {
            number: drawer.reader + 3,
            bytes: [drawer.reader as u8; 12],
            next: start(drawer.reader + 10, drawer.count + 100),
        };
        let iv = |drawer: Drawer| Draw {
            number: drawer.reader + 4,
            bytes: [drawer.reader as u8; 48],
            next: start(drawer.reader + 20, drawer.count + 200),
        };
        let bytes = [(1, 12), (11, 48), (31, 12)].map(|(byte, n)| format!("{byte:02x}").repeat(n));
        let expected = format!(
            "draw 1 7 4 {} 11 107 15 {} 31 307 34 {} 41 407",
            bytes[0], bytes[1], bytes[2]
        );
        assert_eq!(line(start(1, 7), draw, iv), expected);
    }

    #[test]
    fn lines_show_what_the_document_says() {
        let iv = "04030201ff00000000000000".repeat(4);
        let expected = format!(
            "draw 16909060 254 0 04030201fe00000000000000 16909060 255 0 {iv} 16909060 256 \
             0 040302010001000000000000 16909060 257"
        );
        assert_eq!(line(start(0x0102_0304, 254), draw, super::iv), expected);
        // One number is left, and the rest is refused.
        let spent = "1 18446744073709551615";
        let [iv, nonce] = [48, 12].map(|len| "00".repeat(len));
        let expected = format!(
            "draw 1 18446744073709551614 0 01000000feffffffffffffff {spent} \
             9 {iv} {spent} 9 {nonce} {spent}"
        );
        assert_eq!(lines()[12 + 10], expected);
    }
}
