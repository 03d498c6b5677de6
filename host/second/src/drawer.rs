//! The drawer of nonces (document 01, Drawer and key books).

/// "A drawer is a reader number (32 bits) and a count (64 bits), both given at
/// its start."
#[derive(Clone, Copy, Debug, PartialEq, Eq)]
pub struct Drawer {
    pub reader: u32,
    pub count: u64,
}

/// What a draw answers: the document's number, the bytes, and the drawer that
/// is handed back.
#[derive(Clone, Copy, Debug, PartialEq, Eq)]
pub struct Draw<const N: usize> {
    pub number: u32,
    pub bytes: [u8; N],
    pub next: Drawer,
}

/// The drawer with this reader number and this count.
pub fn start(reader: u32, count: u64) -> Drawer {
    Drawer { reader, count }
}

/// "A draw answers 12 bytes: number, then count, both little-endian; the count
/// grows by one." The first of the two is the reader number.
pub fn draw(drawer: Drawer) -> Draw<12> {
    // "At count 2^64−1 a draw is refused with 9"; "drawer unchanged; the bytes
    // answered are all 0".
    if drawer.count == u64::MAX {
        return Draw {
            number: 9,
            bytes: [0; 12],
            next: drawer,
        };
    }
    let mut bytes = [0; 12];
    bytes[..4].copy_from_slice(&drawer.reader.to_le_bytes());
    bytes[4..].copy_from_slice(&drawer.count.to_le_bytes());
    let next = Drawer {
        count: drawer.count + 1,
        ..drawer
    };
    Draw {
        number: 0,
        bytes,
        next,
    }
}

/// "An iv is one draw written four times." So it is refused where a draw is,
/// with four times its zero bytes.
pub fn iv(drawer: Drawer) -> Draw<48> {
    let Draw {
        number,
        bytes,
        next,
    } = draw(drawer);
    Draw {
        number,
        bytes: std::array::from_fn(|i| bytes[i % 12]),
        next,
    }
}

#[cfg(test)]
mod tests {
    use super::*;
    use std::collections::BTreeSet;

    /// The two counts before the one that is refused, and that one.
    const LAST_COUNTS: [u64; 3] = [
        18_446_744_073_709_551_613,
        18_446_744_073_709_551_614,
        18_446_744_073_709_551_615,
    ];

    #[test]
    fn start_takes_both_numbers_as_they_are() {
        let drawer = start(7, u64::MAX);
        assert_eq!((drawer.reader, drawer.count), (7, u64::MAX));
        let drawer = start(u32::MAX, 7);
        assert_eq!((drawer.reader, drawer.count), (u32::MAX, 7));
    }

    #[test]
    fn draw_writes_reader_number_then_count_lowest_bytes_first() {
        let drawn = draw(start(0x0102_0304, 0x1112_1314_1516_1718));
        assert_eq!(drawn.number, 0);
        assert_eq!(
            drawn.bytes,
            [4, 3, 2, 1, 0x18, 0x17, 0x16, 0x15, 0x14, 0x13, 0x12, 0x11]
        );
        assert_eq!(drawn.next, start(0x0102_0304, 0x1112_1314_1516_1719));
        // Zeros that do count as a number.
        let drawn = draw(start(0, 0));
        assert_eq!((drawn.number, drawn.bytes), (0, [0; 12]));
        assert_eq!(drawn.next, start(0, 1));
    }

    #[test]
    fn iv_is_one_draw_four_times() {
        let drawn = iv(start(1, 0x0203));
        assert_eq!(drawn.number, 0);
        let one = [1, 0, 0, 0, 3, 2, 0, 0, 0, 0, 0, 0];
        assert_eq!(drawn.bytes, [one; 4].concat()[..]);
        assert_eq!(drawn.next, start(1, 0x0204));
    }

    #[test]
    fn last_count_handed_out_is_2_to_the_64_minus_2() {
        let [before_last, last, spent] = LAST_COUNTS;
        let drawn = draw(start(5, before_last));
        assert_eq!((drawn.number, drawn.next), (0, start(5, last)));
        let drawn = draw(drawn.next);
        assert_eq!((drawn.number, drawn.next), (0, start(5, spent)));
        let nonce = [5, 0, 0, 0, 0xfe, 255, 255, 255, 255, 255, 255, 255];
        assert_eq!(drawn.bytes, nonce);
        assert_eq!(iv(start(5, last)).number, 0);
        for reader in [0, 5, u32::MAX] {
            let refused = draw(start(reader, spent));
            assert_eq!((refused.number, refused.bytes), (9, [0; 12]));
            assert_eq!(refused.next, start(reader, spent));
            let refused = iv(start(reader, spent));
            assert_eq!((refused.number, refused.bytes), (9, [0; 48]));
            assert_eq!(refused.next, start(reader, spent));
        }
    }

    /// "Draws taken one after another from one start, each on the drawer the
    /// last one handed back, never repeat." An iv is such a draw too.
    #[test]
    fn draws_from_one_start_never_repeat() {
        for count in [0, 200, (1 << 32) - 500] {
            let mut drawer = start(9, count);
            let mut seen = BTreeSet::new();
            for n in 0..1000 {
                let bytes = if n % 3 == 0 {
                    let drawn = iv(drawer);
                    drawer = drawn.next;
                    drawn.bytes[..12].to_vec()
                } else {
                    let drawn = draw(drawer);
                    drawer = drawn.next;
                    drawn.bytes.to_vec()
                };
                assert!(seen.insert(bytes), "draw {n} from {count}");
            }
            assert_eq!(drawer, start(9, count + 1000));
        }
    }
}
