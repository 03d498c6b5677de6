//! A drawer in a file (docs/cards.1, FILES).

use crate::blake;
use crate::drawer::{self, Drawer};

/// "44 bytes".
const LENGTH: usize = 44;

/// "The reader's number in four and the count in eight, low bytes first".
const FRONT: usize = 12;

/// The file of a drawer, "44 bytes: the reader's number in four and the count in
/// eight, low bytes first, that is the next nonce; and the 32-byte BLAKE2b
/// digest of these 12 (no key), by which damage is seen."
pub fn store(drawer: Drawer) -> Vec<u8> {
    let reader = drawer.reader.to_le_bytes();
    let count = drawer.count.to_le_bytes();
    let front = [&reader[..], &count].concat();
    let mut digest = [0; LENGTH - FRONT];
    let number = blake::digest(&[], &front, &mut digest);
    assert_eq!(number, 0, "all lengths are allowed");
    [&front[..], &digest].concat()
}

/// The drawer that a file's bytes are; nothing if they are damaged (106), which
/// "is also given for what is no drawer file at all".
pub fn load(file: &[u8]) -> Option<Drawer> {
    let reader = u32::from_le_bytes(file.get(..4)?.try_into().ok()?);
    let count = u64::from_le_bytes(file.get(4..FRONT)?.try_into().ok()?);
    let drawer = drawer::start(reader, count);
    (file == store(drawer)).then_some(drawer)
}

#[cfg(test)]
mod tests {
    use super::*;

    #[test]
    fn file_is_reader_count_and_digest() {
        let file = store(drawer::start(0x0102_0304, 0x1112_1314_1516_1718));
        let front = [4, 3, 2, 1, 0x18, 0x17, 0x16, 0x15, 0x14, 0x13, 0x12, 0x11];
        assert_eq!(file[..12], front);
        let mut digest = [0; 32];
        assert_eq!(blake::digest(&[], &front, &mut digest), 0);
        assert_eq!(file[12..], digest);
    }

    #[test]
    fn every_damage_is_seen() {
        for state in [drawer::start(0, 0), drawer::start(u32::MAX, u64::MAX)] {
            let file = store(state);
            assert_eq!(load(&file), Some(state));
            for bit in 0..8 * LENGTH {
                let mut damaged = file.clone();
                damaged[bit / 8] ^= 1 << (bit % 8);
                assert_eq!(load(&damaged), None, "{bit}");
            }
            for len in 0..LENGTH {
                assert_eq!(load(&file[..len]), None, "{len}");
            }
            assert_eq!(load(&[&file[..], &[0]].concat()), None);
        }
    }
}
