//! Strings of 128 bits.

/// A string of 128 bits; bit 0 is the least significant.
#[derive(Clone, Copy, Debug, PartialEq, Eq)]
pub struct Bits([bool; 128]);

impl Bits {
    /// Builds a string by asking `rule` for each bit.
    pub fn by_rule(rule: impl FnMut(usize) -> bool) -> Bits {
        Bits(std::array::from_fn(rule))
    }

    /// "Byte j of a block, key, tag or text block holds bits 8j to 8j+7, and
    /// bit 0 is the least significant" (document 01, GIFT-128).
    pub fn from_bytes(bytes: &[u8; 16]) -> Bits {
        Bits::by_rule(|i| (bytes[i / 8] >> (i % 8)) & 1 == 1)
    }

    /// The way back from [`Bits::from_bytes`].
    pub fn to_bytes(&self) -> [u8; 16] {
        std::array::from_fn(|j| (0..8).map(|b| u8::from(self.bit(8 * j + b)) << b).sum())
    }

    /// Bit `i`.
    pub fn bit(&self, i: usize) -> bool {
        self.0[i]
    }

    /// Adds `value` to bit `i` by exclusive or.
    pub fn add(&mut self, i: usize, value: bool) {
        self.0[i] ^= value;
    }

    /// Nibble `n`, that is bits 4n to 4n+3, as a number below 16.
    pub fn nibble(&self, n: usize) -> u8 {
        (0..4).map(|b| u8::from(self.bit(4 * n + b)) << b).sum()
    }

    /// Word `n`, that is bits 16n to 16n+15, as a number.
    pub fn word(&self, n: usize) -> u16 {
        (0..16).map(|b| u16::from(self.bit(16 * n + b)) << b).sum()
    }

    /// The string whose nibble at each place is `rule` of the nibble here.
    pub fn each_nibble(&self, rule: impl Fn(u8) -> u8) -> Bits {
        let nibbles: [u8; 32] = std::array::from_fn(|n| rule(self.nibble(n)));
        Bits::by_rule(|i| (nibbles[i / 4] >> (i % 4)) & 1 == 1)
    }
}

#[cfg(test)]
mod tests {
    use super::*;

    #[test]
    fn byte_order_is_the_documents() {
        let mut bytes = [0; 16];
        bytes[0] = 0x01;
        bytes[2] = 0x80;
        bytes[15] = 0x80;
        let bits = Bits::from_bytes(&bytes);
        let set: Vec<usize> = (0..128).filter(|&i| bits.bit(i)).collect();
        assert_eq!(set, [0, 23, 127]);
        assert_eq!(bits.to_bytes(), bytes);
    }

    #[test]
    fn nibbles_and_words_count_from_the_low_end() {
        let bytes = std::array::from_fn(|j| 0x10 + j as u8);
        let bits = Bits::from_bytes(&bytes);
        assert_eq!(bits.nibble(0), 0x0);
        assert_eq!(bits.nibble(1), 0x1);
        assert_eq!(bits.nibble(30), 0xf);
        assert_eq!(bits.word(0), 0x1110);
        assert_eq!(bits.word(7), 0x1f1e);
    }

    #[test]
    fn each_nibble_keeps_places() {
        let bytes = std::array::from_fn(|j| (j * 17) as u8);
        let bits = Bits::from_bytes(&bytes);
        assert_eq!(bits.each_nibble(|x| x), bits);
        let flipped = bits.each_nibble(|x| 15 - x).to_bytes();
        assert_eq!(flipped, bytes.map(|b| !b));
    }
}
