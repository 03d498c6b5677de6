//! A small generator with a fixed start, so that every run sees the same cases.

/// The generator known as SplitMix64. It makes test cases, never keys.
pub struct Random(u64);

impl Random {
    /// A generator that starts at `seed`.
    pub fn new(seed: u64) -> Random {
        Random(seed)
    }

    /// The next 64 random-looking bits.
    pub fn next_u64(&mut self) -> u64 {
        self.0 = self.0.wrapping_add(0x9e37_79b9_7f4a_7c15);
        let mut z = self.0;
        z = (z ^ (z >> 30)).wrapping_mul(0xbf58_476d_1ce4_e5b9);
        z = (z ^ (z >> 27)).wrapping_mul(0x94d0_49bb_1331_11eb);
        z ^ (z >> 31)
    }

    /// Fills `room` with random-looking bytes.
    pub fn fill(&mut self, room: &mut [u8]) {
        let mut parts = room.chunks_exact_mut(8);
        for part in &mut parts {
            part.copy_from_slice(&self.next_u64().to_le_bytes());
        }
        let rest = parts.into_remainder();
        if !rest.is_empty() {
            let bytes = self.next_u64().to_le_bytes();
            rest.copy_from_slice(&bytes[..rest.len()]);
        }
    }

    /// `len` random-looking bytes.
    pub fn bytes(&mut self, len: usize) -> Vec<u8> {
        let mut room = vec![0; len];
        self.fill(&mut room);
        room
    }

    /// Sixteen random-looking bytes, a key or a block of GIFT-128.
    pub fn sixteen(&mut self) -> [u8; 16] {
        let mut room = [0; 16];
        self.fill(&mut room);
        room
    }

    /// A number from 0, below `end`.
    pub fn below(&mut self, end: usize) -> usize {
        (self.next_u64() % end as u64) as usize
    }

    /// One of `list`.
    pub fn pick<T: Copy>(&mut self, list: &[T]) -> T {
        list[self.below(list.len())]
    }

    /// Puts `list` in another order.
    pub fn shuffle<T>(&mut self, list: &mut [T]) {
        for end in (1..list.len()).rev() {
            list.swap(end, self.below(end + 1));
        }
    }
}

#[cfg(test)]
mod tests {
    use super::*;

    #[test]
    fn same_seed_same_bytes_and_any_length() {
        let long = Random::new(7).bytes(41);
        let short = Random::new(7).bytes(13);
        assert_eq!(long[..13], short[..]);
        assert_ne!(long, Random::new(8).bytes(41));
        assert!(Random::new(7).bytes(0).is_empty());
    }

    #[test]
    fn every_choice_and_every_order_comes() {
        let mut random = Random::new(9);
        let mut picked: Vec<u8> = (0..100).map(|_| random.pick(&[3, 5, 8])).collect();
        picked.sort_unstable();
        picked.dedup();
        assert_eq!(picked, [3, 5, 8]);
        let mut orders: Vec<[u8; 3]> = Vec::new();
        for _ in 0..100 {
            let mut list = [1, 2, 3];
            random.shuffle(&mut list);
            orders.push(list);
        }
        orders.sort_unstable();
        orders.dedup();
        assert_eq!(orders.len(), 6);
    }
}
