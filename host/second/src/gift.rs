//! GIFT-128 on one block, both ways (document 01, GIFT-128; document 004,
//! section 2.2).

use std::sync::LazyLock;

use crate::bits::Bits;

/// "Forty rounds" (document 01, GIFT-128).
const ROUNDS: usize = 40;

/// The S-box, entries 0 to F (document 01, GIFT-128, step 1; document 004,
/// table 2.1).
pub const SBOX: [u8; 16] = [
    0x1, 0xa, 0x4, 0xc, 0x6, 0xf, 0x3, 0x9, 0x2, 0xd, 0xb, 0x7, 0x5, 0x0, 0x8, 0xe,
];

/// The entry number whose S-box entry is `y`, found by looking for it.
fn sbox_back(y: u8) -> u8 {
    (0..16)
        .find(|&x| SBOX[usize::from(x)] == y)
        .expect("each number below 16 is an entry of the S-box")
}

/// The place to which bit `i` moves (document 01, GIFT-128, step 2).
pub fn moved(i: usize) -> usize {
    4 * (i / 16) + 32 * ((3 * ((i % 16) / 4) + i % 4) % 4) + i % 4
}

/// The six-bit round constant; entry n is the document's c_n.
type Constant = [bool; 6];

/// "Shift left by one in six bits, with the new low bit c5 + c4 + 1 modulo 2"
/// (document 01, GIFT-128).
fn stepped_constant(c: Constant) -> Constant {
    [c[5] ^ c[4] ^ true, c[0], c[1], c[2], c[3], c[4]]
}

/// The key state; entry n is the document's word k_n.
type KeyState = [u16; 8];

/// Step 5: "from the top: k1 rotated right by 2, k0 rotated right by 12, k7,
/// k6, k5, k4, k3, k2". The array starts with the lowest word, so the
/// document's list stands here from its end.
fn stepped_key(k: KeyState) -> KeyState {
    let k7 = k[1].rotate_right(2);
    let k6 = k[0].rotate_right(12);
    [k[2], k[3], k[4], k[5], k[6], k[7], k6, k7]
}

/// What one round adds to the state: its key state and its constant.
#[derive(Clone, Copy)]
struct Round {
    key: KeyState,
    constant: Constant,
}

/// All rounds, the first one first. The constant "starts at 0 and is stepped
/// before each use"; the key state is stepped after each use.
fn rounds(key: &[u8; 16]) -> Vec<Round> {
    let key = Bits::from_bytes(key);
    let mut round = Round {
        key: std::array::from_fn(|n| key.word(n)),
        constant: [false; 6],
    };
    let mut list = Vec::new();
    for _ in 0..ROUNDS {
        round.constant = stepped_constant(round.constant);
        list.push(round);
        round.key = stepped_key(round.key);
    }
    list
}

/// Step 3: U is k5 then k4, V is k1 then k0, the first word higher. "Bit i of
/// U is added by exclusive or to bit 4i+2, bit i of V to bit 4i+1."
fn add_key(state: &mut Bits, k: &KeyState) {
    let bit = |low: u16, high: u16, i: usize| {
        let word = if i < 16 { low } else { high };
        (word >> (i % 16)) & 1 == 1
    };
    for i in 0..32 {
        state.add(4 * i + 2, bit(k[4], k[5], i));
        state.add(4 * i + 1, bit(k[0], k[1], i));
    }
}

/// Step 4: "Bit 127 is flipped. The six-bit round constant c5..c0 is added to
/// bits 23, 19, 15, 11, 7, 3."
fn add_constant(state: &mut Bits, c: &Constant) {
    state.add(127, true);
    for (place, n) in [(23, 5), (19, 4), (15, 3), (11, 2), (7, 1), (3, 0)] {
        state.add(place, c[n]);
    }
}

/// Step 2: the bit at place i goes to `moved(i)`.
fn move_bits(state: &Bits) -> Bits {
    let mut new = Bits::by_rule(|_| false);
    for i in 0..128 {
        new.add(moved(i), state.bit(i));
    }
    new
}

/// Step 2 undone: the bit at `moved(i)` is read back to place i.
fn move_bits_back(state: &Bits) -> Bits {
    Bits::by_rule(|i| state.bit(moved(i)))
}

/// Steps 3 and 4 of one round: what they add to the state, as a number.
fn round_key(round: &Round) -> u128 {
    let mut bits = Bits::by_rule(|_| false);
    add_key(&mut bits, &round.key);
    add_constant(&mut bits, &round.constant);
    number(&bits)
}

/// What all rounds add under `key`, the first one first.
fn round_keys(key: &[u8; 16]) -> Vec<u128> {
    rounds(key).iter().map(round_key).collect()
}

fn number(bits: &Bits) -> u128 {
    u128::from_le_bytes(bits.to_bytes())
}

/// What each nibble at each place becomes where all other bits are 0. Bit by bit
/// a block would take twenty times as long; `one_step_after_another` in the
/// tests does it so.
type Table = [[u128; 16]; 32];

fn table(rule: impl Fn(u128) -> u128) -> Table {
    std::array::from_fn(|n| std::array::from_fn(|x| rule((x as u128) << (4 * n))))
}

/// The state of which each nibble became what the table says.
fn by_table(table: &Table, mut state: u128) -> u128 {
    let mut new = 0;
    for nibble in table {
        new ^= nibble[(state % 16) as usize];
        state /= 16;
    }
    new
}

/// Each bit goes to a place of its own, so nibbles can be moved one by one.
static MOVED: LazyLock<Table> =
    LazyLock::new(|| table(|x| number(&move_bits(&Bits::from_bytes(&x.to_le_bytes())))));
static MOVED_BACK: LazyLock<Table> =
    LazyLock::new(|| table(|x| number(&move_bits_back(&Bits::from_bytes(&x.to_le_bytes())))));

/// Steps 1 and 2.
static FORWARD: LazyLock<Table> = LazyLock::new(|| {
    let moved = &*MOVED;
    std::array::from_fn(|n| std::array::from_fn(|x| moved[n][usize::from(SBOX[x])]))
});

/// Step 1 undone.
static SBOX_BACK: LazyLock<Table> = LazyLock::new(|| {
    std::array::from_fn(|n| std::array::from_fn(|y| u128::from(sbox_back(y as u8)) << (4 * n)))
});

fn encipher_block(round_keys: &[u128], block: &[u8; 16]) -> [u8; 16] {
    let forward = &*FORWARD;
    let mut state = u128::from_le_bytes(*block);
    for round_key in round_keys {
        state = by_table(forward, state) ^ round_key;
    }
    state.to_le_bytes()
}

/// "Deciphering undoes the rounds": the last round first, and in each round
/// the last step first. Adding by exclusive or undoes itself.
fn decipher_block(round_keys: &[u128], block: &[u8; 16]) -> [u8; 16] {
    let (moved_back, sbox_back) = (&*MOVED_BACK, &*SBOX_BACK);
    let mut state = u128::from_le_bytes(*block);
    for round_key in round_keys.iter().rev() {
        state = by_table(sbox_back, by_table(moved_back, state ^ round_key));
    }
    state.to_le_bytes()
}

/// Either way: judges the lengths, then works on the block where it lies.
/// "Where several apply, the smallest number is given" (document 01, What
/// comes back), so the key is judged first.
fn on_block(key: &[u8], block: &mut [u8], work: fn(&[u128], &[u8; 16]) -> [u8; 16]) -> u32 {
    let Ok(key) = <&[u8; 16]>::try_from(key) else {
        return 1;
    };
    let Ok(block) = <&mut [u8; 16]>::try_from(block) else {
        return 4;
    };
    *block = work(&round_keys(key), block);
    0
}

/// Enciphering under `key` as a function of one block; the rounds are worked
/// out once, however many blocks follow.
pub fn under(key: &[u8; 16]) -> impl Fn(&[u8; 16]) -> [u8; 16] {
    let round_keys = round_keys(key);
    move |block| encipher_block(&round_keys, block)
}

/// Enciphers `block` under `key` where it lies and answers the document's
/// number: 0 done, 1 key has a wrong length, 4 block length not allowed. The
/// block is unchanged unless the number is 0.
pub fn encipher(key: &[u8], block: &mut [u8]) -> u32 {
    on_block(key, block, encipher_block)
}

/// Deciphers `block` under `key` where it lies; the numbers are those of
/// [`encipher`].
pub fn decipher(key: &[u8], block: &mut [u8]) -> u32 {
    on_block(key, block, decipher_block)
}

#[cfg(test)]
mod tests {
    use super::*;
    use crate::cases::gift::PUBLISHED;
    use crate::lines::{field, Order};
    use crate::random::Random;

    /// The round constants as numbers, the first one first.
    fn constants() -> Vec<u8> {
        let as_number = |c: Constant| (0..6).map(|n| u8::from(c[n]) << n).sum();
        rounds(&[0; 16])
            .iter()
            .map(|round| as_number(round.constant))
            .collect()
    }

    #[test]
    fn cards_1_and_2_sbox() {
        assert_eq!(SBOX[0x0], 0x1);
        assert_eq!(SBOX[0xf], 0xe);
    }

    #[test]
    fn cards_3_to_6_bit_move() {
        assert_eq!(moved(1), 33);
        assert_eq!(moved(4), 96);
        assert_eq!(moved(5), 1);
        assert_eq!(moved(127), 31);
    }

    #[test]
    fn cards_7_and_8_round_constants() {
        let constants = constants();
        assert_eq!(constants.len(), 40);
        assert_eq!(constants[0], 0x01);
        assert_eq!(constants[6], 0x3d);
        assert_eq!(constants[39], 0x1a);
    }

    #[test]
    fn sbox_and_bit_move_lose_nothing() {
        for x in 0..16 {
            assert_eq!(sbox_back(SBOX[usize::from(x)]), x);
        }
        let mut places: Vec<usize> = (0..128).map(moved).collect();
        places.sort_unstable();
        assert!(places.into_iter().eq(0..128));
    }

    #[test]
    fn key_state_steps_as_listed_from_the_top() {
        let k = [0x8001, 0x0003, 2, 3, 4, 5, 6, 7];
        assert_eq!(stepped_key(k), [2, 3, 4, 5, 6, 7, 0x0018, 0xc000]);
    }

    #[test]
    fn published_vectors_both_ways() {
        for (key, plain, cipher) in PUBLISHED {
            let read = |text: &str| field(text.as_bytes(), Order::ByteZeroLast).expect("a field");
            let (key, plain, cipher) = (read(key), read(plain), read(cipher));
            let mut block = plain.clone();
            assert_eq!(encipher(&key, &mut block), 0);
            assert_eq!(block, cipher);
            assert_eq!(decipher(&key, &mut block), 0);
            assert_eq!(block, plain);
        }
    }

    /// Enciphering as the document has it, bit by bit.
    fn one_step_after_another(key: &[u8; 16], block: &[u8; 16]) -> [u8; 16] {
        let mut state = Bits::from_bytes(block);
        for round in rounds(key) {
            state = state.each_nibble(|x| SBOX[usize::from(x)]);
            state = move_bits(&state);
            add_key(&mut state, &round.key);
            add_constant(&mut state, &round.constant);
        }
        state.to_bytes()
    }

    #[test]
    fn the_tables_are_the_steps() {
        let mut random = Random::new(4);
        for _ in 0..2000 {
            let [key, block] = [random.sixteen(), random.sixteen()];
            let enciphered = one_step_after_another(&key, &block);
            assert_eq!(encipher_block(&round_keys(&key), &block), enciphered);
            assert_eq!(decipher_block(&round_keys(&key), &enciphered), block);
        }
    }

    #[test]
    fn one_key_serves_many_blocks() {
        let mut random = Random::new(3);
        let key = random.sixteen();
        let work = under(&key);
        for _ in 0..20 {
            let block = random.sixteen();
            let mut lent = block;
            assert_eq!(encipher(&key, &mut lent), 0);
            assert_eq!(work(&block), lent);
        }
    }

    #[test]
    fn deciphering_undoes_enciphering_and_the_other_way_round() {
        let mut random = Random::new(1);
        for _ in 0..2000 {
            let key = random.sixteen();
            let block = random.sixteen();
            let mut work = block;
            assert_eq!(encipher(&key, &mut work), 0);
            assert_ne!(work, block);
            assert_eq!(decipher(&key, &mut work), 0);
            assert_eq!(work, block);
            assert_eq!(decipher(&key, &mut work), 0);
            assert_eq!(encipher(&key, &mut work), 0);
            assert_eq!(work, block);
        }
    }

    #[test]
    fn refusals_come_in_order_and_change_nothing() {
        let mut random = Random::new(2);
        for key_len in 0..=40 {
            for block_len in 0..=40 {
                let key = random.bytes(key_len);
                let block = random.bytes(block_len);
                let expected = match (key_len, block_len) {
                    (16, 16) => 0,
                    (16, _) => 4,
                    _ => 1,
                };
                for work in [encipher, decipher] {
                    let mut lent = block.clone();
                    assert_eq!(work(&key, &mut lent), expected);
                    assert_eq!(lent == block, expected != 0);
                }
            }
        }
    }
}
