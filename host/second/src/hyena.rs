//! HyENA sealing and opening (document 01, HyENA; document 004, section 2.1).
//!
//! The mode stands over a block function that its caller chooses, `e` here and
//! E in the documents; GIFT-128 is put in at the end. The functions have the
//! names of document 004's algorithms (figure 2.4). All sums of blocks are by
//! exclusive or.

use crate::{gift, LONGEST_TEXT};

/// The most bytes of associated data (document 01, Sizes).
pub const LONGEST_AD: usize = 65_536;

/// The bytes in a block; "it must be n = 128" bits (document 01, HyENA).
const BLOCK: usize = 16;

/// Up to sixteen bytes as a number: "byte j of a block, key, tag or text block
/// holds bits 8j to 8j+7, and bit 0 is the least significant" (document 01,
/// GIFT-128).
fn number(bytes: &[u8]) -> u128 {
    let places = bytes.iter().enumerate();
    places.map(|(j, &byte)| u128::from(byte) << (8 * j)).sum()
}

/// "For a block S, SL is its upper 64 bits."
fn left(s: u128) -> u64 {
    (s >> 64) as u64
}

/// "And SR its lower 64."
fn right(s: u128) -> u64 {
    s as u64
}

/// The block with these two halves.
fn joined(left: u64, right: u64) -> u128 {
    u128::from(left) << 64 | u128::from(right)
}

/// Doubling "in the field with x^64 + x^4 + x^3 + x + 1: shift left by one, and
/// add 0x1B if the top bit was set".
fn doubled(delta: u64) -> u64 {
    let top_bit = delta >> 63 == 1;
    (delta << 1) ^ if top_bit { 0x1b } else { 0 }
}

/// Doubling done `times` times over.
fn doubled_times(times: u32, delta: u64) -> u64 {
    (0..times).fold(delta, |delta, _| doubled(delta))
}

/// "Text and associated data are cut into blocks of 16 bytes from the front;
/// the last has 1 to 16 bytes." What is empty has no block.
fn cut(bytes: &[u8]) -> Vec<&[u8]> {
    bytes.chunks(BLOCK).collect()
}

/// "Pad leaves a full block; a shorter one gets a single 1 bit above its top
/// bit, then zeros."
fn pad(bytes: &[u8]) -> u128 {
    let above = 8 * bytes.len();
    let mark = if bytes.len() == BLOCK { 0 } else { 1 << above };
    number(bytes) ^ mark
}

/// Which side of the feedback goes in: the text or the ciphertext.
#[derive(Clone, Copy, Debug, PartialEq, Eq)]
enum Way {
    Sealing,
    Opening,
}

/// "Feedback of D into state Y with mask Δ": the new state X and the output.
/// "Sealing: the output is D plus the low bits of Y. Opening: the same sum
/// gives the text. Let M be the text side and C the cipher side. The new state
/// X is Y plus the block with upper half Pad(M)L and lower half Pad(C)R plus
/// Δ." Document 004 calls the two ways HYFB+ and HYFB-.
fn hyfb(way: Way, y: u128, delta: u64, d: &[u8]) -> (u128, Vec<u8>) {
    let low_bytes = y.to_le_bytes();
    let output: Vec<u8> = d.iter().zip(low_bytes).map(|(d, y)| d ^ y).collect();
    let (m, c) = match way {
        Way::Sealing => (d, &output[..]),
        Way::Opening => (&output[..], d),
    };
    let x = y ^ joined(left(pad(m)), right(pad(c)) ^ delta);
    (x, output)
}

/// The start block, "nonce in the top 96 bits, then zeros, then b1, b0".
fn start_block(nonce: &[u8], b1: bool, b0: bool) -> u128 {
    number(nonce) << 32 | u128::from(b1) << 1 | u128::from(b0)
}

/// Y at the start. "b0 is 1 when the associated data is empty, b1 when text is
/// empty too. In opening, ciphertext length stands for text length."
fn init(e: &impl Fn(u128) -> u128, nonce: &[u8], data: &[u8], text: &[u8]) -> u128 {
    let b0 = data.is_empty();
    let b1 = data.is_empty() && text.is_empty();
    e(start_block(nonce, b1, b0))
}

/// The associated data: X and Δ after it. "Each is fed as in sealing, in
/// opening too. Outputs here are dropped."
fn proc_ad(e: &impl Fn(u128) -> u128, mut y: u128, data: &[&[u8]]) -> (u128, u64) {
    let feed = |y, delta, block: &[u8]| hyfb(Way::Sealing, y, delta, block).0;
    // "Δ is YR doubled once."
    let mut delta = doubled(right(y));
    let Some((last, others)) = data.split_last() else {
        // "If empty, double twice more and feed the block with value 1."
        delta = doubled_times(2, delta);
        return (feed(y, delta, &1_u128.to_le_bytes()), delta);
    };
    // "Otherwise for each block but the last: feed it, take Y = E(X), double Δ."
    for block in others {
        y = e(feed(y, delta, block));
        delta = doubled(delta);
    }
    // "For the last: double once if full, twice if partial, then feed."
    let times = if last.len() == BLOCK { 1 } else { 2 };
    delta = doubled_times(times, delta);
    (feed(y, delta, last), delta)
}

/// The text, or in opening the ciphertext: X after it and the output. "For each
/// block but the last: double Δ, Y = E(X), feed. For the last: double twice if
/// full, three times if partial, Y = E(X), feed." Empty text has no block and
/// leaves X as it is.
fn proc_txt(
    e: &impl Fn(u128) -> u128,
    way: Way,
    mut x: u128,
    mut delta: u64,
    text: &[&[u8]],
) -> (u128, Vec<u8>) {
    let mut output = Vec::new();
    for (n, block) in text.iter().enumerate() {
        let last = n + 1 == text.len();
        let times = match (last, block.len() == BLOCK) {
            (false, _) => 1,
            (true, true) => 2,
            (true, false) => 3,
        };
        delta = doubled_times(times, delta);
        let (new_x, part) = hyfb(way, e(x), delta, block);
        x = new_x;
        output.extend(part);
    }
    (x, output)
}

/// "Tag: E of X with its halves swapped."
fn tag_gen(e: &impl Fn(u128) -> u128, x: u128) -> u128 {
    e(joined(right(x), left(x)))
}

/// HYENA-ENC and HYENA-DEC but for the comparing of tags: the ciphertext, or in
/// opening the text, and the tag.
fn hyena(
    e: &impl Fn(u128) -> u128,
    way: Way,
    nonce: &[u8],
    data: &[u8],
    text: &[u8],
) -> (Vec<u8>, [u8; 16]) {
    let y = init(e, nonce, data, text);
    let (x, delta) = proc_ad(e, y, &cut(data));
    let (x, output) = proc_txt(e, way, x, delta, &cut(text));
    (output, tag_gen(e, x).to_le_bytes())
}

/// Document 01's number for the lengths, the key's aside: 2 nonce has a wrong
/// length, 3 associated data too long, 4 text too long, 5 "tag, or room for it,
/// not 16 bytes", 6 room too short, 0 none of these. "Where several apply, the
/// smallest number is given."
fn refusal(nonce: &[u8], data: &[u8], text: &[u8], tag: &[u8], room: &[u8]) -> u32 {
    if nonce.len() != 12 {
        return 2;
    }
    if data.len() > LONGEST_AD {
        return 3;
    }
    if text.len() > LONGEST_TEXT {
        return 4;
    }
    if tag.len() != 16 {
        return 5;
    }
    if room.len() < text.len() {
        return 6;
    }
    0
}

/// [`seal`] over the block function `e`, which stands for the cipher and its
/// key.
fn seal_over(
    e: &impl Fn(u128) -> u128,
    nonce: &[u8],
    data: &[u8],
    text: &[u8],
    room: &mut [u8],
    tag: &mut [u8],
) -> u32 {
    let number = refusal(nonce, data, text, tag, room);
    if number == 0 {
        let (ciphertext, computed) = hyena(e, Way::Sealing, nonce, data, text);
        room[..text.len()].copy_from_slice(&ciphertext);
        tag.copy_from_slice(&computed);
    }
    number
}

/// [`open`] over the block function `e`, which stands for the cipher and its
/// key.
fn open_over(
    e: &impl Fn(u128) -> u128,
    nonce: &[u8],
    data: &[u8],
    ciphertext: &[u8],
    tag: &[u8],
    room: &mut [u8],
) -> u32 {
    let number = refusal(nonce, data, ciphertext, tag, room);
    if number != 0 {
        return number;
    }
    let (text, recomputed) = hyena(e, Way::Opening, nonce, data, ciphertext);
    let front = &mut room[..ciphertext.len()];
    if tag != recomputed {
        front.fill(0);
        return 7;
    }
    front.copy_from_slice(&text);
    0
}

/// GIFT-128 under `key` as the block function; nothing if the key has a wrong
/// length.
fn gift_under(key: &[u8]) -> Option<impl Fn(u128) -> u128> {
    let encipher = gift::under(key.try_into().ok()?);
    Some(move |x: u128| u128::from_le_bytes(encipher(&x.to_le_bytes())))
}

/// Seals `text` with the associated data `data`: writes the ciphertext to the
/// front of `room`, as many bytes as the text has, and the tag to `tag`.
/// Answers document 01's number: 0 done, 1 key has a wrong length, 2 nonce has
/// a wrong length, 3 associated data too long, 4 text too long, 5 room for the
/// tag not 16 bytes, 6 room too short. Nothing changes unless the number is 0,
/// and "the rest of longer room keeps its bytes" always.
pub fn seal(
    key: &[u8],
    nonce: &[u8],
    data: &[u8],
    text: &[u8],
    room: &mut [u8],
    tag: &mut [u8],
) -> u32 {
    match gift_under(key) {
        Some(e) => seal_over(&e, nonce, data, text, room, tag),
        None => 1,
    }
}

/// Opens `ciphertext` with the associated data `data`: writes the text to the
/// front of `room`, as many bytes as the ciphertext has. The numbers are those
/// of [`seal`] with the ciphertext in place of the text, and 7: "tag is not the
/// recomputed one". With 7 the front of the room is zeros; nothing changes with
/// 1 to 6.
pub fn open(
    key: &[u8],
    nonce: &[u8],
    data: &[u8],
    ciphertext: &[u8],
    tag: &[u8],
    room: &mut [u8],
) -> u32 {
    match gift_under(key) {
        Some(e) => open_over(&e, nonce, data, ciphertext, tag, room),
        None => 1,
    }
}

/// [`seal`] in the short form that "takes no associated data and uses the empty
/// one" (document 01, Sizes); 3 cannot arise.
pub fn seal_short(key: &[u8], nonce: &[u8], text: &[u8], room: &mut [u8], tag: &mut [u8]) -> u32 {
    seal(key, nonce, &[], text, room, tag)
}

/// [`open`] in the short form, beside [`seal_short`].
pub fn open_short(key: &[u8], nonce: &[u8], ciphertext: &[u8], tag: &[u8], room: &mut [u8]) -> u32 {
    open(key, nonce, &[], ciphertext, tag, room)
}

/// [`seal`] "where text and room are one buffer, which then holds the
/// ciphertext" (include/vespruldo.h); 6 cannot arise.
pub fn seal_in_place(
    key: &[u8],
    nonce: &[u8],
    data: &[u8],
    buffer: &mut [u8],
    tag: &mut [u8],
) -> u32 {
    let text = buffer.to_vec();
    seal(key, nonce, data, &text, buffer, tag)
}

/// [`open`] "where ciphertext and room are one buffer, which then holds the
/// text" (include/vespruldo.h); 6 cannot arise. With 7 "the whole buffer is 0".
pub fn open_in_place(key: &[u8], nonce: &[u8], data: &[u8], buffer: &mut [u8], tag: &[u8]) -> u32 {
    let ciphertext = buffer.to_vec();
    open(key, nonce, data, &ciphertext, tag, buffer)
}

#[cfg(test)]
mod tests {
    use super::*;
    use crate::lines::{print_field, Order};
    use crate::random::Random;

    #[test]
    fn cards_9_and_10_doubling() {
        assert_eq!(doubled(0x8000_0000_0000_0000), 0x1b);
        assert_eq!(doubled(0xc000_0000_0000_0000), 0x8000_0000_0000_001b);
        assert_eq!(doubled(0x4000_0000_0000_0001), 0x8000_0000_0000_0002);
        assert_eq!(doubled_times(0, 5), 5);
        assert_eq!(doubled_times(3, 0x2000_0000_0000_0001), 0x1b ^ 8);
    }

    #[test]
    fn card_11_pad() {
        let padded = [&[0xab, 0x01][..], &[0; 14]].concat();
        assert_eq!(pad(&[0xab]).to_le_bytes()[..], padded);
        assert_eq!(pad(&[0xff; 16]), u128::MAX);
        assert_eq!(pad(&[0xff; 15]), u128::MAX >> 7);
        // Eight bytes leave the 1 bit at the bottom of the upper half.
        assert_eq!(
            (left(pad(&[0xff; 8])), right(pad(&[0xff; 8]))),
            (1, u64::MAX)
        );
        assert_eq!(
            (left(pad(&[0xff; 7])), right(pad(&[0xff; 7]))),
            (0, u64::MAX >> 7)
        );
    }

    #[test]
    fn last_block_has_1_to_16_bytes() {
        let lengths = |len| -> Vec<usize> { cut(&vec![0; len]).iter().map(|b| b.len()).collect() };
        assert!(lengths(0).is_empty());
        assert_eq!(lengths(1), [1]);
        assert_eq!(lengths(16), [16]);
        assert_eq!(lengths(17), [16, 1]);
        assert_eq!(lengths(48), [16, 16, 16]);
    }

    /// "Byte j of the nonce holds bits 32+8j to 39+8j of the start block"
    /// (document 01, GIFT-128).
    #[test]
    fn nonce_lies_in_the_top_96_bits_of_the_start_block() {
        for j in 0..12 {
            let mut nonce = [0; 12];
            nonce[j] = 0x81;
            let bits = 1 << (32 + 8 * j) | 1 << (39 + 8 * j);
            assert_eq!(start_block(&nonce, false, false), bits);
            assert_eq!(start_block(&nonce, false, true), bits + 1);
            assert_eq!(start_block(&nonce, true, true), bits + 3);
        }
    }

    #[test]
    fn only_where_both_are_empty_b1_is_set() {
        let same = |x| x;
        assert_eq!(init(&same, &[0; 12], &[], &[]), 3);
        assert_eq!(init(&same, &[0; 12], &[], &[0]), 1);
        assert_eq!(init(&same, &[0; 12], &[0], &[]), 0);
        assert_eq!(init(&same, &[0; 12], &[0], &[0]), 0);
    }

    /// Both ways the same X comes out, and each way gives back what the other
    /// one was given.
    #[test]
    fn feedback_is_the_same_from_either_side() {
        let mut random = Random::new(50);
        for len in 1..=16 {
            let (y, delta) = (number(&random.sixteen()), random.next_u64());
            let text = random.bytes(len);
            let (x, ciphertext) = hyfb(Way::Sealing, y, delta, &text);
            assert_eq!(hyfb(Way::Opening, y, delta, &ciphertext), (x, text));
        }
    }

    /// A block function that a prover can evaluate. It never gives one result
    /// twice.
    fn toy(x: u128) -> u128 {
        let product = x.wrapping_mul(0x9e37_79b9_7f4a_7c15_f39c_c060_5ced_c835);
        product.wrapping_add(0x123_4567) ^ 0xdead_beef
    }

    /// The bytes b, b+d, b+2d, .. modulo 256, `n` of them.
    fn count(b: u8, d: u8, n: usize) -> Vec<u8> {
        let next = |last: &u8| Some(last.wrapping_add(d));
        std::iter::successors(Some(b), next).take(n).collect()
    }

    fn toy_nonce() -> Vec<u8> {
        count(200, 1, 12)
    }

    fn toy_ad(len: usize) -> Vec<u8> {
        count(3, 7, len)
    }

    fn toy_text(len: usize) -> Vec<u8> {
        count(250, 11, len)
    }

    /// The lengths of associated data and text, the ciphertext byte 0 first and
    /// the tag as a number. The library's proofs evaluate their definition over
    /// the same toy on the same bytes.
    const TOY_TABLE: [(usize, usize, &str, u128); 9] = [
        (0, 0, "-", 0x4ddc923b46377eee0c2443bc69d2723d),
        (0, 1, "b7", 0xadaa49ee4bbed69dfaf98929ac863053),
        (5, 0, "-", 0xd1dd7a156ed1fb0d69c2f8c962e295c7),
        (
            16,
            15,
            "eaff95d7aac7367ca230a3542bd844",
            0x6729ec86cf66b507e60e58669c49581e,
        ),
        (
            17,
            16,
            "479ce8ca1e9339e94301734992c5c774",
            0x679e403ed153b751e4703db793585ea9,
        ),
        (
            20,
            17,
            "4773ede4a25683d2172465584ce7ef2d71",
            0x263b1ba39924be57501a66ab24355ab6,
        ),
        (
            33,
            33,
            "1281d0d6d55bcd005ecd5be9ad8492a5ff7bd9678fd17815b1f337528bfe54c282",
            0x1be4e1fce257e9b708b9727911e8f7d3,
        ),
        (
            32,
            32,
            "653735add1923c619c2479877a5a9654b09141e37d35419c0b98551f03f93e32",
            0xb0a018def388fb864a900722cc7ee941,
        ),
        (8, 8, "b5a8f7fd150b79a6", 0x5a483010f02702e8f2a73a28c46a4769),
    ];

    #[test]
    fn toy_table_both_ways() {
        for (ad_len, text_len, ciphertext, tag) in TOY_TABLE {
            let (data, text) = (toy_ad(ad_len), toy_text(text_len));
            let mut room = vec![0xa5; text_len];
            let mut computed = [0x5a; 16];
            let nonce = toy_nonce();
            let sealed = seal_over(&toy, &nonce, &data, &text, &mut room, &mut computed);
            assert_eq!(sealed, 0);
            let case = format!("{ad_len}, {text_len}");
            assert_eq!(
                print_field(&room, Order::ByteZeroFirst),
                ciphertext,
                "{case}"
            );
            assert_eq!(number(&computed), tag, "{case}");
            let mut opened = vec![0xa5; text_len];
            let number = open_over(&toy, &nonce, &data, &room, &computed, &mut opened);
            assert_eq!((number, opened), (0, text), "{case}");
        }
    }

    /// X before the tag, sealing from the state `y` on.
    fn last_x(y: u128, data: &[&[u8]], text: &[&[u8]]) -> u128 {
        let (x, delta) = proc_ad(&toy, y, data);
        proc_txt(&toy, Way::Sealing, x, delta, text).0
    }

    /// The tags of the toy table without the slip and with it. "Tag computed
    /// without swapping the halves" (document 01, Slips we have seen).
    #[test]
    fn slip_halves_not_swapped() {
        for (ad_len, text_len, _, tag) in TOY_TABLE {
            let (data, text) = (toy_ad(ad_len), toy_text(text_len));
            let y = init(&toy, &toy_nonce(), &data, &text);
            let x = last_x(y, &cut(&data), &cut(&text));
            assert_eq!(tag_gen(&toy, x), tag);
            assert_ne!(toy(x), tag);
        }
    }

    /// "b1 set whenever text is empty."
    #[test]
    fn slip_b1_set_whenever_text_is_empty() {
        for ad_len in 0..=40 {
            let data = toy_ad(ad_len);
            let b0 = data.is_empty();
            let slipped = toy(start_block(&toy_nonce(), true, b0));
            let y = init(&toy, &toy_nonce(), &data, &[]);
            let tag = |y| tag_gen(&toy, last_x(y, &cut(&data), &[]));
            assert_eq!(tag(slipped) == tag(y), b0, "{ad_len}");
        }
    }

    /// "A text that is a multiple of 16 given an extra padding block."
    #[test]
    fn slip_extra_padding_block() {
        for text_len in [16, 32, 48] {
            let text = toy_text(text_len);
            let y = init(&toy, &toy_nonce(), &[], &text);
            let slipped = [cut(&text), vec![&[]]].concat();
            let tag = |text: &[&[u8]]| tag_gen(&toy, last_x(y, &[], text));
            assert_ne!(tag(&slipped), tag(&cut(&text)), "{text_len}");
        }
    }

    /// "In opening a partial last block, adding all 16 bytes of Y to the
    /// zero-filled ciphertext and feeding that as the text, so full blocks agree
    /// and partial ones don't." Another X has another tag, for E never gives
    /// one result twice.
    #[test]
    fn slip_all_of_y_added_in_a_partial_block() {
        let mut random = Random::new(51);
        for len in 1..=16 {
            let (y, delta) = (number(&random.sixteen()), random.next_u64());
            let c = random.bytes(len);
            let text = number(&c) ^ y;
            let slipped = y ^ joined(left(text), right(pad(&c)) ^ delta);
            let (x, _) = hyfb(Way::Opening, y, delta, &c);
            assert_eq!(slipped == x, len == 16, "{len}");
        }
    }

    /// A key, a nonce, associated data and a text with what sealing made of it.
    struct Sealed {
        key: Vec<u8>,
        nonce: Vec<u8>,
        data: Vec<u8>,
        text: Vec<u8>,
        ciphertext: Vec<u8>,
        tag: Vec<u8>,
    }

    /// Seals random-looking bytes of these lengths into room that is just long
    /// enough.
    fn sealed(random: &mut Random, ad_len: usize, text_len: usize) -> Sealed {
        let [key, nonce, data, text] = [16, 12, ad_len, text_len].map(|len| random.bytes(len));
        let mut ciphertext = vec![0xa5; text_len];
        let mut tag = vec![0x5a; 16];
        let number = seal(&key, &nonce, &data, &text, &mut ciphertext, &mut tag);
        assert_eq!(number, 0);
        Sealed {
            key,
            nonce,
            data,
            text,
            ciphertext,
            tag,
        }
    }

    #[test]
    fn opening_gives_back_what_was_sealed_and_zeros_under_a_wrong_tag() {
        let mut random = Random::new(52);
        for ad_len in [0, 1, 8, 15, 16, 17, 32, 33] {
            for text_len in 0..=50 {
                let s = sealed(&mut random, ad_len, text_len);
                let opened = |tag: &[u8]| {
                    let mut room = vec![0xa5; text_len + 3];
                    let number = open(&s.key, &s.nonce, &s.data, &s.ciphertext, tag, &mut room);
                    (number, room)
                };
                let rest = [0xa5; 3];
                assert_eq!(opened(&s.tag), (0, [&s.text[..], &rest].concat()));
                let mut wrong = s.tag.clone();
                wrong[(ad_len + text_len) % 16] ^= 0x10;
                let zeros = vec![0; text_len];
                assert_eq!(opened(&wrong), (7, [&zeros[..], &rest].concat()));
            }
        }
    }

    #[test]
    fn longer_room_keeps_its_rest_in_sealing() {
        let mut random = Random::new(53);
        for text_len in 0..=50 {
            let s = sealed(&mut random, 5, text_len);
            let mut room = vec![0xa5; text_len + 20];
            let mut tag = [0x5a; 16];
            let number = seal(&s.key, &s.nonce, &s.data, &s.text, &mut room, &mut tag);
            assert_eq!(number, 0);
            assert_eq!(room, [&s.ciphertext[..], &[0xa5; 20]].concat());
            assert_eq!(tag[..], s.tag);
        }
    }

    #[test]
    fn every_byte_counts_in_opening() {
        let mut random = Random::new(54);
        let s = sealed(&mut random, 35, 37);
        let given = [s.key, s.nonce, s.data, s.ciphertext, s.tag];
        let number = |[key, nonce, data, ciphertext, tag]: &[Vec<u8>; 5]| {
            open(key, nonce, data, ciphertext, tag, &mut [0; 37])
        };
        assert_eq!(number(&given), 0);
        for which in 0..given.len() {
            for place in 0..given[which].len() {
                let mut flipped = given.clone();
                flipped[which][place] ^= 0x04;
                assert_eq!(number(&flipped), 7, "{which}, {place}");
            }
        }
    }

    #[test]
    fn short_forms_use_empty_associated_data() {
        let mut random = Random::new(55);
        for text_len in [0, 1, 15, 16, 17, 40] {
            let s = sealed(&mut random, 0, text_len);
            let mut room = vec![0xa5; text_len];
            let mut tag = [0x5a; 16];
            assert_eq!(
                seal_short(&s.key, &s.nonce, &s.text, &mut room, &mut tag),
                0
            );
            assert_eq!((&room, &tag[..]), (&s.ciphertext, &s.tag[..]));
            let number = open_short(&s.key, &s.nonce, &s.ciphertext, &tag, &mut room);
            assert_eq!((number, &room), (0, &s.text));
            tag[0] ^= 1;
            let number = open_short(&s.key, &s.nonce, &s.ciphertext, &tag, &mut room);
            assert_eq!((number, room), (7, vec![0; text_len]));
        }
    }

    /// The longest text under the most associated data.
    #[test]
    fn longest_text_goes_both_ways() {
        let s = sealed(&mut Random::new(56), 65_536, 1_048_576);
        let mut room = vec![0xa5; s.text.len()];
        let number = open(&s.key, &s.nonce, &s.data, &s.ciphertext, &s.tag, &mut room);
        assert_eq!(number, 0);
        assert!(room == s.text);
    }

    /// Expects `number` of sealing and of opening with the lengths of key,
    /// nonce, associated data, text, tag and room, and that nothing changes
    /// unless it is 0. Opening has a made-up tag, so there 7 stands for 0.
    fn expect(number: u32, lengths: [usize; 6]) {
        let mut random = Random::new(57);
        let [key, nonce, data, text, tag, room] = lengths.map(|len| random.bytes(len));
        let (mut lent, mut lent_tag) = (room.clone(), tag.clone());
        let sealed = seal(&key, &nonce, &data, &text, &mut lent, &mut lent_tag);
        assert_eq!(sealed, number, "{lengths:?}");
        assert_eq!(
            (&lent, &lent_tag) == (&room, &tag),
            number != 0,
            "{lengths:?}"
        );
        let mut lent = room.clone();
        let opened = open(&key, &nonce, &data, &text, &tag, &mut lent);
        assert_eq!(opened, if number == 0 { 7 } else { number }, "{lengths:?}");
        assert_eq!(lent == room, number != 0, "{lengths:?}");
    }

    #[test]
    fn every_length_is_judged() {
        for len in 0..=40 {
            let unless = |right: bool, number: u32| if right { 0 } else { number };
            expect(unless(len == 16, 1), [len, 12, 5, 20, 16, 20]);
            expect(unless(len == 12, 2), [16, len, 5, 20, 16, 20]);
            expect(unless(len == 16, 5), [16, 12, 5, 20, len, 20]);
            expect(unless(len >= 20, 6), [16, 12, 5, 20, 16, len]);
        }
        expect(0, [16, 12, 65_536, 20, 16, 20]);
        expect(3, [16, 12, 65_537, 20, 16, 20]);
        expect(4, [16, 12, 5, LONGEST_TEXT + 1, 16, LONGEST_TEXT + 1]);
    }

    /// Every choice of wrong lengths, the first bit of `wrong` for number 1 and
    /// the last for 6: "the smallest number is given".
    #[test]
    fn refusals_come_in_order_and_change_nothing() {
        for wrong in 1_u32..64 {
            let or = |n: u32, wrong_len, len| {
                if (wrong >> n) & 1 == 1 {
                    wrong_len
                } else {
                    len
                }
            };
            let text = or(3, LONGEST_TEXT + 1, 20);
            expect(
                wrong.trailing_zeros() + 1,
                [
                    or(0, 15, 16),
                    or(1, 13, 12),
                    or(2, 65_537, 5),
                    text,
                    or(4, 17, 16),
                    or(5, text - 1, text),
                ],
            );
        }
    }

    #[test]
    fn one_buffer_holds_what_two_would() {
        let mut random = Random::new(63);
        for len in [0, 1, 15, 16, 17, 40] {
            let [key, nonce, data, text] = [16, 12, 7, len].map(|len| random.bytes(len));
            let (mut room, mut tag) = (vec![0; len], [0; 16]);
            assert_eq!(seal(&key, &nonce, &data, &text, &mut room, &mut tag), 0);

            let (mut buffer, mut tag_of_buffer) = (text.clone(), [0; 16]);
            let number = seal_in_place(&key, &nonce, &data, &mut buffer, &mut tag_of_buffer);
            assert_eq!((number, &buffer, tag_of_buffer), (0, &room, tag));
            let number = open_in_place(&key, &nonce, &data, &mut buffer, &tag);
            assert_eq!((number, &buffer), (0, &text));

            assert_eq!(open_in_place(&key, &nonce, &data, &mut room, &tag[1..]), 5);
            assert_eq!(open_in_place(&key, &nonce, &[], &mut room, &tag), 7);
            assert_eq!(room, vec![0; len]);
        }
    }
}
