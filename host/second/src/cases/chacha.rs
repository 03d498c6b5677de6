//! The cases of ChaCha20: `chacha KEY NONCE START TEXT`, where START is a
//! number of eight bytes, most significant byte first.

use super::published_bytes;
use crate::chacha::{stream, Streamed};
use crate::lines::{fields, print_field, Order};
use crate::random::Random;

/// The order in which the RFC prints.
const ORDER: Order = Order::ByteZeroFirst;

/// A key stream added to a text, as RFC 7539 prints it.
pub struct Published {
    /// Where the RFC prints it.
    pub place: &'static str,
    key: &'static str,
    nonce: &'static str,
    /// The block counter at the start.
    pub start: u64,
    /// "Start plus blocks used" (document 02, K2), which the RFC does not print.
    pub next: u64,
    /// The text before.
    pub text: &'static [u8],
    result: &'static str,
}

impl Published {
    /// The key's 32 bytes.
    pub fn key(&self) -> Vec<u8> {
        published_bytes(self.key)
    }

    /// The nonce's 12 bytes.
    pub fn nonce(&self) -> Vec<u8> {
        published_bytes(self.nonce)
    }

    /// The text after.
    pub fn result(&self) -> Vec<u8> {
        published_bytes(self.result)
    }
}

/// The RFC's streams. Where it prints a block alone, the block was added to
/// zeros here. Appendix A.2's first vector is appendix A.1's first block.
pub const PUBLISHED: [Published; 9] = [
    Published {
        place: "section 2.3.2",
        key: "000102030405060708090a0b0c0d0e0f101112131415161718191a1b1c1d1e1f",
        nonce: "000000090000004a00000000",
        start: 1,
        next: 2,
        text: &[0; 64],
        result: "10f1e7e4d13b5915500fdd1fa32071c4c7d1f4c733c068030422aa9ac3d46c4e\
                 d2826446079faa0914c2d705d98b02a2b5129cd1de164eb9cbd083e8a2503c4e",
    },
    Published {
        place: "section 2.4.2",
        key: "000102030405060708090a0b0c0d0e0f101112131415161718191a1b1c1d1e1f",
        nonce: "000000000000004a00000000",
        start: 1,
        next: 3,
        text: b"Ladies and Gentlemen of the class of '99: If I could offer you only \
                one tip for the future, sunscreen would be it.",
        result: "6e2e359a2568f98041ba0728dd0d6981e97e7aec1d4360c20a27afccfd9fae0b\
                 f91b65c5524733ab8f593dabcd62b3571639d624e65152ab8f530c359f0861d8\
                 07ca0dbf500d6a6156a38e088a22b65e52bc514d16ccf806818ce91ab7793736\
                 5af90bbf74a35be6b40b8eedf2785e42874d",
    },
    Published {
        place: "appendix A.1, #1, and appendix A.2, #1",
        key: "0000000000000000000000000000000000000000000000000000000000000000",
        nonce: "000000000000000000000000",
        start: 0,
        next: 1,
        text: &[0; 64],
        result: "76b8e0ada0f13d90405d6ae55386bd28bdd219b8a08ded1aa836efcc8b770dc7\
                 da41597c5157488d7724e03fb8d84a376a43b8f41518a11cc387b669b2ee6586",
    },
    Published {
        place: "appendix A.1, #2",
        key: "0000000000000000000000000000000000000000000000000000000000000000",
        nonce: "000000000000000000000000",
        start: 1,
        next: 2,
        text: &[0; 64],
        result: "9f07e7be5551387a98ba977c732d080dcb0f29a048e3656912c6533e32ee7aed\
                 29b721769ce64e43d57133b074d839d531ed1f28510afb45ace10a1f4b794d6f",
    },
    Published {
        place: "appendix A.1, #3",
        key: "0000000000000000000000000000000000000000000000000000000000000001",
        nonce: "000000000000000000000000",
        start: 1,
        next: 2,
        text: &[0; 64],
        result: "3aeb5224ecf849929b9d828db1ced4dd832025e8018b8160b82284f3c949aa5a\
                 8eca00bbb4a73bdad192b5c42f73f2fd4e273644c8b36125a64addeb006c13a0",
    },
    Published {
        place: "appendix A.1, #4",
        key: "00ff000000000000000000000000000000000000000000000000000000000000",
        nonce: "000000000000000000000000",
        start: 2,
        next: 3,
        text: &[0; 64],
        result: "72d54dfbf12ec44b362692df94137f328fea8da73990265ec1bbbea1ae9af0ca\
                 13b25aa26cb4a648cb9b9d1be65b2c0924a66c54d545ec1b7374f4872e99f096",
    },
    Published {
        place: "appendix A.1, #5",
        key: "0000000000000000000000000000000000000000000000000000000000000000",
        nonce: "000000000000000000000002",
        start: 0,
        next: 1,
        text: &[0; 64],
        result: "c2c64d378cd536374ae204b9ef933fcd1a8b2288b3dfa49672ab765b54ee27c7\
                 8a970e0e955c14f3a88e741b97c286f75f8fc299e8148362fa198a39531bed6d",
    },
    Published {
        place: "appendix A.2, #2",
        key: "0000000000000000000000000000000000000000000000000000000000000001",
        nonce: "000000000000000000000002",
        start: 1,
        next: 7,
        text: b"Any submission to the IETF intended by the Contributor for publication \
                as all or part of an IETF Internet-Draft or RFC and any statement made \
                within the context of an IETF activity is considered an \"IETF \
                Contribution\". Such statements include oral statements in IETF \
                sessions, as well as written and electronic communications made at any \
                time or place, which are addressed to",
        result: "a3fbf07df3fa2fde4f376ca23e82737041605d9f4f4f57bd8cff2c1d4b7955ec\
                 2a97948bd3722915c8f3d337f7d370050e9e96d647b7c39f56e031ca5eb6250d\
                 4042e02785ececfa4b4bb5e8ead0440e20b6e8db09d881a7c6132f420e527950\
                 42bdfa7773d8a9051447b3291ce1411c680465552aa6c405b7764d5e87bea85a\
                 d00f8449ed8f72d0d662ab052691ca66424bc86d2df80ea41f43abf937d3259d\
                 c4b2d0dfb48a6c9139ddd7f76966e928e635553ba76c5c879d7b35d49eb2e62b\
                 0871cdac638939e25e8a1e0ef9d5280fa8ca328b351c3c765989cbcf3daa8b6c\
                 cc3aaf9f3979c92b3720fc88dc95ed84a1be059c6499b9fda236e7e818b04b0b\
                 c39c1e876b193bfe5569753f88128cc08aaa9b63d1a16f80ef2554d7189c411f\
                 5869ca52c5b83fa36ff216b9c1d30062bebcfd2dc5bce0911934fda79a86f6e6\
                 98ced759c3ff9b6477338f3da4f9cd8514ea9982ccafb341b2384dd902f3d1ab\
                 7ac61dd29c6f21ba5b862f3730e37cfdc4fd806c22f221",
    },
    Published {
        place: "appendix A.2, #3",
        key: "1c9240a5eb55d38af333888604f6b5f0473917c1402b80099dca5cbc207075c0",
        nonce: "000000000000000000000002",
        start: 42,
        next: 44,
        text: b"'Twas brillig, and the slithy toves\n\
                Did gyre and gimble in the wabe:\n\
                All mimsy were the borogoves,\n\
                And the mome raths outgrabe.",
        result: "62e6347f95ed87a45ffae7426f27a1df5fb69110044c0d73118effa95b01e5cf\
                 166d3df2d721caf9b21e5fb14c616871fd84c54f9d65b283196c7fe4f60553eb\
                 f39c6402c42234e32a356b3e764312a61a5532055716ead6962568f87d3f3f77\
                 04c6a8d1bcd1bf4d50d6154b6da731b187b58dfd728afa36757a797ac188d1",
    },
];

fn line(key: &[u8], nonce: &[u8], start: u64, text: &[u8]) -> String {
    let [key, nonce, text] = [key, nonce, text].map(|bytes| print_field(bytes, ORDER));
    format!("chacha {key} {nonce} {start:016x} {text}")
}

fn published_line(published: &Published) -> String {
    let (key, nonce) = (published.key(), published.nonce());
    line(&key, &nonce, published.start, published.text)
}

/// Random-looking bytes of the lengths given.
fn random_line(
    random: &mut Random,
    key_len: usize,
    nonce_len: usize,
    start: u64,
    text_len: usize,
) -> String {
    let (key, nonce) = (random.bytes(key_len), random.bytes(nonce_len));
    line(&key, &nonce, start, &random.bytes(text_len))
}

/// Texts that end inside a block, with it and behind it, from any counter.
fn text_lines(random: &mut Random) -> Vec<String> {
    [0, 1, 63, 64, 65, 127, 128, 129, 200, 1152]
        .into_iter()
        .map(|text_len| {
            // Halved, so that no text passes the last counter.
            let start = u64::from(random.next_u64() as u32 / 2);
            random_line(random, 32, 12, start, text_len)
        })
        .collect()
}

/// The last counters, which the text may reach and not pass.
fn counter_lines(random: &mut Random) -> Vec<String> {
    [
        (0xffff_ffff, 0),
        (0xffff_ffff, 64),
        (0xffff_ffff, 65),
        (0xffff_fffe, 128),
        (0xffff_fffe, 129),
        // These starts read as other numbers if a byte is lost or turned.
        (0x0100_0000, 64),
        (0x0001_0000, 64),
        (0x8000_0000, 65),
    ]
    .into_iter()
    .map(|(start, text_len)| random_line(random, 32, 12, start, text_len))
    .collect()
}

/// Wrong lengths, each alone and each beside the other, and with a counter
/// that is refused.
fn wrong_length_lines(random: &mut Random) -> Vec<String> {
    let mut list = Vec::new();
    for key_len in [0, 16, 31, 32, 33] {
        for nonce_len in [0, 8, 11, 12, 13] {
            if (key_len, nonce_len) != (32, 12) {
                list.push(random_line(random, key_len, nonce_len, 1, 3));
            }
        }
    }
    for (key_len, nonce_len) in [(31, 12), (32, 13), (33, 11), (0, 0)] {
        list.push(random_line(random, key_len, nonce_len, 0xffff_ffff, 65));
    }
    list
}

/// Starts that need more than 32 bits: the one where a stream may stop, and
/// those above it.
fn wide_start_lines(random: &mut Random) -> Vec<String> {
    [
        (0x1_0000_0000, 0),
        (0x1_0000_0000, 1),
        (0x1_0000_0001, 0),
        (u64::MAX, 0),
        (u64::MAX, 64),
        (1 << 63, 1),
        // Another number if a byte is lost or turned.
        (0x0102_0304_0506_0708, 1),
    ]
    .into_iter()
    .map(|(start, text_len)| random_line(random, 32, 12, start, text_len))
    .collect()
}

/// All cases of ChaCha20.
pub fn lines() -> Vec<String> {
    let mut random = Random::new(0x6368_6163);
    [
        PUBLISHED.iter().map(published_line).collect(),
        text_lines(&mut random),
        counter_lines(&mut random),
        wrong_length_lines(&mut random),
        wide_start_lines(&mut random),
    ]
    .concat()
}

/// The answer to the fields `KEY NONCE START TEXT`: the number, where the stream
/// stopped, printed as START is, and the text after it; and the same after the
/// stream over that again, from the same start. Nothing if the fields are
/// something else.
pub fn answer(given: &[u8]) -> Option<String> {
    let [key, nonce, start, mut text] = fields(given, ORDER)?;
    let start = u64::from_be_bytes(start.try_into().ok()?);
    let mut after = || {
        let Streamed { number, next } = stream(&key, &nonce, start, &mut text);
        format!("{number} {next:016x} {}", print_field(&text, ORDER))
    };
    Some([after(), after()].join(" "))
}

#[cfg(test)]
mod tests {
    use super::super::answer;
    use super::super::tests::answered;
    use super::*;

    #[test]
    fn published_lines_are_answered_as_published() {
        for (line, published) in lines().iter().zip(&PUBLISHED) {
            let text = print_field(published.text, ORDER);
            let next = print_field(&published.next.to_be_bytes(), ORDER);
            let expected = format!("0 {next} {} 0 {next} {text}", published.result);
            assert_eq!(answer(line.as_bytes()), expected, "{}", published.place);
        }
    }

    #[test]
    fn every_number_comes_as_often_as_it_was_meant_to() {
        let lines = lines();
        assert_eq!(answered(&lines, 0), 9 + 10 + 6 + 1);
        assert_eq!(answered(&lines, 1), 20 + 3);
        assert_eq!(answered(&lines, 2), 4 + 1);
        assert_eq!(answered(&lines, 8), 2 + 6);
        assert_eq!(lines.len(), 26 + 23 + 5 + 8);
    }

    #[test]
    fn start_is_a_number_of_eight_bytes_high_byte_first() {
        let (key, nonce) = ("00".repeat(32), "00".repeat(12));
        let front = |start: &str| {
            let line = format!("chacha {key} {nonce} {start} 0000000000");
            answer(line.as_bytes())
        };
        // RFC 7539, appendix A.1, #1 and #2.
        let [one, two] = ["0000000000000001", "0000000000000002"];
        let expected = format!("0 {one} 76b8e0ada0 0 {one} 0000000000");
        assert_eq!(front("0000000000000000"), expected);
        let expected = format!("0 {two} 9f07e7be55 0 {two} 0000000000");
        assert_eq!(front("0000000000000001"), expected);
        let high = "0102030405060708";
        let expected = format!("8 {high} 0000000000 8 {high} 0000000000");
        assert_eq!(front(high), expected);
        for len in (0..16).filter(|&len| len != 8) {
            let start = print_field(&vec![0; len], ORDER);
            assert_eq!(front(&start), "bad line", "{len}");
        }
    }

    #[test]
    fn refused_lines_show_start_and_text_unchanged() {
        let start = "00000000ffffffff";
        let line = format!("chacha 01 - {start} 0203");
        let expected = format!("1 {start} 0203 1 {start} 0203");
        assert_eq!(answer(line.as_bytes()), expected);
        let key = "00".repeat(32);
        let text = "ab".repeat(65);
        let refused = |nonce: &str, number: u32| {
            let line = format!("chacha {key} {nonce} {start} {text}");
            let expected = format!("{number} {start} {text} {number} {start} {text}");
            assert_eq!(answer(line.as_bytes()), expected);
        };
        refused("-", 2);
        refused(&"00".repeat(12), 8);
    }

    #[test]
    fn wide_starts_are_done_for_an_empty_text_at_2_to_the_32_only() {
        let lines = lines();
        let answers: Vec<String> = lines[lines.len() - 7..]
            .iter()
            .map(|line| answer(line.as_bytes()))
            .collect();
        assert_eq!(answers[0], "0 0000000100000000 - 0 0000000100000000 -");
        assert!(answers[1].starts_with("8 0000000100000000 "));
        assert_eq!(answers[2], "8 0000000100000001 - 8 0000000100000001 -");
        assert_eq!(answers[3], "8 ffffffffffffffff - 8 ffffffffffffffff -");
        assert!(answers[4].starts_with("8 ffffffffffffffff "));
        assert!(answers[5].starts_with("8 8000000000000000 "));
        assert!(answers[6].starts_with("8 0102030405060708 "));
    }
}
