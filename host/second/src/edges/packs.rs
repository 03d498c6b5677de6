//! Lesson packs at the edges (document 02, K1): cut at every byte, with bytes
//! changed, with every shuffle of three words, at the limits of every count and
//! length and beyond them.
//!
//! The line of a pack is the name of the rule that makes it and the rule's
//! numbers; then what a reader answers from place 0 on, `KIND START LENGTH` for
//! each card and `0 NUMBER BAD` for what comes after the last one; then
//! `NUMBER CARDS BAD`, what a walk over the whole pack comes to.

use crate::pack::{judge, next, Answer, Judged, NO_CARD};

/// A pack with one word and no song, and two bytes left over.
const LEAST: [u8; 10] = [0x01, 0x03, 0x63, 0x61, 0x74, 0x00, 0x01, 0x00, 0x00, 0x00];

/// A pack with three words and a song, and two bytes left over.
#[rustfmt::skip]
const THREE: [u8; 21] = [
    0x03,
    0x01, 0x61,
    0x02, 0x62, 0x63,
    0x03, 0x64, 0x65, 0x66,
    0x01,
    0x02, 0x00, 0x67, 0x68,
    0x03, 0x02, 0x00, 0x01,
    0x00, 0x00,
];

/// How many bytes of it are the pack, and where the entries of its shuffle are.
const WHOLE: usize = 19;
const ENTRIES: usize = 16;

/// What each byte of that pack is changed to.
const VALUES: [u8; 10] = [0, 1, 2, 3, 4, 12, 13, 40, 41, 255];

/// What each byte of a word and of a song is.
const WORD_BYTE: u8 = 7;
const SONG_BYTE: u8 = 9;

/// How a pack is built: so many words, all of one length; so many songs, all of
/// one length; and so many entries, which count up from 0. Nothing is judged.
#[derive(Clone, Copy)]
struct Built {
    words: u8,
    word: u8,
    songs: u8,
    song: u16,
    entries: u8,
}

impl Built {
    const fn of(words: u8, word: u8, songs: u8, song: u16, entries: u8) -> Built {
        Built {
            words,
            word,
            songs,
            song,
            entries,
        }
    }
}

/// The largest pack, with every count and length at its limit.
const LARGEST: Built = Built::of(12, 40, 1, 16_384, 12);

/// Each is taken a byte shorter, whole and a byte longer.
const BUILT: [Built; 13] = [
    Built::of(1, 1, 0, 0, 1),
    LARGEST,
    Built::of(13, 1, 0, 0, 13),
    Built::of(0, 1, 0, 0, 0),
    Built::of(1, 41, 0, 0, 1),
    Built::of(12, 41, 1, 1, 12),
    Built::of(1, 1, 1, 16_385, 1),
    Built::of(1, 1, 1, 0, 1),
    Built::of(1, 1, 2, 1, 1),
    Built::of(1, 1, 0, 0, 2),
    Built::of(12, 1, 0, 0, 13),
    Built::of(3, 1, 1, 1, 2),
    Built::of(1, 1, 1, 1, 1),
];

/// Lengths around the count of songs and the song's length in the largest pack.
const AROUND_THE_SONG: [usize; 6] = [492, 493, 494, 495, 496, 497];

/// The lengths of a lone word, and how many bytes there are behind each.
const LONE: [u8; 5] = [0, 1, 40, 41, 255];

/// A line without its newline, made by asking a reader and a judge of packs.
fn line(
    rule: &str,
    pack: &[u8],
    next: impl Fn(&[u8], usize) -> Answer,
    judge: impl Fn(&[u8]) -> Judged,
) -> String {
    let mut line = rule.to_string();
    let mut answer = next(pack, 0);
    while answer.kind != NO_CARD {
        line += &format!(" {} {} {}", answer.kind, answer.start, answer.length);
        answer = next(pack, answer.next);
    }
    line += &format!(" 0 {} {}", answer.number, answer.bad);
    let Judged { number, cards, bad } = judge(pack);
    line + &format!(" {number} {cards} {bad}")
}

/// The line of this pack.
fn line_of(rule: &str, pack: &[u8]) -> String {
    line(rule, pack, next, judge)
}

/// The bytes cut to each length from 0 on.
fn cut_lines(name: &str, bytes: &[u8]) -> Vec<String> {
    (0..=bytes.len())
        .map(|len| line_of(&format!("{name} {len}"), &bytes[..len]))
        .collect()
}

/// The pack of three words with each of its bytes changed.
fn changed_lines() -> Vec<String> {
    let mut list = Vec::new();
    for at in 0..WHOLE {
        for value in VALUES {
            let mut pack = THREE[..WHOLE].to_vec();
            pack[at] = value;
            list.push(line_of(&format!("changed {at} {value}"), &pack));
        }
    }
    list
}

/// The pack of three words with each shuffle of places 0 to 3.
fn shuffle_lines() -> Vec<String> {
    let mut list = Vec::new();
    for a in 0..=3 {
        for b in 0..=3 {
            for c in 0..=3 {
                let pack = [&THREE[..ENTRIES], &[a, b, c]].concat();
                list.push(line_of(&format!("shuffle {a} {b} {c}"), &pack));
            }
        }
    }
    list
}

/// The pack that is built so.
fn built(how: Built) -> Vec<u8> {
    let word = [&[how.word], &vec![WORD_BYTE; how.word.into()][..]].concat();
    let song = [
        &how.song.to_le_bytes(),
        &vec![SONG_BYTE; how.song.into()][..],
    ]
    .concat();
    let mut pack = vec![how.words];
    pack.extend(word.repeat(how.words.into()));
    pack.push(how.songs);
    pack.extend(song.repeat(how.songs.into()));
    pack.push(how.entries);
    pack.extend(0..how.entries);
    pack
}

/// The line of the pack that is built so, cut to this length or with zeros added
/// up to it.
fn built_line(how: Built, len: usize) -> String {
    let Built {
        words,
        word,
        songs,
        song,
        entries,
    } = how;
    let mut pack = built(how);
    pack.resize(len, 0);
    let rule = format!("built {words} {word} {songs} {song} {entries} {len}");
    line_of(&rule, &pack)
}

/// The packs that are built.
fn built_lines() -> Vec<String> {
    let mut list = Vec::new();
    for how in BUILT {
        let whole = built(how).len();
        for len in [whole - 1, whole, whole + 1] {
            list.push(built_line(how, len));
        }
    }
    for len in AROUND_THE_SONG {
        list.push(built_line(LARGEST, len));
    }
    list
}

/// A word's length with so many bytes behind it, and nothing else.
fn lone_lines() -> Vec<String> {
    let mut list = Vec::new();
    for length in LONE {
        for behind in LONE {
            let pack = [&[1, length], &vec![WORD_BYTE; behind.into()][..]].concat();
            list.push(line_of(&format!("lone {length} {behind}"), &pack));
        }
    }
    list
}

/// All lines of lesson packs.
pub fn lines() -> Vec<String> {
    [
        cut_lines("least", &LEAST),
        cut_lines("three", &THREE),
        changed_lines(),
        shuffle_lines(),
        built_lines(),
        lone_lines(),
    ]
    .concat()
}

#[cfg(test)]
mod tests {
    use super::super::tests::{fields, with_number};
    use super::*;

    /// How many of `lines` end with each of the numbers 0, 12, 13, 14 and 15.
    fn numbers(lines: &[String]) -> [usize; 5] {
        let of = |line: &String| -> String {
            let fields = fields(line);
            fields[fields.len() - 3].to_string()
        };
        let judged: Vec<String> = lines.iter().map(of).collect();
        [0, 12, 13, 14, 15].map(|number| with_number(&judged, 0, number))
    }

    /// Worked out by hand. In the packs with a byte changed, the bytes of words
    /// and of the song may be anything: that is 8 bytes of 19, and each of the
    /// others has one value that changes nothing.
    #[test]
    fn every_number_comes_as_often_as_it_was_meant_to() {
        assert_eq!(numbers(&cut_lines("least", &LEAST)), [1, 8, 0, 0, 2]);
        assert_eq!(numbers(&cut_lines("three", &THREE)), [1, 19, 0, 0, 2]);
        let changed = changed_lines();
        // A count of words or songs, a word's length, the song's length or its
        // high byte, the shuffle's count, one of its entries.
        for (at, expected) in [
            (0, [1, 1, 8, 0, 0]),
            (1, [1, 8, 1, 0, 0]),
            (3, [1, 7, 2, 0, 0]),
            (6, [1, 5, 4, 0, 0]),
            (10, [1, 0, 9, 0, 0]),
            (11, [1, 6, 3, 0, 0]),
            (12, [1, 9, 0, 0, 0]),
            (15, [1, 6, 3, 0, 0]),
            (16, [1, 0, 0, 9, 0]),
            (17, [1, 0, 0, 9, 0]),
            (18, [1, 0, 0, 9, 0]),
        ] {
            assert_eq!(numbers(&changed[10 * at..10 * at + 10]), expected, "{at}");
        }
        assert_eq!(numbers(&changed), [91, 42, 30, 27, 0]);
        assert_eq!(numbers(&shuffle_lines()), [6, 0, 0, 58, 0]);
        assert_eq!(numbers(&built_lines()), [3, 12, 27, 0, 3]);
        assert_eq!(numbers(&lone_lines()), [0, 12, 13, 0, 0]);
        assert_eq!(numbers(&lines()), [102, 93, 70, 85, 7]);
    }

    #[test]
    fn packs_come_in_their_order_and_none_comes_twice() {
        let mut lines = lines();
        assert_eq!(lines.len(), 11 + 22 + 190 + 64 + 39 + 6 + 25);
        let starts = |n: usize, front: &str| {
            assert!(lines[n].starts_with(&format!("{front} ")), "{}", lines[n]);
        };
        starts(0, "least 0");
        starts(10, "least 10");
        starts(11, "three 0");
        starts(32, "three 21");
        starts(33, "changed 0 0");
        starts(34, "changed 0 1");
        starts(42, "changed 0 255");
        starts(43, "changed 1 0");
        starts(222, "changed 18 255");
        starts(223, "shuffle 0 0 0");
        starts(224, "shuffle 0 0 1");
        starts(227, "shuffle 0 1 0");
        starts(239, "shuffle 1 0 0");
        starts(286, "shuffle 3 3 3");
        starts(287, "built 1 1 0 0 1 5");
        starts(288, "built 1 1 0 0 1 6");
        starts(289, "built 1 1 0 0 1 7");
        starts(290, "built 12 40 1 16384 12 16892");
        starts(293, "built 13 1 0 0 13 41");
        starts(296, "built 0 1 0 0 0 2");
        starts(299, "built 1 41 0 0 1 45");
        starts(302, "built 12 41 1 1 12 521");
        starts(305, "built 1 1 1 16385 1 16392");
        starts(308, "built 1 1 1 0 1 7");
        starts(311, "built 1 1 2 1 1 11");
        starts(313, "built 1 1 2 1 1 13");
        starts(314, "built 1 1 0 0 2 6");
        starts(317, "built 12 1 0 0 13 39");
        starts(320, "built 3 1 1 1 2 13");
        starts(323, "built 1 1 1 1 1 8");
        starts(326, "built 12 40 1 16384 12 492");
        starts(331, "built 12 40 1 16384 12 497");
        starts(332, "lone 0 0");
        starts(333, "lone 0 1");
        starts(337, "lone 1 0");
        starts(356, "lone 255 255");
        lines.sort_unstable();
        lines.dedup();
        assert_eq!(lines.len(), 357);
    }

    #[test]
    fn packs_are_built_by_their_rule() {
        assert_eq!(built(BUILT[0]), [1, 1, 7, 0, 1, 0]);
        assert_eq!(built(BUILT[3]), [0, 0, 0]);
        assert_eq!(built(BUILT[7]), [1, 1, 7, 1, 0, 0, 1, 0]);
        assert_eq!(built(BUILT[8]), [1, 1, 7, 2, 1, 0, 9, 1, 0, 9, 1, 0]);
        let how = Built::of(2, 3, 1, 258, 3);
        let pack = built(how);
        assert_eq!(pack.len(), 1 + 2 * 4 + 1 + 2 + 258 + 1 + 3);
        assert_eq!(pack[..9], [2, 3, 7, 7, 7, 3, 7, 7, 7]);
        assert_eq!(pack[9..14], [1, 2, 1, 9, 9]);
        assert_eq!(pack[269..], [9, 3, 0, 1, 2]);
    }

    /// The line of a made-up reader and judge that note what they were lent.
    #[test]
    fn each_answer_is_asked_for_at_the_place_that_the_last_one_gave() {
        let next = |pack: &[u8], place: usize| {
            assert_eq!(pack, [5, 6]);
            let (number, kind, next) = match place {
                0 => (0, 4, 30),
                30 => (0, 5, 7),
                7 => (8, 0, 9),
                _ => panic!("{place}"),
            };
            Answer {
                number,
                kind,
                start: place + 1,
                length: place + 2,
                bad: place + 3,
                next,
            }
        };
        let judge = |pack: &[u8]| {
            assert_eq!(pack, [5, 6]);
            Judged {
                number: 11,
                cards: 12,
                bad: 13,
            }
        };
        let expected = "rule 1 4 1 2 5 31 32 0 8 10 11 12 13";
        assert_eq!(line("rule 1", &[5, 6], next, judge), expected);
    }

    #[test]
    fn lines_show_what_the_document_says() {
        let lines = lines();
        let expect = |rule: &str, answers: &str| {
            let line = format!("{rule} {answers}");
            assert!(lines.contains(&line), "{line}");
        };
        expect("least 0", "0 12 0 12 0 0");
        expect("least 5", "1 2 3 0 12 0 12 1 0");
        expect("least 8", "1 2 3 3 7 1 0 0 0 0 2 0");
        expect("least 9", "1 2 3 3 7 1 0 15 0 15 2 0");
        let whole = "1 2 1 1 4 2 1 7 3 2 13 2 3 16 3 0 0 0 0 5 0";
        expect("three 19", whole);
        expect("three 18", "1 2 1 1 4 2 1 7 3 2 13 2 0 12 0 12 4 0");
        // One word: the length of the second counts songs. Four: the count of
        // songs is a length, the song's high byte counts songs, and its first
        // byte counts 103 entries.
        expect("changed 0 1", "1 2 1 0 13 0 13 1 0");
        expect("changed 0 4", "1 2 1 1 4 2 1 7 3 1 11 1 0 12 0 12 4 0");
        // No song: its length counts two entries, and they are there.
        expect("changed 10 0", "1 2 1 1 4 2 1 7 3 0 13 0 13 3 0");
        expect("changed 16 0", "1 2 1 1 4 2 1 7 3 2 13 2 0 14 1 14 4 1");
        expect("shuffle 0 1 1", "1 2 1 1 4 2 1 7 3 2 13 2 0 14 2 14 4 2");
        expect("shuffle 0 1 2", whole);
        expect("shuffle 3 3 3", "1 2 1 1 4 2 1 7 3 2 13 2 0 14 0 14 4 0");
        expect("built 1 41 0 0 1 45", "0 13 0 13 0 0");
        expect("built 1 1 1 16385 1 16392", "1 2 1 0 13 0 13 1 0");
        // A word of one byte without a count of songs, then with one of 7.
        expect("lone 1 1", "1 2 1 0 12 0 12 1 0");
        expect("lone 1 40", "1 2 1 0 13 0 13 1 0");
        expect("lone 41 1", "0 12 0 12 0 0");
        expect("lone 41 41", "0 13 0 13 0 0");
    }
}
