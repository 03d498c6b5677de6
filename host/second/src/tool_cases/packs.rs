//! Lesson packs: "a line for each card of a lesson pack, in order"
//! (docs/cards.1), or why a pack is refused.

use super::run::Form::Any;
use super::Cases;
use crate::pack::{judge, next, Answer, Judged, SONG, WORD};

/// The number of words, and the length of the song, where 0 is no song.
const PACKS: [(u8, u16); 6] = [(1, 0), (1, 1), (2, 256), (3, 0), (7, 1000), (12, 300)];

/// What a byte of a pack is changed to.
const VALUES: [u8; 9] = [0, 1, 2, 3, 12, 13, 40, 41, 255];

/// Words of these lengths.
fn words(cases: &mut Cases, lengths: &[u8]) -> Vec<u8> {
    let mut words = vec![lengths.len() as u8];
    for &length in lengths {
        words.push(length);
        words.extend(cases.random.bytes(length.into()));
    }
    words
}

/// A song of this length, where 0 is no song.
fn song(cases: &mut Cases, length: u16) -> Vec<u8> {
    match length {
        0 => vec![0],
        _ => {
            let bytes = cases.random.bytes(length.into());
            [&[1][..], &length.to_le_bytes(), &bytes].concat()
        }
    }
}

/// Some order of so many words.
fn shuffle(cases: &mut Cases, words: u8) -> Vec<u8> {
    let mut entries: Vec<u8> = (0..words).collect();
    cases.random.shuffle(&mut entries);
    [&[words], &entries[..]].concat()
}

/// A pack with so many words, of any lengths, and a song of this length.
fn made(cases: &mut Cases, count: u8, length: u16) -> Vec<u8> {
    let lengths: Vec<u8> = (0..count)
        .map(|_| 1 + cases.random.below(40) as u8)
        .collect();
    [
        words(cases, &lengths),
        song(cases, length),
        shuffle(cases, count),
    ]
    .concat()
}

/// The line of the card at this place.
fn line(pack: &[u8], place: usize) -> String {
    let Answer {
        kind,
        start,
        length,
        ..
    } = next(pack, place);
    let bytes = format!("start {start} length {length}");
    match kind {
        WORD => format!("word {place} {bytes}\n"),
        SONG => format!("song {bytes}\n"),
        _ => {
            let entries = pack[start..start + length].iter();
            let entries: Vec<String> = entries.map(u8::to_string).collect();
            format!("shuffle {bytes} entries {}\n", entries.join(" "))
        }
    }
}

/// A run that shows this pack. Its refusal says after how many cards it comes,
/// and which entry of the shuffle is bad.
fn shown(cases: &mut Cases, pack: &[u8]) {
    let Judged { number, cards, bad } = judge(pack);
    let mut run = cases.run("pack");
    run.input("in", pack, Any);
    let before = format!("cards before it: {cards}");
    match number {
        0 => {
            let lines: String = (0..cards).map(|place| line(pack, place)).collect();
            run.done(lines.as_bytes());
        }
        14 => run.refused_since(14, "in", &format!("{before}; bad entry, from 0: {bad}")),
        _ => run.refused_since(number, "in", &before),
    }
}

/// Where in a pack that is right the counts, the lengths and the entries are.
fn heads(pack: &[u8]) -> Vec<usize> {
    let mut heads = vec![0, 1];
    for place in 0..judge(pack).cards {
        let Answer {
            kind,
            start,
            length,
            ..
        } = next(pack, place);
        // Behind a card is a length or a count too, but not behind the last one.
        let after = [start + length];
        match kind {
            WORD => heads.extend(after),
            SONG => heads.extend([start - 2, start - 1].iter().chain(&after)),
            _ => heads.extend(start - 1..start + length),
        }
    }
    heads
}

/// The pack as it is, cut, longer, and with one of its numbers changed.
fn around(cases: &mut Cases, pack: &[u8]) {
    shown(cases, pack);
    let cut = cases.cut(pack);
    shown(cases, &cut);
    let more = cases.some_bytes(99);
    shown(cases, &[pack, &more, &[0]].concat());
    for _ in 0..3 {
        let mut changed = pack.to_vec();
        changed[cases.random.pick(&heads(pack))] = cases.random.pick(&VALUES);
        shown(cases, &changed);
    }
}

/// Packs as long as they may be, and lengths that are not allowed but wholly
/// there: "no length reaches further" than 66,031 bytes.
fn long(cases: &mut Cases) {
    let words = words(cases, &[40; 12]);
    let largest = [words.clone(), song(cases, 16_384), shuffle(cases, 12)].concat();
    let with_song = [words, song(cases, 65_535)].concat();
    assert_eq!((largest.len(), with_song.len()), (16_893, 66_031));
    shown(cases, &largest);
    shown(cases, &[&largest[..], &[0]].concat());
    shown(cases, &[&largest[..], &[7; 100_000]].concat());
    shown(cases, &with_song);
    shown(cases, &with_song[..66_030]);
    shown(cases, &[&with_song[..], &[12; 100_000]].concat());
    for entries in [254, 255] {
        shown(
            cases,
            &[&largest[..16_880], &vec![255; 1 + entries]].concat(),
        );
    }
}

pub fn add(cases: &mut Cases) {
    for (words, song) in PACKS {
        let pack = made(cases, words, song);
        around(cases, &pack);
    }
    long(cases);
}
