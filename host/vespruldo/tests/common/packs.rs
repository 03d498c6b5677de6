//! The reader of lesson packs of the archive beside that of the second
//! implementation, and packs to read.

use std::ops::Range;

use second::pack::{self, Answer, Judged};
use second::random::Random;
// The archive's functions themselves: the safe ones do not show what is answered
// beside a refusal.
use vespruldo::archive;
use vespruldo::{slices, Pack, PackCard, PackRefusal};

use super::up_to;

/// The most cards of a pack: twelve words, a song and the shuffle.
const MOST_CARDS: usize = 14;

/// What the archive answers at a place.
pub fn raw_next(pack: &[u8], place: usize) -> Answer {
    // SAFETY: the pack is lent for the whole call and only read.
    let archive::PackCard {
        number,
        kind,
        start,
        length,
        bad,
        next,
    } = unsafe { archive::vespruldo_pack_next(pack.as_ptr(), pack.len(), place) };
    Answer {
        number,
        kind,
        start,
        length,
        bad,
        next,
    }
}

/// What the archive answers of a whole pack.
pub fn raw_judge(pack: &[u8]) -> Judged {
    // SAFETY: the pack is lent for the whole call and only read.
    let archive::PackJudged { number, cards, bad } =
        unsafe { archive::vespruldo_pack_judge(pack.as_ptr(), pack.len()) };
    Judged { number, cards, bad }
}

/// The answer of a reader at `place` that has no card for it.
pub fn no_card(number: u32, bad: usize, place: usize) -> Answer {
    Answer {
        number,
        kind: 0,
        start: 0,
        length: 0,
        bad,
        next: place,
    }
}

/// The number, the cards before it and the bad entry of a refusal.
fn refused(why: PackRefusal) -> Judged {
    let number = why.refusal.number();
    assert_eq!(why.bad_entry.is_some(), number == 14, "{why}");
    Judged {
        number,
        cards: why.cards,
        bad: why.bad_entry.unwrap_or(0),
    }
}

/// What a typed answer at `place` is in numbers. A card's start is told by its
/// address: the same bytes elsewhere are not that part of the pack.
fn in_numbers(pack: &[u8], place: usize, answer: Result<Option<PackCard>, PackRefusal>) -> Answer {
    let card = match answer {
        Ok(Some(card)) => card,
        Ok(None) => return no_card(0, 0, place),
        Err(why) => {
            let Judged { number, cards, bad } = refused(why);
            return no_card(number, bad, cards);
        }
    };
    let (kind, bytes) = match card {
        PackCard::Word(bytes) => (1, bytes),
        PackCard::Song(bytes) => (2, bytes),
        PackCard::Shuffle(bytes) => (3, bytes),
    };
    assert_eq!(card.as_bytes().as_ptr_range(), bytes.as_ptr_range());
    let [there, whole] = [bytes, pack].map(|bytes| bytes.as_ptr() as usize);
    Answer {
        number: 0,
        kind,
        start: there.wrapping_sub(whole),
        length: bytes.len(),
        bad: 0,
        next: place + 1,
    }
}

/// The pack for messages, but not all of a song.
fn shown(pack: &[u8]) -> String {
    format!("{} bytes, {:?}", pack.len(), &pack[..pack.len().min(600)])
}

/// Both answer the same at a place, and so does the safe function.
pub fn compare_next(pack: &[u8], place: usize) -> Answer {
    let answer = pack::next(pack, place);
    let raw = raw_next(pack, place);
    assert_eq!(raw, answer, "place {place} of {}", shown(pack));
    let safe = in_numbers(pack, place, slices::pack_next(pack, place));
    assert_eq!(safe, answer, "place {place} of {}", shown(pack));
    answer
}

/// Both answer the same of the whole pack, and so do the safe functions.
pub fn compare_judges(pack: &[u8]) -> Judged {
    let judged = pack::judge(pack);
    assert_eq!(raw_judge(pack), judged, "{}", shown(pack));
    for safe in [slices::pack_judge(pack), Pack::new(pack).judge()] {
        let safe = safe.map_or_else(refused, |cards| Judged {
            number: 0,
            cards,
            bad: 0,
        });
        assert_eq!(safe, judged, "{}", shown(pack));
    }
    judged
}

/// Both walk the pack from card to card, and the typed reader gives the same
/// ones. At the end the answer comes again and the place is kept, where the typed
/// reader has ended. To judge the pack answers what the walk did.
pub fn compare_walks(pack: &[u8]) -> Judged {
    let mut typed = Pack::new(pack).cards();
    let mut place = 0;
    let end = loop {
        let answer = compare_next(pack, place);
        let given = in_numbers(pack, place, typed.next().transpose());
        assert_eq!(given, answer, "place {place} of {}", shown(pack));
        if answer.kind == 0 {
            break answer;
        }
        place += 1;
        assert_eq!(answer.next, place, "{}", shown(pack));
        assert!(place <= MOST_CARDS, "{}", shown(pack));
    };
    assert_eq!(end.next, place, "{}", shown(pack));
    for _ in 0..2 {
        assert_eq!(compare_next(pack, end.next), end, "{}", shown(pack));
        assert_eq!(typed.next(), None, "{}", shown(pack));
    }
    let walked = Judged {
        number: end.number,
        cards: place,
        bad: end.bad,
    };
    assert_eq!(compare_judges(pack), walked, "{}", shown(pack));
    walked
}

/// What a pack is made of.
#[derive(Clone)]
pub struct Lesson {
    pub words: Vec<Vec<u8>>,
    pub song: Option<Vec<u8>>,
    pub shuffle: Vec<u8>,
}

/// The kind of a card, and where in its pack its bytes are.
pub type Placed = (u32, Range<usize>);

impl Lesson {
    /// Random-looking ones of these lengths. They make a well-formed pack if the
    /// lengths are allowed.
    pub fn new(random: &mut Random, words: &[usize], song: Option<usize>) -> Lesson {
        let mut shuffle: Vec<u8> = (0..words.len() as u8).collect();
        random.shuffle(&mut shuffle);
        Lesson {
            words: words.iter().map(|&len| random.bytes(len)).collect(),
            song: song.map(|len| random.bytes(len)),
            shuffle,
        }
    }

    /// Those of some short, well-formed pack.
    pub fn random(random: &mut Random) -> Lesson {
        let longest = random.pick(&[2, 5, 40]);
        let count = 1 + up_to(random, 11);
        let words: Vec<usize> = (0..count).map(|_| 1 + up_to(random, longest - 1)).collect();
        let len = 1 + up_to(random, 30);
        let song = random.pick(&[None, Some(len)]);
        Lesson::new(random, &words, song)
    }

    /// The pack, with its cards as they are to be given.
    pub fn laid_out(&self) -> (Vec<u8>, Vec<Placed>) {
        let byte = |len: usize| u8::try_from(len).expect("a count or length of a byte");
        let mut pack = vec![byte(self.words.len())];
        let mut cards = Vec::new();
        let mut put = |pack: &mut Vec<u8>, kind: u32, bytes: &[u8]| {
            let start = pack.len();
            pack.extend(bytes);
            cards.push((kind, start..pack.len()));
        };
        for word in &self.words {
            pack.push(byte(word.len()));
            put(&mut pack, 1, word);
        }
        pack.push(u8::from(self.song.is_some()));
        if let Some(song) = &self.song {
            let length = u16::try_from(song.len()).expect("a length of two bytes");
            pack.extend(length.to_le_bytes());
            put(&mut pack, 2, song);
        }
        pack.push(byte(self.shuffle.len()));
        put(&mut pack, 3, &self.shuffle);
        (pack, cards)
    }

    pub fn pack(&self) -> Vec<u8> {
        self.laid_out().0
    }

    /// The pack with one thing wrong, or perhaps still right: it is cut, or goes
    /// on; an entry of the shuffle, a count, a length or any byte is another.
    pub fn damaged(&self, random: &mut Random) -> Vec<u8> {
        let (mut pack, cards) = self.laid_out();
        let any = random.next_u64() as u8;
        let near = random.pick(&[0, 1, 12, 13, 40, 41, any]);
        match up_to(random, 4) {
            0 => pack.truncate(up_to(random, pack.len() - 1)),
            1 => pack.extend(random.bytes(1 + usize::from(any) % 20)),
            2 => {
                let entry = pack.len() - 1 - up_to(random, self.shuffle.len() - 1);
                pack[entry] = near;
            }
            3 => {
                let card = up_to(random, cards.len() - 1);
                let place = cards[card].1.start - 1;
                pack[random.pick(&[0, place, place, place - 1])] = near;
            }
            _ => {
                let place = up_to(random, pack.len() - 1);
                pack[place] = any;
            }
        }
        pack
    }
}
