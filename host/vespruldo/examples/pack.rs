//! A reader plays lesson packs: it judges a pack before it plays any of it, then
//! walks it card by card and plays the words in the shuffle's order. Damaged packs
//! are refused, and nothing of them is played.

use vespruldo::{Pack, PackCard, PackRefusal, Refusal};

/// Three words, a song, and the shuffle.
const ANIMALS: &[u8] = b"\x03\x03cat\x04duck\x02ox\x01\x0c\0quack, quack\x03\x02\x00\x01";

/// The most words that a pack has.
const WORDS_MAX: usize = 12;

/// Here a reader would speak.
fn play(what: &str, sound: &[u8]) {
    println!("  {what}: {}", String::from_utf8_lossy(sound));
}

/// Plays a whole pack, or refuses it before anything is heard.
fn play_pack(pack: Pack) -> Result<(), PackRefusal> {
    let count = pack.judge()?;
    println!("a pack of {count} cards");

    // The shuffle comes last, so the words are kept until then: where they lie in
    // the pack, not their bytes.
    let mut words: [&[u8]; WORDS_MAX] = [&[]; WORDS_MAX];
    for (place, card) in pack.cards().enumerate() {
        match card? {
            PackCard::Word(word) => words[place] = word,
            PackCard::Song(song) => play("song", song),
            PackCard::Shuffle(order) => {
                for &place in order {
                    play("word", words[usize::from(place)]);
                }
            }
        }
    }
    Ok(())
}

/// Damages the pack at this byte, and answers why it is refused.
fn refused_with(place: usize, byte: u8) -> PackRefusal {
    let mut damaged = ANIMALS.to_vec();
    damaged[place] = byte;
    play_pack(Pack::new(&damaged)).expect_err("a damaged pack is refused")
}

fn tell(refused: PackRefusal) {
    println!("refused with {}: {refused}", refused.refusal.number());
}

fn main() -> Result<(), PackRefusal> {
    play_pack(Pack::new(ANIMALS))?;

    let cut = Pack::new(&ANIMALS[..20]).judge().expect_err("cut");
    assert_eq!(cut.refusal, Refusal::CutShort);
    tell(cut);

    // The second word would have no bytes.
    let empty_word = refused_with(5, 0);
    assert_eq!(empty_word.refusal, Refusal::CountOrLength);
    tell(empty_word);

    // The shuffle's last entry names the first word again.
    let last = ANIMALS.len() - 1;
    let twice = refused_with(last, 0);
    assert_eq!(twice.refusal, Refusal::BadShuffle);
    assert_eq!(twice.bad_entry, Some(2));
    tell(twice);
    Ok(())
}
