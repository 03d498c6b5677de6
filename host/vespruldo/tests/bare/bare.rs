//! A program without `std`, which tools/host-tests builds and runs: it brings its
//! own panic handler, and so links only if the crate does without `std` too. It
//! brings a heap only with the feature `alloc`, and so links without that feature
//! only if the crate needs none.
//!
//! Its exit status is 0, or the number of the refusal that should not have come.

#![no_std]
#![no_main]

use core::panic::PanicInfo;

use vespruldo::{
    blake2b, card_open, card_seal, find_key, gift_decipher, gift_encipher, lioness_decipher,
    lioness_encipher, open_in_place, same, seal_batch_into, seal_in_place, Data, Drawer, Key,
    KeyStream, Pack, PackCard, Refusal, StreamKey, Tag, WideKey,
};

#[link(name = "c")]
extern "C" {
    fn abort() -> !;
}

#[panic_handler]
fn panicked(_: &PanicInfo) -> ! {
    // SAFETY: it takes nothing.
    unsafe { abort() }
}

/// Rust's own library was compiled so that it could unwind, and names this; here
/// nothing unwinds.
#[no_mangle]
extern "C" fn rust_eh_personality() {}

const SONG: [u8; 40] = *b"Three ducks went out one day, over hill.";
const LABEL: Data = Data(b"song 1");

/// A card, sealed in place and as a whole, under a key of a book.
fn cards(drawer: &mut Drawer) -> Result<(), Refusal> {
    let mut book = [3; 20];
    book[..4].copy_from_slice(&[1, 0, 7, 0]);
    let key = find_key(&book, None, 7)?;

    let mut buffer = SONG;
    let (nonce, tag) = seal_in_place(key, drawer.draw()?, LABEL, &mut buffer)?;
    assert_ne!(buffer, SONG);
    open_in_place(key, &nonce, LABEL, &mut buffer, &tag)?;
    assert_eq!(buffer, SONG);

    let (mut card, mut text) = ([0; 70], [0; 40]);
    assert_eq!(card_seal(key, drawer.draw()?, LABEL, &SONG, &mut card)?, 70);
    assert_eq!(card_open(key, LABEL, &card, &mut text)?, 40);
    assert_eq!(text, SONG);
    card[20] ^= 1;
    let refused = card_open(key, LABEL, &card, &mut text);
    assert_eq!(refused, Err(Refusal::WrongTag));

    let mut block = [1; 16];
    gift_encipher(key, &mut block);
    gift_decipher(key, &mut block);
    assert_eq!(block, [1; 16]);
    Ok(())
}

/// A batch of two texts, of which each is opened by itself.
fn batches(drawer: &mut Drawer) -> Result<(), Refusal> {
    let key = Key::from([1; 16]);
    let (mut room, mut tags) = ([0; 40], [[0; 16]; 2]);
    let lengths = [30, 10];
    let count = drawer.count();
    let nonces = seal_batch_into(&key, drawer, LABEL, &SONG, &lengths, &mut room, &mut tags)?;
    assert_eq!(drawer.count(), count + 2);
    let (first, second) = room.split_at_mut(30);
    for ((nonce, tag), part) in nonces.zip(tags).zip([first, second]) {
        open_in_place(&key, &nonce, LABEL, part, &Tag::from(tag))?;
    }
    assert_eq!(room, SONG);

    let refused = seal_batch_into(&key, drawer, LABEL, &SONG, &[40], &mut room, &mut tags);
    assert_eq!(refused.err(), Some(Refusal::TagLength));
    assert_eq!(drawer.count(), count + 2);
    Ok(())
}

/// A wide block, a key stream over a burst and a last part, and digests that are
/// compared.
fn others(drawer: &mut Drawer) -> Result<(), Refusal> {
    let mut block = SONG;
    let key = WideKey::from([1; 128]);
    let iv = lioness_encipher(&key, drawer.draw_iv()?, &mut block)?;
    assert_ne!(block, SONG);
    lioness_decipher(&key, &iv, &mut block)?;
    assert_eq!(block, SONG);

    let key = StreamKey::from([1; 32]);
    let (mut stream, nonce) = KeyStream::start(&key, drawer.draw()?);
    stream.add(&mut [[1; 64]; 2])?;
    assert_eq!(stream.next_block(), 2);
    assert_eq!(stream.finish(&mut block)?, 3);
    assert_ne!(block, SONG);
    KeyStream::again(&key, &nonce, 2).finish(&mut block)?;
    assert_eq!(block, SONG);

    let [mut first, mut second] = [[0; 32]; 2];
    blake2b(&[1; 32], &SONG, &mut first)?;
    blake2b(&[1; 32], &block, &mut second)?;
    assert!(same(&first, &second));
    Ok(())
}

/// A lesson pack, judged and then walked.
fn packs() -> Result<(), Refusal> {
    let pack = Pack::new(b"\x01\x03cat\0\x01\0");
    assert_eq!(pack.judge()?, 2);
    let cards = [PackCard::Word(b"cat"), PackCard::Shuffle(&[0])];
    assert!(pack.cards().eq(cards.map(Ok)));
    let cut = Pack::new(&pack.as_bytes()[..7]);
    assert_eq!(cut.judge().map_err(Refusal::from), Err(Refusal::CutShort));
    Ok(())
}

#[cfg(not(feature = "alloc"))]
fn with_a_heap(_: &mut Drawer) -> Result<(), Refusal> {
    Ok(())
}

#[cfg(feature = "alloc")]
use heap::with_a_heap;

#[cfg(feature = "alloc")]
mod heap {
    use core::alloc::{GlobalAlloc, Layout};
    use core::ffi::c_void;

    use vespruldo::{open, seal, seal_batch, Data, Drawer, Key, Refusal, Sealed};

    use super::{LABEL, SONG};

    #[link(name = "c")]
    extern "C" {
        fn malloc(len: usize) -> *mut c_void;
        fn free(place: *mut c_void);
    }

    /// The C library's heap, which aligns to 16 bytes, more than is asked for.
    struct Heap;

    // SAFETY: what `malloc` answers is as long as is asked for, or null, and is
    // freed once.
    unsafe impl GlobalAlloc for Heap {
        unsafe fn alloc(&self, layout: Layout) -> *mut u8 {
            malloc(layout.size()).cast()
        }

        unsafe fn dealloc(&self, place: *mut u8, _: Layout) {
            free(place.cast());
        }
    }

    #[global_allocator]
    static HEAP: Heap = Heap;

    pub fn with_a_heap(drawer: &mut Drawer) -> Result<(), Refusal> {
        let key = Key::from([1; 16]);
        let stored = seal(&key, drawer.draw()?, LABEL, &SONG)?.to_bytes()?;
        let card = Sealed::from_bytes(&stored)?;
        assert_eq!(open(&key, LABEL, &card)?, SONG);
        assert_eq!(open(&key, Data(b""), &card), Err(Refusal::WrongTag));

        let cards = seal_batch(&key, drawer, LABEL, &["cat", "ox"])?;
        assert_eq!(open(&key, LABEL, &cards[1])?, b"ox");
        let refused = seal_batch(&key, drawer, LABEL, &["cat"; 13]);
        assert_eq!(refused.err(), Some(Refusal::BatchForm));
        Ok(())
    }
}

fn all() -> Result<(), Refusal> {
    let stored = Drawer::start(42, 0).to_bytes();
    let mut drawer = Drawer::from_bytes(&stored)?;
    cards(&mut drawer)?;
    batches(&mut drawer)?;
    others(&mut drawer)?;
    packs()?;
    with_a_heap(&mut drawer)
}

#[no_mangle]
extern "C" fn main() -> i32 {
    all().map_or_else(|refusal| refusal.number() as i32, |()| 0)
}
