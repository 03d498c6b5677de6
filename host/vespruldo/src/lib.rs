//! Sealing for talking card readers: safe Rust over the archive
//! `libvespruldo.a`, for x86-64.
//!
//! A card is sealed under the key of its class, with a nonce that a drawer hands
//! out once. It is stored, read back and opened:
//!
//! ```
//! use vespruldo::{open, seal, Data, Drawer, Key, Refusal, Sealed};
//!
//! let key = Key::from([1; 16]);
//! // The reader's number, and no count so far. Only when the reader is set up: done
//! // again, it would repeat nonces. From then on there is what was stored of it.
//! let mut drawer = Drawer::start(42, 0);
//! let nonce = drawer.draw()?;
//! // Here the new `drawer.to_bytes()` is stored, before the nonce is used.
//! let stored = seal(&key, nonce, Data(b"class 7"), b"Anna, desk 4")?.to_bytes()?;
//!
//! let mut card = Sealed::from_bytes(&stored)?;
//! assert_eq!(open(&key, Data(b"class 7"), &card)?, b"Anna, desk 4");
//!
//! // One bit was changed on the way: the card is refused and there is no text.
//! card.ciphertext[0] ^= 1;
//! assert_eq!(open(&key, Data(b"class 7"), &card), Err(Refusal::WrongTag));
//! # Ok::<(), Refusal>(())
//! ```
//!
//! A card that is stored has the nonce in 12 bytes, the length of the ciphertext
//! in 2, little-endian, the ciphertext, as long as the text, and the tag in 16:
//! 30 bytes more than its text, which has at most 65,535. The tool `cards` and
//! the archive's own functions for whole cards have the same layout. What is
//! longer is sealed too, up to 1,048,576 bytes, and stored in the caller's way.
//!
//! A lesson of up to twelve texts is sealed in one call, as if each were sealed in
//! turn with the next draw. Its drawer is stored once, before any card is handed
//! on, and a refused batch has drawn nothing:
//!
//! ```
//! use vespruldo::{open, seal_batch, Data, Drawer, Key};
//!
//! let key = Key::from([1; 16]);
//! let mut drawer = Drawer::start(42, 0);
//! let cards = seal_batch(&key, &mut drawer, Data(b"class 7"), &["cat", "ox", "duck"])?;
//! // Here the new `drawer.to_bytes()` is stored.
//! assert_eq!(drawer.count(), 3);
//! assert_eq!(open(&key, Data(b"class 7"), &cards[1])?, b"ox");
//! # Ok::<(), vespruldo::Refusal>(())
//! ```
//!
//! The key can stay in its key book:
//!
//! ```
//! use vespruldo::{find_key, seal, Data, Drawer};
//!
//! // One entry: class 7 and its key. There is no book of last term.
//! let this_term = [&[1, 0, 7, 0][..], &[1; 16]].concat();
//!
//! let key = find_key(&this_term, None, 7)?;
//! let card = seal(key, Drawer::start(42, 0).draw()?, Data(b"class 7"), b"Anna, desk 4")?;
//! # Ok::<(), vespruldo::Refusal>(())
//! ```
//!
//! A lesson pack is judged, and then read card by card:
//!
//! ```
//! use vespruldo::{Pack, PackCard};
//!
//! let pack = Pack::new(b"\x02\x03cat\x02ox\x00\x02\x01\x00");
//! pack.judge()?;
//! for card in pack.cards() {
//!     match card? {
//!         PackCard::Word(word) => println!("{}", String::from_utf8_lossy(word)),
//!         PackCard::Song(song) => println!("a song of {} bytes", song.len()),
//!         PackCard::Shuffle(places) => println!("in the order {places:?}"),
//!     }
//! }
//! # Ok::<(), vespruldo::PackRefusal>(())
//! ```
//!
//! What is refused comes back as a [`Refusal`], with its number and its words, or,
//! of a lesson pack, as a [`PackRefusal`], which also says where. The types rule
//! out the rest:
//!
//! - A key, nonce, iv or tag has the right length from the moment it is made. (Of
//!   BLAKE2b key and digest are slices, and may have a wrong one.)
//! - The text, which is hidden, cannot stand where [`Data`] must, which is not.
//! - A fresh number and a used one are different types. A [`Nonce`] and an [`Iv`]
//!   cannot be copied, and [`seal`], [`seal_short`], [`seal_in_place`],
//!   [`card_seal`], [`KeyStream::start`] and [`lioness_encipher`] take theirs for
//!   good: none is used twice by a slip. What comes back, or is read from a card,
//!   is a [`UsedNonce`] or a [`UsedIv`], which seals and enciphers nothing; only
//!   [`KeyStream::again`] goes on with a key stream under one, and must be told
//!   where.
//! - A [`Drawer`] cannot be copied: a copy would hand out the same numbers.
//!   [`seal_batch`] and [`seal_batch_into`] are lent it, draw by themselves, and
//!   leave it moved on; the nonces come back as used ones.
//! - A [`KeyStream`] cannot be copied either, and carries its own counter: it goes
//!   on where it stopped, with bursts of whole blocks.
//! - A [`Key`], [`StreamKey`] or [`WideKey`] has no `==`, is shown without its
//!   bytes, and is wiped when dropped.
//! - If [`open`] refuses, there is no text to read.
//!
//! All this stops slips, not intent: [`Nonce::never_used`] and [`Iv::never_used`]
//! take any bytes for fresh ones, a drawer that is started again from an older
//! count hands out the same numbers again, a key stream that goes on from an older
//! counter is the same stream again, and [`slices`] takes whatever bytes it is
//! lent.
//!
//! The lengths that are allowed have names in [`sizes`]. The functions in
//! [`slices`] take slices of any length and write to room that is lent; those at
//! the root allocate what [`seal`] and [`open`] and their short forms answer, what
//! [`seal_batch`] needs and answers, and a card's bytes, and nothing else.
//!
//! The crate does without `std`. What allocates is in the feature `alloc`, which
//! is on by default: with `default-features = false` there is no heap, and no
//! [`Sealed`], [`seal`], [`open`], short form or [`seal_batch`]. [`card_seal`] and
//! [`card_open`], [`seal_in_place`] and [`open_in_place`], and [`seal_batch_into`]
//! do the same work in memory that is lent. The archive uses SSE2's registers, as
//! all x86-64 code may: where there is no operating system, the program must have
//! turned them on.

#![cfg_attr(not(test), no_std)]
// What is not there without a heap is named on these pages all the same.
#![cfg_attr(not(feature = "alloc"), allow(rustdoc::broken_intra_doc_links))]

#[cfg(feature = "alloc")]
extern crate alloc;

// Why the calls into the archive are safe. Each of its functions reads and
// writes only the buffers it is handed, each within its length, and wants those
// it writes to lie apart from all others. Every call hands over each slice's
// own pointer and length, the slices are lent for the whole call, and each
// written one (two in sealing: room or buffer, and tag or tags) is lent mutably,
// so no other overlaps it. A batch's lengths are a slice of numbers, and their
// count goes with it. Key books, packs and what is compared are only read and may
// overlap. Drawers, and answers that are more than a number, go by value in the
// layout that C gives them; they hold only numbers and bytes, for which every
// value is allowed. The one `bool` comes back as C has it, in a byte that is 0
// or 1. No archive of another interface links: see ASKS_FOR.

#[doc(hidden)]
pub mod archive;
#[cfg(feature = "alloc")]
mod batch;
mod blocks;
mod books;
mod bytes;
#[cfg(feature = "alloc")]
mod cards;
mod data;
mod drawer;
mod in_place;
mod lent;
mod packs;
mod refusal;
pub mod sizes;
pub mod slices;
mod stream;

#[cfg(feature = "alloc")]
pub use batch::seal_batch;
pub use blocks::{gift_decipher, gift_encipher, lioness_decipher, lioness_encipher};
pub use books::find_key;
pub use bytes::{Iv, Key, Nonce, StreamKey, Tag, UsedIv, UsedNonce, WideKey};
#[cfg(feature = "alloc")]
pub use cards::{open, open_short, seal, seal_short, Sealed};
pub use data::Data;
pub use drawer::{Drawer, UsedNonces};
pub use in_place::{open_in_place, seal_in_place};
pub use lent::{card_open, card_seal, seal_batch_into};
pub use packs::{Pack, PackCard, PackCards, PackRefusal};
pub use refusal::{NotARefusal, Refusal};
#[doc(inline)]
pub use slices::{blake2b, same};
pub use stream::KeyStream;

/// The build script looks at the archive in one place; a linker may be told of
/// others. So each program refers to the function whose name has the interface's
/// number, as the C header has it. (Compilers before Rust 1.89 may leave this
/// out; then `result_of` refers to it.)
#[used]
static ASKS_FOR: unsafe extern "C" fn() -> u32 = archive::vespruldo_interface_2;

/// The Rust of README.md, run with the examples here.
#[cfg(doctest)]
#[doc = include_str!("../../../README.md")]
struct Readme;
