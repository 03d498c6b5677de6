//! A second implementation of what document 01 asks for, of document 02's lesson
//! packs (K1), key stream that tells where it stopped (K2) and batches of cards
//! (K3), and of what is proved of the tool `cards`, written from the documents,
//! the tool's man page (docs/cards.1) and the RFCs alone.
//!
//! It exists to be compared with the archive `libvespruldo.a` and with the tool,
//! so it links neither and takes the plainest road everywhere: every step is a
//! sentence of what it was written from, and a block of GIFT-128 is a string of
//! bits. Speed is no aim.

#![forbid(unsafe_code)]

pub mod batch;
pub mod bits;
pub mod blake;
pub mod books;
pub mod card;
pub mod cases;
pub mod chacha;
pub mod decimal;
pub mod drawer;
pub mod drawer_file;
pub mod edges;
pub mod gift;
pub mod golden;
pub mod hex;
pub mod hyena;
pub mod lines;
pub mod lioness;
pub mod pack;
pub mod random;
mod square;
pub mod tool_cases;

/// The most bytes in a text of HyENA, ChaCha20 or BLAKE2b (document 01, Sizes).
pub const LONGEST_TEXT: usize = 1_048_576;
