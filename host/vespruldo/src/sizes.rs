//! The lengths in bytes that are allowed, by the names of the C header without
//! its prefix: `_BYTES` is the only one, `_MIN` and `_MAX` are the least and the
//! greatest, `_EXTRA` is what a card has besides its ciphertext. One of them is a
//! number of cards.

/// Key for sealing, opening and GIFT-128.
pub const KEY_BYTES: usize = 16;
/// Nonce for sealing and opening.
pub const NONCE_BYTES: usize = 12;
/// Tag for sealing and opening.
pub const TAG_BYTES: usize = 16;
/// What a card has besides its ciphertext: nonce, length and tag.
pub const CARD_EXTRA: usize = 30;
/// Text of a card.
pub const CARD_TEXT_MAX: usize = 65_535;
/// A drawer that is stored.
pub const DRAWER_BYTES: usize = 44;
/// Cards of a batch.
pub const BATCH_MAX: usize = 12;
/// A lesson pack that is not refused.
pub const PACK_MAX: usize = 16_893;
/// Associated data for sealing and opening.
pub const DATA_MAX: usize = 65_536;
/// Text for sealing, ChaCha20 and BLAKE2b; ciphertext for opening.
pub const TEXT_MAX: usize = 1_048_576;
/// Block of GIFT-128.
pub const GIFT_BLOCK_BYTES: usize = 16;
/// Key of ChaCha20.
pub const CHACHA20_KEY_BYTES: usize = 32;
/// Nonce of ChaCha20.
pub const CHACHA20_NONCE_BYTES: usize = 12;
/// Block of ChaCha20's key stream.
pub const CHACHA20_BLOCK_BYTES: usize = 64;
/// Key of BLAKE2b; an empty one is no key.
pub const BLAKE2B_KEY_MAX: usize = 64;
/// Shortest digest of BLAKE2b.
pub const BLAKE2B_DIGEST_MIN: usize = 1;
/// Longest digest of BLAKE2b.
pub const BLAKE2B_DIGEST_MAX: usize = 64;
/// Key of LIONESS.
pub const LIONESS_KEY_BYTES: usize = 128;
/// Iv of LIONESS.
pub const LIONESS_IV_BYTES: usize = 48;
/// Shortest block of LIONESS.
pub const LIONESS_BLOCK_MIN: usize = 33;
/// Longest block of LIONESS.
pub const LIONESS_BLOCK_MAX: usize = 1_048_608;
