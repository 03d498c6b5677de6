//! Sixteen words seen as a square of four rows.

/// The places of its four columns, then of its four diagonals, which wrap
/// round: a pair of rounds of ChaCha20 works on these in turn (RFC 7539,
/// section 2.3), and so does a round of BLAKE2b (RFC 7693, section 3.2).
pub const COLUMNS_THEN_DIAGONALS: [[usize; 4]; 8] = [
    [0, 4, 8, 12],
    [1, 5, 9, 13],
    [2, 6, 10, 14],
    [3, 7, 11, 15],
    [0, 5, 10, 15],
    [1, 6, 11, 12],
    [2, 7, 8, 13],
    [3, 4, 9, 14],
];
