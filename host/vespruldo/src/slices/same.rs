//! The comparison of bytes in constant time.

/// Whether `a` and `b` have the same length and the same bytes. The time that
/// this takes tells their lengths and at most the answer, and nobody how many
/// bytes of a forged digest are right. `==` on slices may stop at the first that
/// differs.
///
/// ```
/// use vespruldo::{blake2b, same};
///
/// // Whoever has the key can make the digest, and nobody else.
/// let (key, song) = ([1; 32], b"Three ducks went out one day");
/// let mut sent = [0; 32];
/// blake2b(&key, song, &mut sent)?;
///
/// let mut recomputed = [0; 32];
/// blake2b(&key, song, &mut recomputed)?;
/// assert!(same(&sent, &recomputed));
/// blake2b(&key, b"Three ducks went out one way", &mut recomputed)?;
/// assert!(!same(&sent, &recomputed));
/// # Ok::<(), vespruldo::Refusal>(())
/// ```
#[must_use]
pub fn same(a: &[u8], b: &[u8]) -> bool {
    call!(vespruldo_same: a, b;)
}
