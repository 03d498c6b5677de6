//! A sealed text with all that it was sealed from, and what is opened of it.

/// What is opened: key, nonce, associated data, ciphertext and tag.
pub type Parts<'a> = [&'a [u8]; 5];

/// A sealed text.
pub struct Card {
    pub key: Vec<u8>,
    pub nonce: Vec<u8>,
    pub data: Vec<u8>,
    pub text: Vec<u8>,
    pub ciphertext: Vec<u8>,
    pub tag: Vec<u8>,
}

impl Card {
    pub fn parts(&self) -> Parts<'_> {
        [
            &self.key,
            &self.nonce,
            &self.data,
            &self.ciphertext,
            &self.tag,
        ]
    }

    /// The parts with these bytes in place of part `n`.
    pub fn with<'a>(&'a self, n: usize, bytes: &'a [u8]) -> Parts<'a> {
        let mut parts = self.parts();
        parts[n] = bytes;
        parts
    }
}
