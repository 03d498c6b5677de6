//! The drawer of nonces.

use crate::archive::{
    self, vespruldo_drawer_draw, vespruldo_drawer_iv, vespruldo_drawer_load,
    vespruldo_drawer_start, vespruldo_drawer_store, Drawn,
};
use crate::bytes::{Iv, Nonce, UsedNonce};
use crate::refusal::{result_of, Refusal};
use crate::sizes::DRAWER_BYTES;

/// A drawer of nonces: a reader number and a count, both given at its start.
/// Each draw hands out the two in 12 bytes, and the count grows by one. What is
/// drawn from one drawer never repeats.
///
/// A drawer cannot be copied or cloned, since a copy would hand out the same
/// numbers again:
///
/// ```compile_fail,E0599
/// let drawer = vespruldo::Drawer::start(42, 0);
/// let copy = drawer.clone();
/// ```
///
/// A nonce is drawn for each text that is sealed:
///
/// ```
/// use vespruldo::{open, seal, Data, Drawer, Key};
///
/// let key = Key::from([1; 16]);
/// let mut drawer = Drawer::start(42, 0);
/// for text in [b"Anna", b"Bert"] {
///     let sealed = seal(&key, drawer.draw()?, Data(b"class 7"), text)?;
///     assert_eq!(open(&key, Data(b"class 7"), &sealed)?, text);
/// }
/// assert_eq!(drawer.count(), 2);
/// # Ok::<(), vespruldo::Refusal>(())
/// ```
///
/// Nothing is claimed across starts. A drawer that is started again from an
/// older state repeats what was drawn since. So its bytes are stored after each
/// draw, where a restart finds them, before the number drawn is used:
///
/// ```
/// use vespruldo::Drawer;
///
/// let mut drawer = Drawer::start(42, 0);
/// let older = drawer.to_bytes();
/// let nonce = drawer.draw()?;
/// let newer = drawer.to_bytes();
///
/// assert_eq!(Drawer::from_bytes(&older)?.draw()?, nonce);
/// assert_ne!(Drawer::from_bytes(&newer)?.draw()?, nonce);
/// # Ok::<(), vespruldo::Refusal>(())
/// ```
#[derive(Debug, PartialEq, Eq)]
pub struct Drawer(archive::Drawer);

impl Drawer {
    /// The drawer with this reader number and this count. Readers that share a
    /// key need different reader numbers, and a reader that starts again must
    /// go on from the count it had reached.
    #[must_use]
    pub fn start(reader: u32, count: u64) -> Drawer {
        // SAFETY: see the crate's root.
        Drawer(unsafe { vespruldo_drawer_start(reader, count) })
    }

    /// Draws a nonce: reader number, then count, both little-endian. The count
    /// grows by one. A refused draw leaves the drawer as it was.
    ///
    /// ```
    /// let mut drawer = vespruldo::Drawer::start(0x0102_0304, 5);
    /// assert_eq!(drawer.draw()?.into_bytes(), [4, 3, 2, 1, 5, 0, 0, 0, 0, 0, 0, 0]);
    /// assert_eq!(drawer.draw()?.into_bytes(), [4, 3, 2, 1, 6, 0, 0, 0, 0, 0, 0, 0]);
    /// # Ok::<(), vespruldo::Refusal>(())
    /// ```
    ///
    /// The last count that is handed out is 2^64 - 2:
    ///
    /// ```
    /// use vespruldo::{Drawer, Refusal};
    ///
    /// let mut drawer = Drawer::start(42, u64::MAX - 1);
    /// assert!(drawer.draw().is_ok());
    /// assert_eq!(drawer.draw(), Err(Refusal::DrawerSpent));
    /// assert_eq!(drawer.draw_iv(), Err(Refusal::DrawerSpent));
    /// assert_eq!(drawer, Drawer::start(42, u64::MAX));
    /// ```
    ///
    /// # Errors
    ///
    /// [`Refusal::DrawerSpent`] if the count is 2^64 - 1.
    pub fn draw(&mut self) -> Result<Nonce, Refusal> {
        // SAFETY: see the crate's root.
        self.draw_by(|drawer| unsafe { vespruldo_drawer_draw(drawer) })
            .map(Nonce::never_used)
    }

    /// Draws an iv: one [`draw`](Drawer::draw) written four times.
    ///
    /// ```
    /// use vespruldo::Drawer;
    ///
    /// let mut drawer = Drawer::start(42, 258);
    /// let iv = drawer.draw_iv()?.into_bytes();
    /// assert_eq!(drawer.count(), 259);
    ///
    /// let nonce = Drawer::start(42, 258).draw()?.into_bytes();
    /// assert_eq!(iv[..], nonce.repeat(4));
    /// # Ok::<(), vespruldo::Refusal>(())
    /// ```
    ///
    /// # Errors
    ///
    /// As for [`Drawer::draw`].
    pub fn draw_iv(&mut self) -> Result<Iv, Refusal> {
        // SAFETY: see the crate's root.
        self.draw_by(|drawer| unsafe { vespruldo_drawer_iv(drawer) })
            .map(Iv::never_used)
    }

    /// The reader number.
    #[must_use]
    pub fn reader(&self) -> u32 {
        self.0.reader
    }

    /// The count of the next draw. Whoever stores the two numbers and not the
    /// [bytes](Drawer::to_bytes) stores it after each draw, before the number
    /// drawn is used: a restart that goes on from it never draws that number
    /// again.
    #[must_use]
    pub fn count(&self) -> u64 {
        self.0.count
    }

    /// The drawer in bytes, as the tool `cards` keeps it in a file: the reader
    /// number in 4 bytes and the count in 8, both little-endian, then the 32-byte
    /// BLAKE2b digest (no key) of these 12, by which damage is seen.
    ///
    /// Store these after each draw, before the number drawn is used: a restart
    /// that goes on from them never draws that number again. Never go on from
    /// older ones, as those of a backup are.
    ///
    /// Where writing can be cut off, a drawer needs two places, as in
    /// `examples/flash.c` of the repository: write to the two in turn, and read
    /// back what was written; after a restart go on from the one with the greater
    /// count, and write to the other first; if only one can be loaded, the other may
    /// have been ahead by all that is drawn in one go, for a batch twelve numbers:
    /// draw so many, store the drawer, and throw them away. Erase both before a new
    /// drawer is written. In a file system, write a new file in the same folder, sync
    /// it, rename it over the old one, and sync the folder.
    ///
    /// Programs that draw from one file must take turns, or both draw the same
    /// number. While the tool `cards` draws, there is a folder `FILE.next`:
    /// whoever shares its file makes that folder first, fails if it is there, and
    /// removes it last, as in `examples/reader.c`.
    #[must_use]
    pub fn to_bytes(&self) -> [u8; DRAWER_BYTES] {
        // SAFETY: see the crate's root.
        unsafe { vespruldo_drawer_store(self.0) }.bytes
    }

    /// The drawer that these bytes are, which [`to_bytes`](Drawer::to_bytes) or
    /// the tool `cards` made.
    ///
    /// ```
    /// use vespruldo::{Drawer, Refusal};
    ///
    /// let mut drawer = Drawer::start(42, 0);
    /// let nonce = drawer.draw()?;
    /// let mut stored = drawer.to_bytes(); // written to the reader's memory here
    /// // Now the nonce may be used.
    ///
    /// assert_eq!(Drawer::from_bytes(&stored)?, drawer);
    /// stored[4] ^= 1;
    /// assert_eq!(Drawer::from_bytes(&stored), Err(Refusal::DrawerDamaged));
    /// # Ok::<(), Refusal>(())
    /// ```
    ///
    /// # Errors
    ///
    /// [`Refusal::DrawerDamaged`] if the bytes are not exactly what
    /// [`to_bytes`](Drawer::to_bytes) answers for some drawer. If no other place
    /// has the drawer, its count is lost: start another, with a reader number that
    /// was never used under the key.
    pub fn from_bytes(bytes: &[u8]) -> Result<Drawer, Refusal> {
        // SAFETY: see the crate's root.
        let loaded = unsafe { vespruldo_drawer_load(bytes.as_ptr(), bytes.len()) };
        result_of(loaded.number, &[Refusal::DrawerDamaged])?;
        Ok(Drawer(loaded.drawer))
    }

    /// Draws by this function of the archive: answers its bytes.
    fn draw_by<const N: usize>(
        &mut self,
        draw: impl FnOnce(archive::Drawer) -> Drawn<N>,
    ) -> Result<[u8; N], Refusal> {
        self.hand_over(&[Refusal::DrawerSpent], |drawer| {
            let drawn = draw(drawer);
            (drawn.number, drawn.next, drawn.bytes)
        })
    }

    /// Hands the drawer to a function of the archive, which promises these
    /// refusals and answers a number, the drawer handed back, and more. Unless it
    /// refuses, that drawer is taken in the place of this one.
    pub(crate) fn hand_over<T>(
        &mut self,
        promised: &[Refusal],
        asked: impl FnOnce(archive::Drawer) -> (u32, archive::Drawer, T),
    ) -> Result<T, Refusal> {
        let (number, next, answer) = asked(self.0);
        result_of(number, promised)?;
        self.0 = next;
        Ok(answer)
    }
}

/// The nonces of the cards of a batch, in their order. They have been drawn and
/// used; each is needed to open its card.
#[derive(Clone, Debug)]
#[must_use = "no card is opened without its nonce"]
pub struct UsedNonces {
    next: archive::Drawer,
    end: u64,
}

impl UsedNonces {
    /// All that were drawn from the one drawer until it became the other.
    pub(crate) fn between(before: archive::Drawer, after: archive::Drawer) -> UsedNonces {
        UsedNonces {
            next: before,
            end: after.count,
        }
    }
}

impl Iterator for UsedNonces {
    type Item = UsedNonce;

    fn next(&mut self) -> Option<UsedNonce> {
        if self.next.count >= self.end {
            return None;
        }
        // The same draw once more, of which nothing fresh is handed out.
        let mut drawer = Drawer(self.next);
        let drawn = drawer.draw().ok()?;
        self.next = drawer.0;
        Some(UsedNonce::from(drawn))
    }

    fn size_hint(&self) -> (usize, Option<usize>) {
        let left = self.end.saturating_sub(self.next.count);
        let left = usize::try_from(left);
        (left.unwrap_or(usize::MAX), left.ok())
    }
}

impl ExactSizeIterator for UsedNonces {}

#[cfg(test)]
mod tests {
    use super::*;

    const BEFORE: archive::Drawer = archive::Drawer {
        reader: 1,
        count: 2,
    };
    const NEXT: archive::Drawer = archive::Drawer {
        reader: 5,
        count: 6,
    };

    /// What a made-up draw with this number answers, and leaves of a drawer.
    fn after(number: u32) -> (Result<[u8; 2], Refusal>, Drawer) {
        let mut drawer = Drawer(BEFORE);
        let drawn = drawer.draw_by(|handed| {
            assert_eq!(handed, BEFORE);
            Drawn {
                number,
                bytes: [3, 4],
                next: NEXT,
            }
        });
        (drawn, drawer)
    }

    #[test]
    fn drawer_handed_back_is_taken_unless_the_draw_is_refused() {
        assert_eq!(after(0), (Ok([3, 4]), Drawer(NEXT)));
        assert_eq!(after(9), (Err(Refusal::DrawerSpent), Drawer(BEFORE)));
    }

    #[test]
    fn used_nonces_are_the_draws_between_two_drawers() {
        let mut drawer = Drawer::start(5, u64::MAX - 3);
        let before = drawer.0;
        assert_eq!(UsedNonces::between(before, drawer.0).len(), 0);
        let drawn = [(); 3].map(|()| UsedNonce::from(drawer.draw().expect("a draw")));
        let used = UsedNonces::between(before, drawer.0);
        assert_eq!(used.len(), 3);
        assert_eq!(used.clone().skip(1).len(), 2);
        assert!(used.eq(drawn));
        // No batch hands back an older drawer.
        assert_eq!(UsedNonces::between(drawer.0, before).next(), None);
    }

    #[test]
    #[should_panic(expected = "the archive answered 8,")]
    fn a_number_not_promised_is_not_swallowed() {
        let _ = after(8);
    }
}
