//! The refusals: those of document 01's table "What comes back", five of document
//! 02, and one of the tool `cards`.

use core::error::Error;
use core::fmt;

use crate::archive::vespruldo_interface_2;

/// The refusals, each by its name, its number and its words.
macro_rules! refusals {
    ($($name:ident = $number:literal, $words:literal;)+) => {
        /// Why a call was refused, by its number: 1 to 11 are the rows of document
        /// 01's table "What comes back", 12 to 15 are given for a lesson pack, 12
        /// and 15 also for a card that is not as long as it says, 18 for a batch,
        /// and 106 is that of the tool `cards`. Each function says what the
        /// buffers lent to it hold then.
        ///
        /// A later version may have more of them, so a `match` needs a line for
        /// the others.
        #[derive(Clone, Copy, PartialEq, Eq, Hash)]
        #[non_exhaustive]
        pub enum Refusal {
            $(
                #[doc = concat!("Number ", $number, ": ", $words, ".")]
                $name = $number,
            )+
        }

        impl Refusal {
            /// All of them, in the order of their numbers.
            pub const ALL: &'static [Refusal] = &[$(Refusal::$name),+];
        }

        impl fmt::Display for Refusal {
            fn fmt(&self, f: &mut fmt::Formatter<'_>) -> fmt::Result {
                f.write_str(match self {
                    $(Refusal::$name => $words,)+
                })
            }
        }

        /// Name, number and words: what a `main` that answers a refusal prints.
        impl fmt::Debug for Refusal {
            fn fmt(&self, f: &mut fmt::Formatter<'_>) -> fmt::Result {
                let name = match self {
                    $(Refusal::$name => stringify!($name),)+
                };
                write!(f, "{name} ({} {self})", self.number())
            }
        }
    };
}

refusals! {
    KeyLength = 1, "key has a wrong length";
    NonceLength = 2, "nonce or iv has a wrong length";
    DataLength = 3, "associated data too long";
    TextLength = 4, "text or block length not allowed";
    TagLength = 5, "tag, or room for it, not 16 bytes";
    RoomLength = 6, "room too short (digest: not 1 to 64)";
    WrongTag = 7, "opening: tag is not the recomputed one";
    StreamTooLong = 8, "key stream: start counter plus blocks needed exceeds 2^32";
    DrawerSpent = 9, "drawer spent";
    BookForm = 10, "either key book badly formed";
    ClassMissing = 11, "neither book has an entry for the class";
    CutShort = 12, "cut short";
    CountOrLength = 13, "count or length not allowed";
    BadShuffle = 14, "bad shuffle";
    LeftOver = 15, "bytes left over";
    BatchForm = 18, "no cards, more than 12, or lengths that don't add up to the text";
    DrawerDamaged = 106, "drawer file damaged";
}

impl Refusal {
    /// The number, as C programs and the tool `cards` have it.
    ///
    /// ```
    /// assert_eq!(vespruldo::Refusal::KeyLength.number(), 1);
    /// assert_eq!(vespruldo::Refusal::ClassMissing.number(), 11);
    /// ```
    #[must_use]
    pub fn number(self) -> u32 {
        self as u32
    }
}

impl Error for Refusal {}

/// ```
/// use vespruldo::Refusal;
///
/// let status = 7_i32; // what `ExitStatus::code` has of a run of the tool `cards`
/// assert_eq!(Refusal::try_from(status as u32), Ok(Refusal::WrongTag));
///
/// let why = Refusal::try_from(99).unwrap_err();
/// assert_eq!(why.to_string(), "99 is not a number of this library");
/// let why = Refusal::try_from(0).unwrap_err();
/// assert_eq!(why.to_string(), "0 is no refusal: it says that all was done");
/// ```
impl TryFrom<u32> for Refusal {
    type Error = NotARefusal;

    fn try_from(number: u32) -> Result<Refusal, NotARefusal> {
        let found = Refusal::ALL
            .iter()
            .find(|refusal| refusal.number() == number);
        found.copied().ok_or(NotARefusal(number))
    }
}

/// A number that is no [`Refusal`]: 0, which says that all was done; one of the
/// tool `cards`' own, 101 to 108, of which 106 alone is one here; or one of a
/// later version.
#[derive(Clone, Copy, Debug, PartialEq, Eq, Hash)]
pub struct NotARefusal(u32);

impl NotARefusal {
    /// The number.
    #[must_use]
    pub fn number(self) -> u32 {
        self.0
    }
}

impl fmt::Display for NotARefusal {
    fn fmt(&self, f: &mut fmt::Formatter<'_>) -> fmt::Result {
        match self.0 {
            0 => f.write_str("0 is no refusal: it says that all was done"),
            number => write!(f, "{number} is not a number of this library"),
        }
    }
}

impl Error for NotARefusal {}

/// The result that a number stands for: it comes from a function of the archive
/// that promises these refusals and no others.
///
/// # Panics
///
/// On a number that the function does not promise. To take it for success or
/// for some refusal would claim something about the buffers that nobody knows.
pub(crate) fn result_of(number: u32, promised: &[Refusal]) -> Result<(), Refusal> {
    if number == 0 {
        return Ok(());
    }
    match promised.iter().find(|refusal| refusal.number() == number) {
        Some(refusal) => Err(*refusal),
        None => {
            // SAFETY: it takes nothing. That it is called here also keeps archives
            // of other interfaces from linking, where ASKS_FOR is left out.
            let interface = unsafe { vespruldo_interface_2() };
            panic!(
                "the archive answered {number}, a number that interface {interface} \
                 does not promise"
            )
        }
    }
}

#[cfg(test)]
mod tests {
    use super::*;

    // tests/agreement holds names, numbers and words to the header's.

    #[test]
    fn numbers_promised_are_their_refusals() {
        assert_eq!(result_of(0, Refusal::ALL), Ok(()));
        for &refusal in Refusal::ALL {
            assert_eq!(result_of(refusal.number(), Refusal::ALL), Err(refusal));
            assert_eq!(result_of(refusal.number(), &[refusal]), Err(refusal));
        }
    }

    #[test]
    fn a_program_that_fails_tells_name_number_and_words() {
        let shown = format!("{:?}", Refusal::WrongTag);
        assert_eq!(shown, "WrongTag (7 opening: tag is not the recomputed one)");
    }

    /// Every number that could be one of a byte, and the ends of the others.
    #[test]
    fn numbers_are_taken_for_their_refusals_and_no_others() {
        let mut taken = Vec::new();
        for number in (0..=256).chain([1 << 31, u32::MAX]) {
            match Refusal::try_from(number) {
                Ok(refusal) => {
                    assert_eq!(refusal.number(), number);
                    taken.push(refusal);
                }
                Err(why) => assert_eq!(why.number(), number),
            }
        }
        assert_eq!(taken, Refusal::ALL);
        assert!(taken.is_sorted_by_key(|refusal| refusal.number()));
    }

    #[test]
    #[should_panic(expected = "the archive answered 2,")]
    fn a_number_not_promised_is_not_swallowed() {
        let _ = result_of(2, &[Refusal::KeyLength, Refusal::TextLength]);
    }
}
