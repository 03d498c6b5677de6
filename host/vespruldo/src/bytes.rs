//! Keys, nonces, ivs and tags: types of one length each.

use core::fmt;
use core::ptr;
use core::sync::atomic::{compiler_fence, Ordering};

use crate::refusal::Refusal;
use crate::sizes::{
    CHACHA20_KEY_BYTES, CHACHA20_NONCE_BYTES, KEY_BYTES, LIONESS_IV_BYTES, LIONESS_KEY_BYTES,
    NONCE_BYTES, TAG_BYTES,
};

// One type serves both.
const _: () = assert!(CHACHA20_NONCE_BYTES == NONCE_BYTES);

/// A type of `$len` bytes.
macro_rules! bytes {
    ($(#[$about:meta])* $name:ident, $len:expr) => {
        $(#[$about])*
        // `from_ref` of the secret ones relies on this layout.
        #[repr(transparent)]
        #[must_use]
        pub struct $name([u8; $len]);

        impl $name {
            /// The bytes.
            #[must_use]
            pub fn as_bytes(&self) -> &[u8; $len] {
                &self.0
            }
        }
    };
}

/// Takes arrays for the type, and slices; one of another length is refused with
/// `$refusal`.
macro_rules! taken_from_bytes {
    ($name:ident, $len:expr, $refusal:ident) => {
        impl From<[u8; $len]> for $name {
            fn from(bytes: [u8; $len]) -> $name {
                $name(bytes)
            }
        }

        impl TryFrom<&[u8]> for $name {
            type Error = Refusal;

            #[doc = concat!("Refuses with [`Refusal::", stringify!($refusal), "`].")]
            fn try_from(bytes: &[u8]) -> Result<$name, Refusal> {
                match bytes.try_into() {
                    Ok(bytes) => Ok($name(bytes)),
                    Err(_) => Err(Refusal::$refusal),
                }
            }
        }
    };
}

/// Bytes that nobody else may learn: never printed, and wiped when dropped.
macro_rules! secret {
    ($(#[$about:meta])* $name:ident, $len:expr) => {
        bytes! {
            $(#[$about])*
            ///
            /// Its `Debug` does not print the bytes, and there is no `==`, which
            /// would take a time that depends on them:
            ///
            /// ```compile_fail,E0369
            #[doc = concat!("fn same(keys: [vespruldo::", stringify!($name), "; 2]) -> bool {")]
            ///     keys[0] == keys[1]
            /// }
            /// ```
            ///
            /// It cannot be copied or cloned: lend it, and there is one place to
            /// wipe.
            ///
            /// When it is dropped, its bytes are overwritten with zeros. That
            /// reaches the place where it then lies. It does not reach an array
            /// or slice that it was made from, places that it was moved out of,
            /// or what the compiler and the archive left on the stack.
            $name, $len
        }

        taken_from_bytes! { $name, $len, KeyLength }

        impl $name {
            /// Takes bytes that lie elsewhere for a key, in place: they are
            /// neither copied nor wiped.
            #[must_use = "the bytes are only lent"]
            pub fn from_ref(bytes: &[u8; $len]) -> &$name {
                // SAFETY: the type holds these bytes alone and has their layout.
                // What is answered is lent for as long as they are, and what is
                // lent is not dropped.
                unsafe { &*ptr::from_ref(bytes).cast::<$name>() }
            }
        }

        impl fmt::Debug for $name {
            fn fmt(&self, f: &mut fmt::Formatter<'_>) -> fmt::Result {
                f.write_str(concat!(stringify!($name), "(..)"))
            }
        }

        impl Drop for $name {
            fn drop(&mut self) {
                wipe(&mut self.0);
            }
        }
    };
}

/// Bytes that may be read by anybody. `Display` prints them in hex, and `Debug`
/// with the type's name around them.
macro_rules! public {
    ($(#[$about:meta])* $name:ident, $len:expr) => {
        bytes! { $(#[$about])* $name, $len }

        impl $name {
            /// The bytes as an array.
            #[must_use]
            pub fn into_bytes(self) -> [u8; $len] {
                self.0
            }
        }

        impl AsRef<[u8]> for $name {
            fn as_ref(&self) -> &[u8] {
                &self.0
            }
        }

        /// The bytes in hex, in lower case.
        impl fmt::Display for $name {
            fn fmt(&self, f: &mut fmt::Formatter<'_>) -> fmt::Result {
                self.0.iter().try_for_each(|byte| write!(f, "{byte:02x}"))
            }
        }

        impl fmt::Debug for $name {
            fn fmt(&self, f: &mut fmt::Formatter<'_>) -> fmt::Result {
                write!(f, concat!(stringify!($name), "({})"), self)
            }
        }
    };
}

/// A number that is used once, and the type of the same bytes when they have
/// been used.
macro_rules! used_once {
    (
        $(#[$about:meta])* $name:ident;
        $(#[$about_used:meta])* $used:ident;
        $len:expr
    ) => {
        public! { $(#[$about])* #[derive(PartialEq, Eq, Hash)] $name, $len }

        impl $name {
            /// Takes any bytes for fresh ones: whoever calls this says that they
            /// were never used under that key, and never will be again. It is no
            /// `From`, since compilers propose `.into()` to whoever is in a hurry.
            pub fn never_used(bytes: [u8; $len]) -> $name {
                $name(bytes)
            }
        }

        public! {
            $(#[$about_used])*
            #[derive(Clone, Copy, PartialEq, Eq, Hash)]
            $used, $len
        }

        taken_from_bytes! { $used, $len, NonceLength }

        /// What is used stays so: there is no way back.
        impl From<$name> for $used {
            fn from(fresh: $name) -> $used {
                $used(fresh.0)
            }
        }
    };
}

/// Sets every byte to 0. Nobody reads them afterwards, so the compiler would
/// leave plain writes out; it keeps volatile ones, and the fence keeps those
/// before whatever is done with the memory next.
pub(crate) fn wipe(bytes: &mut [u8]) {
    for byte in bytes {
        // SAFETY: the byte is lent mutably.
        unsafe { ptr::write_volatile(byte, 0) };
    }
    compiler_fence(Ordering::SeqCst);
}

secret! {
    /// A key for sealing, opening and GIFT-128: 16 bytes.
    ///
    /// ```
    /// use vespruldo::{Key, Refusal};
    ///
    /// let key = Key::from([1; 16]);
    /// assert_eq!(format!("{key:?}"), "Key(..)");
    ///
    /// let read = vec![1; 15];
    /// assert_eq!(Key::try_from(&read[..]).err(), Some(Refusal::KeyLength));
    /// ```
    Key, KEY_BYTES
}

secret! {
    /// A key for ChaCha20: 32 bytes.
    StreamKey, CHACHA20_KEY_BYTES
}

secret! {
    /// A key for LIONESS: 128 bytes.
    WideKey, LIONESS_KEY_BYTES
}

used_once! {
    /// A fresh nonce for one sealing, or for one key stream of ChaCha20: 12 bytes,
    /// best drawn from a [`Drawer`](crate::Drawer).
    ///
    /// No two texts may be sealed under one key and nonce. So a nonce cannot be
    /// copied or cloned, and [`seal`](crate::seal) takes it for good:
    ///
    /// ```compile_fail,E0382
    /// # use vespruldo::{seal, Data, Drawer, Key};
    /// # let (mut drawer, key) = (Drawer::start(42, 0), Key::from([1; 16]));
    /// let nonce = drawer.draw()?;
    /// let anna = seal(&key, nonce, Data(b"class 7"), b"Anna, desk 4")?;
    /// let bert = seal(&key, nonce, Data(b"class 7"), b"Bert, desk 9")?;
    /// # Ok::<(), vespruldo::Refusal>(())
    /// ```
    ///
    /// So do [`seal_in_place`](crate::seal_in_place),
    /// [`card_seal`](crate::card_seal) and
    /// [`KeyStream::start`](crate::KeyStream::start). What comes back is a
    /// [`UsedNonce`], which seals nothing:
    ///
    /// ```compile_fail,E0308
    /// # use vespruldo::{seal, Data, Drawer, Key};
    /// # let (mut drawer, key) = (Drawer::start(42, 0), Key::from([1; 16]));
    /// let anna = seal(&key, drawer.draw()?, Data(b"class 7"), b"Anna, desk 4")?;
    /// let bert = seal(&key, anna.nonce, Data(b"class 7"), b"Bert, desk 9")?;
    /// # Ok::<(), vespruldo::Refusal>(())
    /// ```
    ///
    /// Nor do bytes become a nonce by themselves:
    ///
    /// ```compile_fail,E0277
    /// # use vespruldo::{seal, Data, Key};
    /// # let key = Key::from([1; 16]);
    /// let anna = seal(&key, [2; 12].into(), Data(b"class 7"), b"Anna, desk 4")?;
    /// # Ok::<(), vespruldo::Refusal>(())
    /// ```
    ///
    /// This stops a slip, not intent, which has a name of its own:
    ///
    /// ```
    /// use vespruldo::{Drawer, Nonce};
    ///
    /// let nonce = Nonce::never_used([42, 0, 0, 0, 2, 1, 0, 0, 0, 0, 0, 0]);
    /// assert_eq!(nonce, Drawer::start(42, 258).draw()?);
    /// assert_eq!(nonce.to_string(), "2a0000000201000000000000");
    /// # Ok::<(), vespruldo::Refusal>(())
    /// ```
    Nonce;
    /// The nonce that something was sealed with: 12 bytes, for opening only, and
    /// for [`KeyStream::again`](crate::KeyStream::again). It is public, and may be
    /// copied, compared and stored.
    ///
    /// ```
    /// use vespruldo::{Refusal, UsedNonce};
    ///
    /// let stored = [42, 0, 0, 0, 2, 1, 0, 0, 0, 0, 0, 0];
    /// assert_eq!(UsedNonce::try_from(&stored[..])?, UsedNonce::from(stored));
    /// assert_eq!(UsedNonce::try_from(&stored[1..]), Err(Refusal::NonceLength));
    /// # Ok::<(), Refusal>(())
    /// ```
    UsedNonce;
    NONCE_BYTES
}

used_once! {
    /// A fresh iv for one wide block of LIONESS: 48 bytes, best drawn from a
    /// [`Drawer`](crate::Drawer).
    ///
    /// No two blocks may be enciphered under one key and iv. So an iv cannot be
    /// copied or cloned, and [`lioness_encipher`](crate::lioness_encipher) takes
    /// it for good:
    ///
    /// ```compile_fail,E0382
    /// # use vespruldo::{lioness_encipher, Drawer, WideKey};
    /// # let (mut drawer, key) = (Drawer::start(42, 0), WideKey::from([1; 128]));
    /// # let (mut verse, mut chorus) = ([1; 40], [2; 40]);
    /// let iv = drawer.draw_iv()?;
    /// lioness_encipher(&key, iv, &mut verse)?;
    /// lioness_encipher(&key, iv, &mut chorus)?;
    /// # Ok::<(), vespruldo::Refusal>(())
    /// ```
    ///
    /// This stops a slip, not intent, which has a name of its own:
    /// [`Iv::never_used`].
    Iv;
    /// The iv that a block was enciphered with: 48 bytes, for deciphering only. It
    /// is public, and may be copied, compared and stored.
    UsedIv;
    LIONESS_IV_BYTES
}

public! {
    /// A tag for sealing and opening: 16 bytes.
    ///
    /// Tags are not compared by `==`. Whether one is right is for
    /// [`open`](crate::open) to decide, which leaves no text if it is not.
    ///
    /// ```compile_fail,E0369
    /// fn same(tags: [vespruldo::Tag; 2]) -> bool {
    ///     tags[0] == tags[1]
    /// }
    /// ```
    #[derive(Clone, Copy)]
    Tag, TAG_BYTES
}

taken_from_bytes! { Tag, TAG_BYTES, TagLength }

#[cfg(test)]
mod tests {
    use std::mem::{size_of, ManuallyDrop};

    use super::*;
    use crate::stream::KeyStream;

    /// What lies where a secret lay, before and after it is dropped.
    fn around_drop<T, const N: usize>(secret: T) -> [[u8; N]; 2] {
        assert_eq!(size_of::<T>(), N);
        let mut secret = ManuallyDrop::new(secret);
        let place = ptr::from_mut(&mut *secret);
        let read = || {
            // SAFETY: the place has `N` bytes and is this function's own to its
            // end. Dropping a secret leaves bytes there, which it wrote itself.
            unsafe { place.cast::<[u8; N]>().read_volatile() }
        };
        let before = read();
        // SAFETY: dropped here alone, and afterwards only its place is read.
        unsafe { ptr::drop_in_place(place) };
        [before, read()]
    }

    #[test]
    fn dropped_secrets_are_wiped() {
        assert_eq!(around_drop(Key::from([7; 16])), [[7; 16], [0; 16]]);
        assert_eq!(around_drop(StreamKey::from([7; 32])), [[7; 32], [0; 32]]);
        assert_eq!(around_drop(WideKey::from([7; 128])), [[7; 128], [0; 128]]);
    }

    #[test]
    fn wiping_keeps_to_the_part_lent() {
        let mut bytes = [7; 5];
        wipe(&mut bytes[1..4]);
        assert_eq!(bytes, [7, 0, 0, 0, 7]);
        wipe(&mut []);
    }

    #[test]
    fn bytes_taken_for_a_key_lie_where_they_lay() {
        let bytes = [7; 128];
        assert!(ptr::eq(WideKey::from_ref(&bytes).as_bytes(), &bytes));
        // What was lent is not wiped.
        assert_eq!(bytes, [7; 128]);
    }

    #[test]
    fn debug_shows_nothing_of_a_secret() {
        let secrets: [(&dyn fmt::Debug, &str); 3] = [
            (&Key::from([0xab; 16]), "Key(..)"),
            (&StreamKey::from([0xab; 32]), "StreamKey(..)"),
            (&WideKey::from([0xab; 128]), "WideKey(..)"),
        ];
        for (secret, shown) in secrets {
            assert_eq!(format!("{secret:?}"), shown);
            assert_eq!(format!("{secret:#?}"), shown);
            assert_eq!(format!("{secret:02x?}"), shown);
        }
    }

    /// Of `N` bytes 0x0b: `Display`, `Debug` and `AsRef`.
    fn shows_its_bytes<T, const N: usize>(name: &str, taken: fn([u8; N]) -> T)
    where
        T: AsRef<[u8]> + fmt::Display + fmt::Debug,
    {
        let public = taken([11; N]);
        let in_hex = "0b".repeat(N);
        assert_eq!(public.as_ref(), [11; N]);
        assert_eq!(public.to_string(), in_hex);
        assert_eq!(format!("{public:?}"), format!("{name}({in_hex})"));
    }

    #[test]
    fn what_is_public_is_shown_in_hex() {
        shows_its_bytes("Nonce", Nonce::never_used);
        shows_its_bytes::<_, 12>("UsedNonce", UsedNonce::from);
        shows_its_bytes("Iv", Iv::never_used);
        shows_its_bytes::<_, 48>("UsedIv", UsedIv::from);
        shows_its_bytes::<_, 16>("Tag", Tag::from);
        let tag = Tag::from(std::array::from_fn(|i| 17 * i as u8));
        assert_eq!(tag.to_string(), "00112233445566778899aabbccddeeff");
    }

    /// Compiles only if none of the types has the trait: `_` could not be
    /// settled for one that has it, since both lines would apply.
    macro_rules! none_has {
        ($lacked:path: $($name:ident)+) => {{
            trait Settled<By> {
                fn settle() {}
            }
            impl<T> Settled<()> for T {}
            impl<T: $lacked> Settled<u8> for T {}
            $(<$name as Settled<_>>::settle();)+
        }};
    }

    #[test]
    fn types_lack_what_would_make_a_slip_easy() {
        none_has!(Clone: Key StreamKey WideKey Nonce Iv KeyStream);
        none_has!(PartialEq: Key StreamKey WideKey Tag);
        none_has!(fmt::Display: Key StreamKey WideKey);
        none_has!(AsRef<[u8]>: Key StreamKey WideKey);
        none_has!(Default: Key StreamKey WideKey Nonce UsedNonce Iv UsedIv Tag);
        // No way back from a number that was used, and none from bytes unasked.
        none_has!(From<UsedNonce>: Nonce);
        none_has!(From<UsedIv>: Iv);
        none_has!(From<[u8; 12]>: Nonce);
        none_has!(From<[u8; 48]>: Iv);
        none_has!(TryFrom<&'static [u8]>: Nonce Iv);
    }

    /// Of slices of 0 to 200 bytes, those of `N` are taken as they are and all
    /// others refused.
    fn takes_one_length<T, const N: usize>(as_bytes: fn(&T) -> &[u8; N], refusal: Refusal)
    where
        T: for<'a> TryFrom<&'a [u8], Error = Refusal>,
    {
        let bytes: Vec<u8> = (1..=200).collect();
        for len in 0..=200 {
            match T::try_from(&bytes[..len]) {
                Ok(taken) => assert_eq!(as_bytes(&taken)[..], bytes[..len]),
                Err(refused) => assert_eq!((refused, len == N), (refusal, false), "{len}"),
            }
        }
    }

    #[test]
    fn slices_of_every_other_length_are_refused() {
        takes_one_length(Key::as_bytes, Refusal::KeyLength);
        takes_one_length(StreamKey::as_bytes, Refusal::KeyLength);
        takes_one_length(WideKey::as_bytes, Refusal::KeyLength);
        takes_one_length(UsedNonce::as_bytes, Refusal::NonceLength);
        takes_one_length(UsedIv::as_bytes, Refusal::NonceLength);
        takes_one_length(Tag::as_bytes, Refusal::TagLength);
    }

    #[test]
    fn arrays_come_back_as_they_went_in() {
        let bytes: [u8; 48] = std::array::from_fn(|i| i as u8);
        let fresh = || Iv::never_used(bytes);
        assert_eq!(fresh().into_bytes(), bytes);
        assert_eq!(fresh(), fresh());
        assert_ne!(fresh(), Iv::never_used([0; 48]));
        assert_eq!(UsedIv::from(fresh()).into_bytes(), bytes);
        let nonce = [7, 0, 0, 0, 2, 1, 0, 0, 0, 0, 0, 0];
        let fresh = Nonce::never_used(nonce);
        assert_eq!(UsedNonce::from(fresh).into_bytes(), nonce);
    }
}
