//! The archive's functions over slices of any length.
//!
//! They refuse all that the archive refuses, including what the types of the
//! crate's root rule out, and allocate nothing: they write to room that is lent.
//! Nothing here keeps a nonce or an iv from being used twice, but where a drawer
//! is lent, which moves on.

/// Calls a function of the archive with the slices that it reads, the number or
/// drawer that some take, the slices that it writes, and one that it reads after
/// those.
macro_rules! call {
    ($function:ident: $($read:ident),*; $($written:ident),*) => {
        call!($function: $($read),*; ; $($written),*;)
    };
    ($function:ident: $($read:ident),*; $($number:ident)?; $($written:ident),*) => {
        call!($function: $($read),*; $($number)?; $($written),*;)
    };
    (
        $function:ident: $($read:ident),*; $($number:ident)?; $($written:ident),*;
        $($last:ident)?
    ) => {
        // SAFETY: see the crate's root.
        unsafe {
            crate::archive::$function(
                $($read.as_ptr(), $read.len(),)*
                $($number,)?
                $($written.as_mut_ptr(), $written.len(),)*
                $($last.as_ptr(), $last.len(),)?
            )
        }
    };
}

mod batch;
mod blake;
mod books;
mod card;
mod chacha;
mod gift;
mod hyena;
mod in_place;
mod lioness;
mod pack;
mod same;

pub use batch::seal_batch;
pub use blake::blake2b;
pub use books::find_key;
pub(crate) use books::find_part;
pub use card::{card_open, card_seal};
pub use chacha::chacha20;
pub use gift::{gift_decipher, gift_encipher};
pub use hyena::{open, open_short, seal, seal_short};
pub use in_place::{open_in_place, seal_in_place};
pub use lioness::{lioness_decipher, lioness_encipher};
pub use pack::{pack_judge, pack_next};
pub use same::same;
