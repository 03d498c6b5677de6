//! Associated data, told apart from the text by its type.

/// Associated data: bytes that a tag covers and that are neither hidden nor part
/// of what is sealed. Opening must be given the same.
///
/// It is a type of its own, so that it cannot be exchanged with the text by a
/// slip, which would leave the text in the clear:
///
/// ```compile_fail,E0308
/// # use vespruldo::{seal, Data, Drawer, Key};
/// # let (mut drawer, key) = (Drawer::start(42, 0), Key::from([1; 16]));
/// let sealed = seal(&key, drawer.draw()?, b"Anna, desk 4", Data(b"class 7"))?;
/// # Ok::<(), vespruldo::Refusal>(())
/// ```
///
/// `Data(b"")` is no data, as is `Data::default()`.
#[derive(Clone, Copy, Debug, Default, PartialEq, Eq, Hash)]
pub struct Data<'a>(pub &'a [u8]);
