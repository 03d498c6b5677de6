//! A reader with little memory: it seals a text where it lies, in one buffer, and
//! stores its drawer before each nonce is used, so that a restart repeats none.

use vespruldo::sizes::DRAWER_BYTES;
use vespruldo::{open_in_place, seal_in_place, Data, Drawer, Key, Nonce, Refusal};

const LABEL: Data = Data(b"song 1");

/// What is left of a reader's memory when its power goes.
struct Flash {
    drawer: [u8; DRAWER_BYTES],
}

/// A nonce that no restart draws again: it is handed out after the drawer's next
/// state has been stored.
fn draw_stored(flash: &mut Flash) -> Result<Nonce, Refusal> {
    let mut drawer = Drawer::from_bytes(&flash.drawer)?;
    let nonce = drawer.draw()?;
    flash.drawer = drawer.to_bytes();
    Ok(nonce)
}

fn main() -> Result<(), Refusal> {
    let key = Key::from([1; 16]);
    let mut flash = Flash {
        drawer: Drawer::start(42, 0).to_bytes(),
    };

    let mut verse = *b"Three ducks went out one day";
    let (nonce, tag) = seal_in_place(&key, draw_stored(&mut flash)?, LABEL, &mut verse)?;
    println!("sealed under nonce {nonce}: tag {tag}");

    // After a restart the next nonce is another one. (Where the power may go while
    // a drawer is written, it needs two places: see `Drawer::to_bytes`.)
    let mut chorus = *b"Quack, quack, quack";
    let (next, next_tag) = seal_in_place(&key, draw_stored(&mut flash)?, LABEL, &mut chorus)?;
    assert_ne!(nonce, next);
    println!("sealed under nonce {next}: tag {next_tag}");

    open_in_place(&key, &nonce, LABEL, &mut verse, &tag)?;
    assert_eq!(verse, *b"Three ducks went out one day");
    println!("opened: {}", String::from_utf8_lossy(&verse));

    // With a wrong tag nothing is left, not even the ciphertext.
    let refusal = open_in_place(&key, &next, LABEL, &mut chorus, &tag).expect_err("refused");
    assert_eq!(refusal, Refusal::WrongTag);
    assert_eq!(chorus, [0; 19]);
    println!("another tag: {}, {refusal}", refusal.number());

    // A stored drawer with a flipped bit hands out nothing.
    flash.drawer[0] ^= 1;
    let refusal = draw_stored(&mut flash).expect_err("refused");
    assert_eq!(refusal, Refusal::DrawerDamaged);
    println!("a flipped bit: {}, {refusal}", refusal.number());
    Ok(())
}
