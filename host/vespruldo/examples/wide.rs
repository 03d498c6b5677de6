//! A recording is enciphered as one wide block and deciphered again. What a
//! flipped bit does shows why the block is wide.

use vespruldo::{lioness_decipher, lioness_encipher, Drawer, Refusal, WideKey};

/// Half a second of a tone, 8,000 bytes to the second.
fn recording() -> Vec<u8> {
    (0..4000).map(|i| (i % 40) as u8).collect()
}

/// How many bytes differ, in per cent.
fn changed(a: &[u8], b: &[u8]) -> usize {
    let differ = a.iter().zip(b).filter(|(a, b)| a != b).count();
    100 * differ / a.len()
}

fn main() -> Result<(), Refusal> {
    let key = WideKey::from([1; 128]);
    let fresh = Drawer::start(2026, 0).draw_iv()?;

    let plain = recording();
    let mut block = plain.clone();
    // The fresh iv goes, and comes back as one that only deciphers; it is stored
    // with the block.
    let iv = lioness_encipher(&key, fresh, &mut block)?;
    assert!(changed(&block, &plain) > 95);
    println!("enciphered: {} % changed", changed(&block, &plain));

    let mut damaged = block.clone();
    lioness_decipher(&key, &iv, &mut block)?;
    assert!(block == plain, "deciphering gives the recording back");
    println!("deciphered: {} % changed", changed(&block, &plain));

    // No tag refuses it, but nothing of the recording is left.
    damaged[3999] ^= 1;
    lioness_decipher(&key, &iv, &mut damaged)?;
    assert!(changed(&damaged, &plain) > 95);
    println!("a flipped bit: {} % changed", changed(&damaged, &plain));
    Ok(())
}
