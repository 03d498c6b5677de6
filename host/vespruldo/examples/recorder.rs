//! A recorder enciphers sound in bursts, as it comes, and is switched off in
//! between. The key stream goes on where it stopped, so all bursts are one
//! recording, which is given back in one call or in other bursts.

use vespruldo::sizes::CHACHA20_BLOCK_BYTES;
use vespruldo::{Drawer, KeyStream, Refusal, StreamKey, UsedNonce};

/// What comes at once from the microphone: whole blocks.
type Burst = [[u8; CHACHA20_BLOCK_BYTES]; 8];

/// What a recorder still has after it was switched off.
struct Stored {
    nonce: UsedNonce,
    next_block: u64,
    recording: Vec<u8>,
}

impl Stored {
    /// Whether the recording may go on. If the power went while a burst was being
    /// stored, or if the last part was short, bytes and counter do not fit: then
    /// another recording is begun, under a fresh nonce, so that no counter is used
    /// twice.
    fn goes_on(&self) -> bool {
        self.recording.len() as u64 == self.next_block * CHACHA20_BLOCK_BYTES as u64
    }
}

/// Enciphers a burst, and stores it with where the stream stopped.
fn record(stream: &mut KeyStream, mut burst: Burst, stored: &mut Stored) -> Result<(), Refusal> {
    stream.add(&mut burst)?;
    stored.recording.extend(burst.as_flattened());
    stored.next_block = stream.next_block();
    Ok(())
}

/// Deciphers a recording in bursts of five blocks, however it was enciphered.
fn play(key: &StreamKey, nonce: &UsedNonce, recording: &[u8]) -> Result<Vec<u8>, Refusal> {
    let mut stream = KeyStream::again(key, nonce, 0);
    let mut burst = [[0; CHACHA20_BLOCK_BYTES]; 5];
    let mut sound = Vec::new();
    let mut parts = recording.chunks_exact(burst.as_flattened().len());
    for part in parts.by_ref() {
        burst.as_flattened_mut().copy_from_slice(part);
        stream.add(&mut burst)?;
        sound.extend(burst.as_flattened());
    }
    let mut last = parts.remainder().to_vec();
    stream.finish(&mut last)?;
    sound.extend(last);
    Ok(sound)
}

fn main() -> Result<(), Refusal> {
    let key = StreamKey::from([1; 32]);
    let sound: [Burst; 5] = std::array::from_fn(|i| [[i as u8; CHACHA20_BLOCK_BYTES]; 8]);
    let last = [5; 100];
    let plain = [sound.as_flattened().as_flattened(), &last].concat();

    // The fresh nonce goes, and comes back as a used one, which is stored first.
    let (mut stream, nonce) = KeyStream::start(&key, Drawer::start(2026, 0).draw()?);
    let mut stored = Stored {
        nonce,
        next_block: 0,
        recording: Vec::new(),
    };
    for burst in &sound[..3] {
        record(&mut stream, *burst, &mut stored)?;
    }
    println!("switched off before block {}", stored.next_block);
    drop(stream);

    assert!(stored.goes_on());
    let mut stream = KeyStream::again(&key, &stored.nonce, stored.next_block);
    for burst in &sound[3..] {
        record(&mut stream, *burst, &mut stored)?;
    }
    let mut part = last;
    stored.next_block = stream.finish(&mut part)?;
    stored.recording.extend(part);
    assert!(!stored.goes_on());
    assert_ne!(stored.recording, plain);
    println!("recorded: {} bytes", stored.recording.len());

    assert_eq!(play(&key, &stored.nonce, &stored.recording)?, plain);
    println!("given back in other bursts: the same");
    KeyStream::again(&key, &stored.nonce, 0).finish(&mut stored.recording)?;
    assert_eq!(stored.recording, plain);
    println!("given back in one call: the same");
    Ok(())
}
