//! Nothing of a batch's texts is left in memory that is given back: this program's
//! heap looks at all that is freed.

use std::alloc::{GlobalAlloc, Layout, System};
use std::hint::black_box;
use std::slice;
use std::sync::atomic::{AtomicUsize, Ordering};

use vespruldo::{seal_batch, Data, Drawer, Key, Refusal};

/// The texts hold the bytes of this number, which nothing else does.
const MARK: u64 = 0x5ec2_e7b1_93d4_0af6;

/// How often the mark stood in memory that was freed.
static FOUND: AtomicUsize = AtomicUsize::new(0);

struct Looking;

// SAFETY: it is the system's own heap. All that it hands out holds zeros, so that
// every byte may be looked at before it is freed.
unsafe impl GlobalAlloc for Looking {
    unsafe fn alloc(&self, layout: Layout) -> *mut u8 {
        System.alloc_zeroed(layout)
    }

    unsafe fn dealloc(&self, place: *mut u8, layout: Layout) {
        let freed = slice::from_raw_parts(place, layout.size());
        let mark = MARK.to_le_bytes();
        let found = freed.windows(mark.len()).filter(|part| *part == mark);
        FOUND.fetch_add(found.count(), Ordering::Relaxed);
        System.dealloc(place, layout);
    }
}

#[global_allocator]
static HEAP: Looking = Looking;

/// How many marks are freed by this.
fn freed(work: impl FnOnce()) -> usize {
    let before = FOUND.load(Ordering::Relaxed);
    work();
    FOUND.load(Ordering::Relaxed) - before
}

/// One test, since others would free memory at the same time.
#[test]
fn nothing_of_a_batchs_texts_is_freed() {
    let marks = MARK.to_le_bytes().repeat(40);
    // The mark is seen where it is freed.
    assert_eq!(freed(|| drop(black_box(marks.clone()))), 40);

    let key = Key::from([1; 16]);
    let long = vec![7; 65_537];
    let sealed = |data: &[u8], count, texts: &[&[u8]]| {
        let mut outcome = None;
        let work = || {
            let mut drawer = Drawer::start(5, count);
            outcome =
                Some(seal_batch(&key, &mut drawer, Data(data), texts).map(|cards| cards.len()));
        };
        assert_eq!(freed(work), 0);
        outcome.expect("an outcome")
    };
    let lesson = [&marks[..], b"ox", &marks[..8]];
    assert_eq!(sealed(b"", 0, &lesson), Ok(3));
    assert_eq!(sealed(b"", 0, &[&marks[..]; 12]), Ok(12));
    // Refused after the texts were copied.
    assert_eq!(sealed(&long, 0, &lesson), Err(Refusal::DataLength));
    assert_eq!(
        sealed(b"", u64::MAX - 2, &lesson),
        Err(Refusal::DrawerSpent)
    );
    assert_eq!(sealed(b"", 0, &[&marks[..]; 13]), Err(Refusal::BatchForm));
}
