//! A batch of any length needs the memory of one pair.

use std::alloc::{GlobalAlloc, Layout, System};
use std::io::{self, Read};
use std::sync::atomic::{AtomicUsize, Ordering::Relaxed};

use separate::batch::answer;

static NOW: AtomicUsize = AtomicUsize::new(0);
static MOST: AtomicUsize = AtomicUsize::new(0);

/// Counts the bytes that are in use, and the most that ever were.
struct Counting;

// SAFETY: each call goes to the system's allocator as it is.
unsafe impl GlobalAlloc for Counting {
    unsafe fn alloc(&self, layout: Layout) -> *mut u8 {
        let now = NOW.fetch_add(layout.size(), Relaxed) + layout.size();
        MOST.fetch_max(now, Relaxed);
        System.alloc(layout)
    }

    unsafe fn dealloc(&self, memory: *mut u8, layout: Layout) {
        NOW.fetch_sub(layout.size(), Relaxed);
        System.dealloc(memory, layout);
    }
}

#[global_allocator]
static ALLOCATOR: Counting = Counting;

const LENGTH: usize = 16_384;
const PAIRS: usize = 4_000;

/// Pairs of two programs of the greatest length, made as they are read.
struct Long(usize);

impl Read for Long {
    fn read(&mut self, bytes: &mut [u8]) -> io::Result<usize> {
        let pair = 4 + 2 * LENGTH;
        let count = bytes.len().min(PAIRS * pair - self.0);
        for (k, byte) in bytes[..count].iter_mut().enumerate() {
            let place = (self.0 + k) % pair;
            *byte = if place == 1 || place == 3 { 64 } else { 0 };
        }
        self.0 += count;
        Ok(count)
    }
}

#[test]
fn a_hundred_megabytes() {
    let before = NOW.load(Relaxed);
    MOST.store(before, Relaxed);
    let totals = answer(Long(0), io::sink()).unwrap();
    assert_eq!((totals.pairs, totals.refused), (PAIRS as u64, PAIRS as u64));
    let most = MOST.load(Relaxed) - before;
    // 409,600 bytes are work memory.
    assert!((409_600..600_000).contains(&most), "{most}");
}
