//! An allocator that counts, for one of the two builds: how often memory is asked for, how many bytes in all, and the most that is held at once.
use std::alloc::{GlobalAlloc, Layout, System};
use std::sync::atomic::{AtomicU64, Ordering::Relaxed};

static CALLS: AtomicU64 = AtomicU64::new(0);
static BYTES: AtomicU64 = AtomicU64::new(0);
static HELD: AtomicU64 = AtomicU64::new(0);
static MOST: AtomicU64 = AtomicU64::new(0);

struct Counting;
#[global_allocator]
static COUNTING: Counting = Counting;

fn taken(bytes: usize) {
    CALLS.fetch_add(1, Relaxed);
    BYTES.fetch_add(bytes as u64, Relaxed);
    MOST.fetch_max(HELD.fetch_add(bytes as u64, Relaxed) + bytes as u64, Relaxed);
}
fn given_back(bytes: usize) {
    HELD.fetch_sub(bytes as u64, Relaxed);
}

unsafe impl GlobalAlloc for Counting {
    unsafe fn alloc(&self, l: Layout) -> *mut u8 {
        taken(l.size());
        unsafe { System.alloc(l) }
    }
    unsafe fn dealloc(&self, p: *mut u8, l: Layout) {
        given_back(l.size());
        unsafe { System.dealloc(p, l) }
    }
    /// Counted as one more taking; where it moves, old and new are held at once for a moment.
    unsafe fn realloc(&self, p: *mut u8, l: Layout, size: usize) -> *mut u8 {
        taken(size);
        given_back(l.size());
        unsafe { System.realloc(p, l, size) }
    }
}

/// Prints: takings, their bytes, the most held at once, and what is held by the result.
pub fn count<T>(f: impl FnOnce() -> T) {
    let before = [&CALLS, &BYTES, &HELD].map(|n| n.load(Relaxed));
    MOST.store(before[2], Relaxed);
    let result = f();
    let [calls, bytes, held] = [&CALLS, &BYTES, &HELD].map(|n| n.load(Relaxed));
    println!("allocations {} {} {} {}", calls - before[0], bytes - before[1], MOST.load(Relaxed) - before[2], held - before[2]);
    drop(result);
}
