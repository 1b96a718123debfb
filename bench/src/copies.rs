//! The copies that the proved engine makes by calls of the C library. `tools/way.sh` renames these calls in the archive
//! to the functions below, which count; in the archive as it is nothing calls them.

use std::ptr;
use std::sync::atomic::{AtomicUsize, Ordering::Relaxed};

struct Counter {
    calls: AtomicUsize,
    bytes: AtomicUsize,
}

static COPIED: Counter = Counter::new();
static SET: Counter = Counter::new();

impl Counter {
    const fn new() -> Self {
        Counter { calls: AtomicUsize::new(0), bytes: AtomicUsize::new(0) }
    }

    fn add(&self, length: usize) {
        self.calls.fetch_add(1, Relaxed);
        self.bytes.fetch_add(length, Relaxed);
    }

    /// Calls and bytes since they were last taken.
    fn take(&self) -> (usize, usize) {
        (self.calls.swap(0, Relaxed), self.bytes.swap(0, Relaxed))
    }
}

/// # Safety
/// As memcpy.
#[no_mangle]
pub unsafe extern "C" fn counted_memcpy(to: *mut u8, from: *const u8, length: usize) -> *mut u8 {
    COPIED.add(length);
    // SAFETY: what the caller owes memcpy is what is owed here.
    unsafe { ptr::copy_nonoverlapping(from, to, length) };
    to
}

/// # Safety
/// As memmove.
#[no_mangle]
pub unsafe extern "C" fn counted_memmove(to: *mut u8, from: *const u8, length: usize) -> *mut u8 {
    COPIED.add(length);
    // SAFETY: as above.
    unsafe { ptr::copy(from, to, length) };
    to
}

/// # Safety
/// As memset.
#[no_mangle]
pub unsafe extern "C" fn counted_memset(to: *mut u8, byte: i32, length: usize) -> *mut u8 {
    SET.add(length);
    // SAFETY: as above.
    unsafe { ptr::write_bytes(to, byte as u8, length) };
    to
}

/// Calls and bytes of what is copied and of what is set.
pub fn count(play: impl FnOnce()) -> [(usize, usize); 2] {
    let taken = || [COPIED.take(), SET.take()];
    taken();
    play();
    taken()
}
