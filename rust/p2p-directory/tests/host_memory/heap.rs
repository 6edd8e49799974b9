//! Rust's heap, which fails the allocations that it is told to, and counts what is allocated, for
//! each thread.

use std::alloc::{GlobalAlloc, Layout, System};
use std::cell::Cell;
use std::ptr;

/// Which allocations fail, counted from 1.
#[derive(Clone, Copy, Debug)]
pub enum Refused {
    None,
    /// This one alone.
    Only(u64),
    /// This one and all later ones.
    From(u64),
}

#[derive(Clone, Copy)]
struct Counts {
    plan: Refused,
    requests: u64,
    refused: u64,
    held: isize,
}

thread_local! {
    static COUNTS: Cell<Counts> = const {
        Cell::new(Counts { plan: Refused::None, requests: 0, refused: 0, held: 0 })
    };
}

struct Heap;

#[global_allocator]
static HEAP: Heap = Heap;

/// How many bytes this thread allocated more than it freed.
pub fn held() -> isize {
    COUNTS.get().held
}

/// Runs the closure while these allocations fail, and returns how many failed.
pub fn while_refused<T>(plan: Refused, does: impl FnOnce() -> T) -> (T, u64) {
    let begun = Counts {
        plan,
        requests: 0,
        refused: 0,
        ..COUNTS.get()
    };
    COUNTS.set(begun);
    let done = does();
    let counts = COUNTS.get();
    COUNTS.set(Counts {
        plan: Refused::None,
        ..counts
    });
    (done, counts.refused)
}

// Counts an allocation. Returns whether it succeeds, as it always does while a thread ends.
fn grants() -> bool {
    let granted = COUNTS.try_with(|cell| {
        let mut counts = cell.get();
        counts.requests += 1;
        let is_refused = match counts.plan {
            Refused::None => false,
            Refused::Only(place) => counts.requests == place,
            Refused::From(place) => counts.requests >= place,
        };
        counts.refused += u64::from(is_refused);
        cell.set(counts);
        !is_refused
    });
    granted.unwrap_or(true)
}

fn count_held(bytes: isize) {
    let _ended = COUNTS.try_with(|cell| {
        let mut counts = cell.get();
        counts.held += bytes;
        cell.set(counts);
    });
}

// SAFETY: it returns what the system's allocator does, or null. A block that grows counts as an
// allocation, since `realloc` is that of the trait.
unsafe impl GlobalAlloc for Heap {
    unsafe fn alloc(&self, layout: Layout) -> *mut u8 {
        if !grants() {
            return ptr::null_mut();
        }
        count_held(layout.size() as isize);
        // SAFETY: as the caller promises.
        unsafe { System.alloc(layout) }
    }

    unsafe fn dealloc(&self, at: *mut u8, layout: Layout) {
        count_held(-(layout.size() as isize));
        // SAFETY: `alloc` returned it, for this layout.
        unsafe { System.dealloc(at, layout) }
    }
}
