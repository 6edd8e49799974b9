//! The heap of the library, in place of the toolchain's. It fails the allocations that it is told
//! to, and counts what is allocated. Each thread has its own counts, and a session stays on the
//! thread of its test here.

use std::alloc::{Layout, alloc, dealloc};
use std::cell::Cell;
use std::ptr;

/// Which allocations fail, counted from 1.
#[derive(Clone, Copy, Debug)]
pub enum Refused {
    None,
    /// This one alone.
    Only(u64),
    /// This one and all later ones.
    From(u64),
}

/// The allocations while a closure ran.
#[derive(Clone, Copy, Debug)]
pub struct Asked {
    /// How many allocations were requested.
    pub requests: u64,
    /// How many of them failed.
    pub refused: u64,
    /// The maximum number of bytes that were allocated in addition to those before.
    pub bytes: usize,
}

#[derive(Clone, Copy)]
struct Counts {
    plan: Refused,
    requests: u64,
    refused: u64,
    held: usize,
    most: usize,
}

thread_local! {
    static COUNTS: Cell<Counts> = const {
        Cell::new(Counts { plan: Refused::None, requests: 0, refused: 0, held: 0, most: 0 })
    };
}

/// How many bytes the library has allocated.
pub fn held() -> usize {
    COUNTS.get().held
}

/// Runs the closure while these allocations fail, and returns the counts.
pub fn while_refused<T>(plan: Refused, does: impl FnOnce() -> T) -> (T, Asked) {
    let before = held();
    COUNTS.set(Counts {
        plan,
        requests: 0,
        refused: 0,
        held: before,
        most: before,
    });
    let done = does();
    let counts = COUNTS.get();
    COUNTS.set(Counts {
        plan: Refused::None,
        ..counts
    });
    let asked = Asked {
        requests: counts.requests,
        refused: counts.refused,
        bytes: counts.most - before,
    };
    (done, asked)
}

// Counts an allocation. Returns whether it succeeds.
fn grants() -> bool {
    let mut counts = COUNTS.get();
    counts.requests += 1;
    let is_refused = match counts.plan {
        Refused::None => false,
        Refused::Only(place) => counts.requests == place,
        Refused::From(place) => counts.requests >= place,
    };
    counts.refused += u64::from(is_refused);
    COUNTS.set(counts);
    !is_refused
}

fn count_held(more: usize, less: usize) {
    let mut counts = COUNTS.get();
    counts.held = counts.held + more - less;
    counts.most = counts.most.max(counts.held);
    COUNTS.set(counts);
}

/// The result of an allocation: whether it succeeded, and the address.
#[repr(C)]
struct Had {
    is_had: usize,
    at: *mut u8,
}

const NOT_HAD: Had = Had {
    is_had: 0,
    at: ptr::null_mut(),
};

// Each block has its size before it, in as many bytes as the greatest alignment.
const HEAD: usize = 16;

fn layout(size: usize) -> Option<Layout> {
    Layout::from_size_align(size.checked_add(HEAD)?, HEAD).ok()
}

fn take(size: usize) -> Had {
    let Some(layout) = layout(size) else {
        return NOT_HAD;
    };
    // SAFETY: the size isn't 0, since it includes the head.
    let head = unsafe { alloc(layout) };
    if head.is_null() {
        return NOT_HAD;
    }
    // SAFETY: the block begins with a head, which is aligned for a size.
    let at = unsafe {
        head.cast::<usize>().write(size);
        head.add(HEAD)
    };
    count_held(size, 0);
    Had { is_had: 1, at }
}

/// # Safety
///
/// `take` returned this block, and it wasn't freed.
unsafe fn size_of(at: *mut u8) -> usize {
    // SAFETY: there is a head before it.
    unsafe { at.sub(HEAD).cast::<usize>().read() }
}

/// # Safety
///
/// `take` returned this block, and it wasn't freed.
unsafe fn give_back(at: *mut u8) {
    // SAFETY: the head before it has the size with which it was allocated.
    unsafe {
        let size = size_of(at);
        dealloc(at.sub(HEAD), layout(size).expect("it was taken"));
        count_held(0, size);
    }
}

#[unsafe(no_mangle)]
extern "C" fn rattle_alloc(size: usize, align: usize) -> Had {
    assert!(align <= HEAD, "an alignment of {align}");
    if grants() { take(size) } else { NOT_HAD }
}

/// The block moves each time, so the old one and the new one are both allocated for a while.
#[unsafe(no_mangle)]
unsafe extern "C" fn rattle_realloc(at: *mut u8, _old: usize, size: usize, align: usize) -> Had {
    let had = rattle_alloc(size, align);
    if had.is_had == 1 {
        // SAFETY: the block was allocated and not freed, and both have so many bytes.
        unsafe {
            ptr::copy_nonoverlapping(at, had.at, size_of(at).min(size));
            give_back(at);
        }
    }
    had
}

#[unsafe(no_mangle)]
unsafe extern "C" fn rattle_dealloc(at: *mut u8) {
    // SAFETY: the library frees each block that it was given once.
    unsafe { give_back(at) }
}
