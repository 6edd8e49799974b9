//! A session of the library, in memory of its own. This file and `exports.rs` have `unsafe`, and no
//! others.
//!
//! Obligations of the host, which nothing checks. The memory of a session has size bytes and begins
//! at a multiple of 16. It is neither read, written nor moved while a session is in it. new comes
//! before each other call, and free once, after the last. One call at a time is made on a session,
//! on whatever thread. A slice is its first item and its length, points to that many initialised
//! items, begins at a multiple of their alignment and not at null, and overlaps neither another slice
//! that is written nor the memory of the session.

use crate::exports::interface;
use crate::session::Caller;
use std::alloc::{Layout, alloc, dealloc};
use std::marker::{PhantomData, PhantomPinned};

/// The memory of a session, which is neither moved nor shared.
#[repr(C)]
pub struct Handle {
    _private: [u8; 0],
    _bound: PhantomData<(*mut u8, PhantomPinned)>,
}

/// What the library exports for a pair of sizes.
pub struct Exports {
    pub size: extern "C" fn() -> usize,
    pub new: unsafe extern "C" fn(at: *mut Handle),
    pub free: unsafe extern "C" fn(at: *mut Handle),
    pub call: unsafe extern "C" fn(
        at: *mut Handle,
        number: u64,
        numbers: *const u64,
        numbers_length: usize,
        first: *const u8,
        first_length: usize,
        second: *const u8,
        second_length: usize,
        third: *const u8,
        third_length: usize,
        out: *mut u8,
        out_length: usize,
    ) -> u64,
    pub call_peer: unsafe extern "C" fn(
        at: *mut Handle,
        number: u64,
        numbers: *const u64,
        numbers_length: usize,
        peer: *const u8,
        peer_length: usize,
    ) -> u64,
}

/// What only `exports.rs` implements: the exports are those of one pair of sizes.
pub trait Exported: 'static {
    const EXPORTS: Exports;
}

/// A pair of sizes, of keys and of signatures. There is one for each pair that the library is
/// compiled for, and nobody can add another: [`Keys32_64`](crate::Keys32_64) is that of the root.
///
/// # Examples
///
/// ```
/// use p2p_directory_sys::sized::{Library, Pair, Session};
/// use p2p_directory_sys::{Keys32_64, NO_NODE, keys33_64::Keys33_64};
///
/// fn tracked<P: Pair>() -> Option<u64> {
///     Some(Session::<Library<P>>::new()?.tracked())
/// }
/// assert_eq!(tracked::<Keys32_64>(), Some(NO_NODE));
/// assert_eq!(tracked::<Keys33_64>(), Some(NO_NODE));
/// ```
pub trait Pair: Exported {}

impl<E: Exported> Pair for E {}

/// A session of the library, in memory that is kept for it alone. Threads may hand it on, and not
/// share it.
///
/// # Examples
///
/// ```
/// use p2p_directory_sys::sized::{Caller, Library};
/// use p2p_directory_sys::{BAD_CALL, Keys32_64, NO_NODE};
///
/// let library = Library::<Keys32_64>::new().ok_or("no memory")?;
/// assert_eq!(library.call(28, &[], [&[]; 3], &mut []), NO_NODE);
/// assert_eq!(library.call(0, &[], [&[]; 3], &mut []), BAD_CALL);
/// # Ok::<(), &str>(())
/// ```
///
/// ```compile_fail,E0277
/// fn shared<S: Sync>() {}
/// shared::<p2p_directory_sys::Session>();
/// ```
pub struct Library<P: Pair> {
    at: *mut Handle,
    pair: PhantomData<P>,
}

// SAFETY: nothing in a session is bound to a thread, and its memory is its own.
unsafe impl<P: Pair> Send for Library<P> {}

impl<P: Pair> Library<P> {
    /// A session with no node, or `None` if the allocation fails.
    pub fn new() -> Option<Library<P>> {
        // It refers to the name that has the hash, so no archive of another interface is linked.
        interface();
        // SAFETY: the size isn't 0.
        let at = unsafe { alloc(layout::<P>()) }.cast::<Handle>();
        if at.is_null() {
            return None;
        }
        // SAFETY: the memory has this size and alignment.
        unsafe { (P::EXPORTS.new)(at) };
        Some(Library {
            at,
            pair: PhantomData,
        })
    }
}

impl<P: Pair> Caller for Library<P> {
    #[inline]
    fn call(&self, number: u64, numbers: &[u64], bytes: [&[u8]; 3], out: &mut [u8]) -> u64 {
        let [first, second, third] = bytes;
        // SAFETY: `new` made the session, no call of it is under way, and slices are valid.
        unsafe {
            (P::EXPORTS.call)(
                self.at,
                number,
                numbers.as_ptr(),
                numbers.len(),
                first.as_ptr(),
                first.len(),
                second.as_ptr(),
                second.len(),
                third.as_ptr(),
                third.len(),
                out.as_mut_ptr(),
                out.len(),
            )
        }
    }

    #[inline]
    fn call_peer(&self, number: u64, numbers: &[u64], peer: &[u8]) -> u64 {
        // SAFETY: as in `call`.
        unsafe {
            (P::EXPORTS.call_peer)(
                self.at,
                number,
                numbers.as_ptr(),
                numbers.len(),
                peer.as_ptr(),
                peer.len(),
            )
        }
    }
}

impl<P: Pair> Drop for Library<P> {
    fn drop(&mut self) {
        // SAFETY: `new` made it, and it isn't used again.
        unsafe {
            (P::EXPORTS.free)(self.at);
            dealloc(self.at.cast(), layout::<P>());
        }
    }
}

fn layout<P: Pair>() -> Layout {
    let size = (P::EXPORTS.size)();
    Layout::from_size_align(size.max(1), 16).expect("room for a session")
}
