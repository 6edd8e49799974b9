//! A frame that libFuzzer generated, read by the library and by this crate's own decoder, with keys of 33 bytes.

#![no_main]

#[path = "../tests/frames/mod.rs"]
mod frames;

use frames::Frames;
use p2p_directory::keys33_64::Keys33_64;
use std::cell::RefCell;

thread_local! {
    static FRAMES: RefCell<Frames<Keys33_64>> = RefCell::new(Frames::new());
}

/// libFuzzer calls this with the bytes that it generated.
#[allow(non_snake_case)]
#[unsafe(no_mangle)]
pub extern "C" fn LLVMFuzzerTestOneInput(data: *const u8, size: usize) -> i32 {
    // SAFETY: libFuzzer keeps `size` bytes there, a copy of its own, until this returns.
    let frame = unsafe { std::slice::from_raw_parts(data, size) };
    FRAMES.with_borrow_mut(|frames| frames.compare(frame));
    0
}
