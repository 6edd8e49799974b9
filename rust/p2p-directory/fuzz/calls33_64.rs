//! Calls that bytes of libFuzzer describe, made to a node and to the model, with keys of 33 bytes.

#![no_main]

#[path = "../tests/calls/mod.rs"]
mod calls;

use p2p_directory::keys33_64::Keys33_64;

/// libFuzzer calls this with the bytes that it generated.
#[allow(non_snake_case)]
#[unsafe(no_mangle)]
pub extern "C" fn LLVMFuzzerTestOneInput(data: *const u8, size: usize) -> i32 {
    // SAFETY: libFuzzer keeps `size` bytes there, a copy of its own, until this returns.
    let bytes = unsafe { std::slice::from_raw_parts(data, size) };
    calls::compare::<Keys33_64>(bytes, |_, _| ());
    0
}
