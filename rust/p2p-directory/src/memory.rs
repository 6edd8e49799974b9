//! Fallible allocations on Rust's heap.

use crate::error::OutOfMemory;

/// The maximum capacity that a buffer keeps between calls, in bytes.
pub(crate) const MOST_KEPT: usize = 64 << 10;

/// Copies these bytes.
pub(crate) fn copied(bytes: &[u8]) -> Result<Vec<u8>, OutOfMemory> {
    let mut copy = Vec::new();
    copy.try_reserve_exact(bytes.len())?;
    copy.extend_from_slice(bytes);
    Ok(copy)
}

/// So many zero bytes.
pub(crate) fn zeros(length: usize) -> Result<Vec<u8>, OutOfMemory> {
    let mut zeros = Vec::new();
    lengthen(&mut zeros, length)?;
    Ok(zeros)
}

/// Appends zeros until there are at least so many bytes.
pub(crate) fn lengthen(bytes: &mut Vec<u8>, length: usize) -> Result<(), OutOfMemory> {
    if bytes.len() < length {
        bytes.try_reserve_exact(length - bytes.len())?;
        bytes.resize(length, 0);
    }
    Ok(())
}

/// Frees a buffer whose capacity is above the maximum that is kept. It doesn't allocate.
pub(crate) fn give_back_large(buffer: &mut Vec<u8>) {
    if buffer.capacity() > MOST_KEPT {
        *buffer = Vec::new();
    }
}
