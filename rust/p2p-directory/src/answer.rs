//! The results of the library, and the buffers for them.

use crate::codec::ReadError;
use crate::error::OutOfMemory;
use crate::memory::{give_back_large, lengthen, zeros};
use p2p_directory_sys as exports;
use std::mem;

/// The reason why a result of the library can be read, as the message of a panic if it can't.
pub(crate) const OWN: &str = "the library's own answer";

/// The number that was returned, `None`, or out of memory. The typed arguments of this crate can
/// cause no other refusal.
#[inline]
pub(crate) fn answered(answer: u64) -> Result<Option<u64>, OutOfMemory> {
    match answer {
        exports::MEMORY => Err(OutOfMemory),
        exports::NONE => Ok(None),
        exports::BAD_CALL.. => unknown(answer),
        number => Ok(Some(number)),
    }
}

/// The number returned by a call that doesn't allocate.
#[inline]
pub(crate) fn certain(answer: u64) -> u64 {
    match answered(answer) {
        Ok(Some(number)) => number,
        Ok(None) | Err(OutOfMemory) => unknown(answer),
    }
}

/// The bool returned by a call, or out of memory.
#[inline]
pub(crate) fn is_true(answer: u64) -> Result<bool, OutOfMemory> {
    match answered(answer)? {
        Some(0) => Ok(false),
        Some(1) => Ok(true),
        Some(_) | None => unknown(answer),
    }
}

/// The bool returned by a call that doesn't allocate.
#[inline]
pub(crate) fn is_certain(answer: u64) -> bool {
    match answer {
        0 => false,
        1 => true,
        other => unknown(other),
    }
}

/// Checks that a call took effect, unless it ran out of memory.
#[inline]
pub(crate) fn is_done(answer: u64) -> Result<(), OutOfMemory> {
    match answered(answer)? {
        Some(1) => Ok(()),
        Some(_) | None => unknown(answer),
    }
}

/// Panics since the library returned a number that this crate doesn't know: another archive is
/// linked.
#[cold]
pub(crate) fn unknown(answer: u64) -> ! {
    panic!("p2p_session answered {answer:#x}")
}

/// The value that was read from a result of the library, or out of memory.
pub(crate) fn own<T>(read: Result<T, ReadError>) -> Result<T, OutOfMemory> {
    read.map_err(|error| match error {
        ReadError::Memory => OutOfMemory,
        ReadError::Codec(fault) => panic!("{OWN} can't be read: {fault}"),
    })
}

/// What a result of the library is, for its length is probably that of the last one of its kind.
#[derive(Clone, Copy, Debug)]
pub(crate) enum Kind {
    All,
    Bits,
    Blocked,
    Dialable,
    Frame,
    Info,
    Infos,
    Ingress,
    PeerSet,
    Update,
}

/// How many kinds there are.
const KINDS: usize = Kind::Update as usize + 1;

/// A buffer for results. After each call its capacity above the bound of buffers is freed.
#[derive(Debug)]
pub(crate) struct Room {
    bytes: Vec<u8>,
    // How long it is at least at the beginning of a call.
    first: usize,
    // How long the last result of each kind was. The next call begins with as much, since a result
    // that is longer than the buffer takes a second call.
    last: [usize; KINDS],
}

impl Room {
    /// A buffer of this initial length.
    pub(crate) fn new(first: usize) -> Result<Room, OutOfMemory> {
        Ok(Room {
            bytes: zeros(first)?,
            first,
            last: [0; KINDS],
        })
    }

    /// The buffer, with at least so many bytes.
    pub(crate) fn least(&mut self, length: usize) -> Result<&mut [u8], OutOfMemory> {
        lengthen(&mut self.bytes, length)?;
        Ok(&mut self.bytes)
    }

    /// Frees the capacity above the bound.
    pub(crate) fn give_back(&mut self) {
        give_back_large(&mut self.bytes);
    }

    /// Calls with a buffer of at least this length, once more with a longer one if it was too
    /// short, and reads the result.
    pub(crate) fn asked<T>(
        &mut self,
        kind: Kind,
        least: usize,
        ask: impl Fn(&mut [u8]) -> u64,
        read: impl FnOnce(&[u8]) -> Result<T, ReadError>,
    ) -> Result<Option<T>, OutOfMemory> {
        let answer = self.length(kind, least, ask).and_then(|length| {
            self.last[kind as usize] = length.unwrap_or(0);
            length
                .map(|length| own(read(&self.bytes[..length])))
                .transpose()
        });
        self.give_back();
        answer
    }

    // The length of the result, which is at the beginning of the buffer.
    fn length(
        &mut self,
        kind: Kind,
        least: usize,
        ask: impl Fn(&mut [u8]) -> u64,
    ) -> Result<Option<usize>, OutOfMemory> {
        let last = mem::take(&mut self.last[kind as usize]);
        lengthen(&mut self.bytes, self.first.max(least).max(last))?;
        loop {
            let Some(length) = answered(ask(&mut self.bytes))? else {
                return Ok(None);
            };
            let length = length as usize;
            if length <= self.bytes.len() {
                return Ok(Some(length));
            }
            lengthen(&mut self.bytes, length)?;
        }
    }
}
