//! Arguments of a recorded call, and its answer.

use super::calls::Form;
use super::log::{Argument, Call, room};
use super::written;
use p2p_directory_sys::BAD_CALL;
use std::borrow::Cow;
use std::fmt;

/// How many bytes a recorded call may ask for unless said otherwise: for the buffer that it writes,
/// and for the bytes of a message that weren't recorded.
pub const MOST_ROOM: u64 = 256 << 20;

/// What a call answered: a number, and the bytes that it wrote.
#[derive(Clone, PartialEq, Eq)]
#[non_exhaustive]
pub struct Answer {
    /// The number. `docs/C.md` of the repository says which are refusals.
    pub number: u64,
    /// The bytes that it wrote to its buffer.
    pub bytes: Vec<u8>,
}

impl Answer {
    /// An answer of this number and these bytes.
    pub fn new(number: u64, bytes: Vec<u8>) -> Answer {
        Answer { number, bytes }
    }

    pub(crate) fn of(number: u64, mut out: Vec<u8>) -> Answer {
        out.truncate(written(number, &out).len());
        Answer { number, bytes: out }
    }

    /// Whether the call was refused for want of memory, and counts as not made.
    pub fn is_out_of_memory(&self) -> bool {
        self.number == p2p_directory_sys::MEMORY
    }
}

impl fmt::Debug for Answer {
    fn fmt(&self, f: &mut fmt::Formatter<'_>) -> fmt::Result {
        match self.number {
            number @ BAD_CALL.. => write!(f, "{number:#x}")?,
            number => write!(f, "{number}")?,
        }
        if self.bytes.is_empty() {
            return Ok(());
        }
        write!(f, ", {:?}", Argument::Bytes(&self.bytes))
    }
}

/// Why a recorded call can't be made anew.
#[derive(Clone, Copy, Debug, PartialEq, Eq)]
#[non_exhaustive]
pub enum ReplayError {
    /// There is no call of this name.
    Unknown(&'static str),
    /// An argument is none that the call takes.
    Argument,
    /// The call asks for more bytes than are allowed, for the buffer that it writes or for a
    /// message.
    TooLarge {
        /// How many it asks for.
        length: u64,
        /// How many are allowed.
        most: u64,
    },
    /// There is no memory for what the call may write.
    OutOfMemory,
}

impl fmt::Display for ReplayError {
    fn fmt(&self, f: &mut fmt::Formatter<'_>) -> fmt::Result {
        match self {
            ReplayError::Unknown(name) => write!(f, "there is no call {name}"),
            ReplayError::Argument => write!(f, "an argument is none that the call takes"),
            ReplayError::TooLarge { length, most } => {
                write!(
                    f,
                    "the call asks for {length} bytes, and {most} are allowed"
                )
            }
            ReplayError::OutOfMemory => write!(f, "out of memory"),
        }
    }
}

impl std::error::Error for ReplayError {}

/// What a call takes.
pub(crate) struct Arguments<'a> {
    pub(crate) numbers: Vec<u64>,
    pub(crate) bytes: [Cow<'a, [u8]>; 3],
    pub(crate) out: Vec<u8>,
}

impl<'a> Arguments<'a> {
    /// The arguments of a recorded call, which may ask for at most so many bytes.
    pub(crate) fn of(call: &Call<'a>, most: u64) -> Result<Arguments<'a>, ReplayError> {
        const SMALL: u64 = u32::MAX as u64;
        let (mut numbers, mut bytes) = (Vec::new(), <[Cow<'a, [u8]>; 3]>::default());
        let (mut slices, mut out) = (bytes.iter_mut(), Vec::new());
        for ((_, form), argument) in call.form().parameters.iter().zip(call.arguments()) {
            match (form, argument) {
                (Form::Flag, Argument::Number(number @ 0..=1))
                | (Form::Small, Argument::Number(number @ 0..=SMALL))
                | (Form::Number, Argument::Number(number)) => numbers.push(*number),
                (Form::Bytes | Form::Frame, slice) => {
                    *slices.next().ok_or(ReplayError::Argument)? = slice.bytes(most)?;
                }
                (Form::Room, Argument::Room(length)) => out = room(*length, most)?,
                _ => return Err(ReplayError::Argument),
            }
        }
        Ok(Arguments {
            numbers,
            bytes,
            out,
        })
    }
}
