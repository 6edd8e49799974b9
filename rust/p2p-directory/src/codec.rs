//! How numbers, lengths and times are encoded and decoded, by `docs/FORMATS.md` of the repository.

use crate::error::{CodecError, OutOfMemory};
use crate::moment::Moment;
use std::alloc::{Layout, handle_alloc_error};
use std::collections::TryReserveError;
use std::time::Duration;

/// How many bytes a number in groups of seven bits has at most.
pub(crate) const MAX_VARINT_SIZE: usize = 10;

/// The reason why a value is not decoded.
#[derive(Debug)]
pub(crate) enum ReadError {
    Codec(CodecError),
    Memory,
}

impl ReadError {
    /// The error, for calls that can't return out of memory. If an allocation failed, the program
    /// is aborted, as by Rust's collections.
    pub(crate) fn fault(self) -> CodecError {
        match self {
            ReadError::Codec(fault) => fault,
            ReadError::Memory => handle_alloc_error(Layout::new::<u8>()),
        }
    }
}

impl From<CodecError> for ReadError {
    fn from(fault: CodecError) -> ReadError {
        ReadError::Codec(fault)
    }
}

impl From<OutOfMemory> for ReadError {
    fn from(_refused: OutOfMemory) -> ReadError {
        ReadError::Memory
    }
}

impl From<TryReserveError> for ReadError {
    fn from(_refused: TryReserveError) -> ReadError {
        ReadError::Memory
    }
}

/// Reads values from the front of a slice.
#[derive(Clone)]
pub(crate) struct Reader<'a> {
    bytes: &'a [u8],
}

impl<'a> Reader<'a> {
    #[inline]
    pub(crate) fn new(bytes: &'a [u8]) -> Reader<'a> {
        Reader { bytes }
    }

    /// Whether nothing is left.
    #[cfg(feature = "record")]
    pub(crate) fn is_empty(&self) -> bool {
        self.bytes.is_empty()
    }

    /// Reads the next byte.
    #[inline]
    pub(crate) fn byte(&mut self) -> Result<u8, CodecError> {
        let (first, rest) = self.bytes.split_first().ok_or(CodecError::EndOfBuffer)?;
        self.bytes = rest;
        Ok(*first)
    }

    /// Reads so many bytes.
    #[inline]
    pub(crate) fn take(&mut self, count: usize) -> Result<&'a [u8], CodecError> {
        let (taken, rest) = self
            .bytes
            .split_at_checked(count)
            .ok_or(CodecError::EndOfBuffer)?;
        self.bytes = rest;
        Ok(taken)
    }

    /// Reads as many bytes as the array has.
    #[inline]
    pub(crate) fn array<const N: usize>(&mut self) -> Result<[u8; N], CodecError> {
        let (taken, rest) = self
            .bytes
            .split_first_chunk()
            .ok_or(CodecError::EndOfBuffer)?;
        self.bytes = rest;
        Ok(*taken)
    }

    /// Reads a number of 16 bits, the most significant byte first.
    #[inline]
    pub(crate) fn short(&mut self) -> Result<u16, CodecError> {
        Ok(u16::from_be_bytes(self.array()?))
    }

    /// Reads a number of 64 bits, the most significant byte first.
    #[inline]
    pub(crate) fn number(&mut self) -> Result<u64, CodecError> {
        Ok(u64::from_be_bytes(self.array()?))
    }

    /// Reads a number of 64 bits in groups of seven bits, the least significant first.
    pub(crate) fn varint(&mut self) -> Result<u64, CodecError> {
        self.groups(10, 1)
    }

    /// Reads a length: a number of 32 bits in groups of seven.
    pub(crate) fn length(&mut self) -> Result<u64, CodecError> {
        self.groups(5, 15)
    }

    /// Reads a time: eight bytes of seconds and four of nanoseconds.
    pub(crate) fn moment(&mut self) -> Result<Moment, CodecError> {
        let seconds = self.number()?;
        let nanos = u32::from_be_bytes(self.array()?);
        Ok(Duration::new(seconds, nanos).into())
    }

    /// The bytes that are left.
    #[inline]
    pub(crate) fn rest(self) -> &'a [u8] {
        self.bytes
    }

    /// Checks that no bytes are left.
    pub(crate) fn end(self) -> Result<(), CodecError> {
        match self.bytes.len() {
            0 => Ok(()),
            left => Err(CodecError::ExtraData(left as u64)),
        }
    }

    // Reads at most so many groups of seven bits. The last of them is at most `greatest_last`.
    fn groups(&mut self, most: u64, greatest_last: u8) -> Result<u64, CodecError> {
        let mut value = 0;
        for place in 0..most {
            let byte = self.byte()?;
            let is_padded = place > 0 && byte == 0;
            if is_padded || (place + 1 == most && byte > greatest_last) {
                return Err(CodecError::InvalidVarint(most));
            }
            value |= u64::from(byte & 0x7f) << (7 * place);
            if byte < 0x80 {
                break;
            }
        }
        Ok(value)
    }
}

/// Appends the length of a list or a message.
///
/// # Panics
///
/// Panics if it is above `u32::MAX`, since no decoder accepts it.
pub(crate) fn write_length(out: &mut Vec<u8>, length: usize) {
    assert!(
        u32::try_from(length).is_ok(),
        "{length} is above the greatest length"
    );
    write_varint(out, length as u64);
}

/// Appends a number in groups of seven bits.
pub(crate) fn write_varint(out: &mut Vec<u8>, value: u64) {
    put_varint(value, |byte| out.push(byte));
}

/// Passes on the bytes of a number in groups of seven bits.
pub(crate) fn put_varint(mut value: u64, mut put: impl FnMut(u8)) {
    while value >= 0x80 {
        put((value & 0x7f) as u8 | 0x80);
        value >>= 7;
    }
    put(value as u8);
}

/// How many groups of seven bits a number has.
pub(crate) const fn varint_size(value: u64) -> usize {
    let bits = u64::BITS - value.leading_zeros();
    if bits == 0 {
        1
    } else {
        bits.div_ceil(7) as usize
    }
}

#[cfg(test)]
mod tests {
    use super::*;

    #[test]
    fn varints_have_one_spelling() {
        let vectors: [(u64, &[u8]); 8] = [
            (0, &[0x00]),
            (127, &[0x7f]),
            (128, &[0x80, 0x01]),
            (253, &[0xfd, 0x01]),
            (300, &[0xac, 0x02]),
            (12_345, &[0xb9, 0x60]),
            (100_000, &[0xa0, 0x8d, 0x06]),
            (
                u64::MAX,
                &[0xff, 0xff, 0xff, 0xff, 0xff, 0xff, 0xff, 0xff, 0xff, 0x01],
            ),
        ];
        for (value, bytes) in vectors {
            let mut out = Vec::new();
            write_varint(&mut out, value);
            assert_eq!(out, bytes);
            assert_eq!(Reader::new(bytes).varint(), Ok(value));
        }
    }

    #[test]
    fn lengths_are_written_up_to_the_greatest() {
        let mut out = Vec::new();
        write_length(&mut out, u32::MAX as usize);
        assert_eq!(out, [0xff, 0xff, 0xff, 0xff, 0x0f]);
    }

    #[test]
    #[should_panic = "4294967296 is above the greatest length"]
    fn a_length_above_the_greatest_is_not_written() {
        write_length(&mut Vec::new(), 1 << 32);
    }

    #[test]
    fn faults_of_varints_are_named() {
        let nine = [0xff; 9];
        let with = |last: &[u8]| [&nine[..], last].concat();
        assert_eq!(Reader::new(&[0x80]).varint(), Err(CodecError::EndOfBuffer));
        let faults: [&[u8]; 3] = [&[0x80, 0x00], &with(&[0x02]), &with(&[0x81, 0x00])];
        for bytes in faults {
            assert_eq!(
                Reader::new(bytes).varint(),
                Err(CodecError::InvalidVarint(10))
            );
        }
        assert_eq!(
            Reader::new(&[0xff, 0xff, 0xff, 0xff, 0x0f]).length(),
            Ok(u64::from(u32::MAX))
        );
        assert_eq!(
            Reader::new(&[0xff, 0xff, 0xff, 0xff, 0x10]).length(),
            Err(CodecError::InvalidVarint(5))
        );
    }
}
