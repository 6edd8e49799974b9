//! What frames have besides infos: messages and bits.

use crate::codec::{MAX_VARINT_SIZE, ReadError, Reader, write_length, write_varint};
use crate::error::{CodecError, OutOfMemory, What};
use crate::memory::copied;

/// The first byte of a frame with a message.
pub(crate) const DATA_PREFIX: u8 = 0;

/// A message on a channel.
///
/// # Examples
///
/// ```
/// use p2p_directory::{Data, Payload};
///
/// let data = Data { channel: 1, message: b"hello".to_vec() };
/// assert_eq!(Payload::Data(data).encode(), [0, 1, 5, b'h', b'e', b'l', b'l', b'o']);
/// ```
#[derive(Clone, Debug, PartialEq, Eq, Hash)]
pub struct Data {
    /// The channel.
    pub channel: u64,
    /// The message.
    pub message: Vec<u8>,
}

/// For each primary peer of a set, in the order of keys, whether the sender knows its info.
///
/// # Examples
///
/// ```
/// use p2p_directory::{BitVec, Payload};
///
/// let bits = BitVec { index: 5, bits: vec![true; 9] };
/// assert_eq!(Payload::BitVec(bits).encode(), [2, 5, 9, 0xff, 1]);
/// ```
#[derive(Clone, Debug, PartialEq, Eq, Hash)]
pub struct BitVec {
    /// The index of the set.
    pub index: u64,
    /// A bit for each primary peer: whether its info is known and not wanted.
    pub bits: Vec<bool>,
}

impl BitVec {
    /// Appends the encoding, unless an allocation fails.
    pub(crate) fn try_write(&self, out: &mut Vec<u8>) -> Result<(), OutOfMemory> {
        out.try_reserve(2 * MAX_VARINT_SIZE + self.bits.len().div_ceil(8))?;
        self.write(out);
        Ok(())
    }

    pub(crate) fn write(&self, out: &mut Vec<u8>) {
        write_varint(out, self.index);
        write_varint(out, self.bits.len() as u64);
        let bytes = self.bits.chunks(8).map(|bits| {
            let places = bits.iter().enumerate();
            places.fold(0, |byte, (place, bit)| byte | u8::from(*bit) << place)
        });
        out.extend(bytes);
    }

    pub(crate) fn read(reader: &mut Reader<'_>, most: u64) -> Result<BitVec, ReadError> {
        let index = reader.varint()?;
        let count = reader.varint()?;
        if count > most {
            return Err(CodecError::InvalidLength(count).into());
        }
        let bytes = reader.take(count.div_ceil(8) as usize)?;
        let mut bits = Vec::new();
        bits.try_reserve_exact(count as usize)?;
        bits.resize(count as usize, false);
        for (bits, byte) in bits.chunks_mut(8).zip(bytes) {
            for (place, bit) in bits.iter_mut().enumerate() {
                *bit = byte >> place & 1 == 1;
            }
        }
        let unused = count as usize..8 * bytes.len();
        if unused.into_iter().any(|place| is_set(bytes, place)) {
            return Err(CodecError::Invalid(What::Padding).into());
        }
        Ok(BitVec { index, bits })
    }
}

impl Data {
    pub(crate) fn read(reader: &mut Reader<'_>, most: u64) -> Result<Data, ReadError> {
        let channel = reader.varint()?;
        let length = reader.length()?;
        if length > most {
            return Err(CodecError::InvalidLength(length).into());
        }
        let message = copied(reader.take(length as usize)?)?;
        Ok(Data { channel, message })
    }

    pub(crate) fn write(&self, out: &mut Vec<u8>) {
        write_varint(out, self.channel);
        write_length(out, self.message.len());
        out.extend_from_slice(&self.message);
    }
}

// Whether the bit at a position is set. The least significant bit of each byte is the first.
fn is_set(bytes: &[u8], place: usize) -> bool {
    bytes[place / 8] >> (place % 8) & 1 == 1
}
