//! The frames that peers send to each other.

use super::info::{Info, min_info_size, read_infos, try_write_infos, write_infos};
use super::pair::Pair;
use crate::codec::{ReadError, Reader, varint_size};
use crate::config::PayloadConfig;
use crate::data::{BitVec, DATA_PREFIX, Data};
use crate::error::{CodecError, OutOfMemory};
use crate::sizes::longest_gossip;

const GREETING_PREFIX: u8 = 1;
const BIT_VEC_PREFIX: u8 = 2;
const PEERS_PREFIX: u8 = 3;

/// The payload of a frame.
///
/// # Examples
///
/// ```
/// use p2p_directory::{Payload, PayloadConfig};
///
/// let limits = PayloadConfig { max_bit_vec: 9, max_peers: 8, max_data_length: 8 };
/// let frame = Payload::Peers(Vec::new()).encode();
/// assert_eq!(frame, [3, 0]);
/// assert_eq!(Payload::decode(&frame, &limits), Ok(Payload::Peers(Vec::new())));
/// ```
#[derive(Clone, Debug, PartialEq, Eq, Hash)]
pub enum Payload<P: Pair> {
    /// A message on a channel.
    Data(Data),
    /// The sender's own info. Nothing checks that it is the peer of the connection: the host must.
    Greeting(Info<P>),
    /// Which infos of a set the sender knows. It asks for the others.
    BitVec(BitVec),
    /// Infos for which the receiver asked.
    Peers(Vec<Info<P>>),
}

/// The maximum size of a frame that isn't data, if it has at most so many bits or infos. A
/// transport has to carry such frames for gossip. Returns `None` if the size exceeds `usize::MAX`.
///
/// # Examples
///
/// ```
/// assert_eq!(p2p_directory::max_gossip_size(100_000, 0), Some(12_514));
/// ```
#[must_use]
pub const fn max_gossip_size<P: Pair>(max_bit_vec: u64, max_peers: usize) -> Option<usize> {
    longest_gossip(Info::<P>::max_encode_size(), max_bit_vec, max_peers)
}

/// The frame of a greeting with this info, unless an allocation fails.
pub(crate) fn greeting_of<P: Pair>(info: &Info<P>) -> Result<Vec<u8>, OutOfMemory> {
    let mut frame = Vec::new();
    frame.try_reserve_exact(1 + info.encode_size())?;
    frame.push(GREETING_PREFIX);
    info.write(&mut frame);
    Ok(frame)
}

/// The frame of a reply with these infos, unless an allocation fails.
pub(crate) fn reply_of<P: Pair>(infos: &[Info<P>]) -> Result<Vec<u8>, OutOfMemory> {
    let mut frame = Vec::new();
    frame.try_reserve(1)?;
    frame.push(PEERS_PREFIX);
    try_write_infos(&mut frame, infos)?;
    Ok(frame)
}

impl<P: Pair> Payload<P> {
    /// The encoding of the payload, which is a frame.
    ///
    /// # Panics
    ///
    /// Panics if a message has more than `u32::MAX` bytes, or a list more than `u32::MAX` infos.
    ///
    /// # Examples
    ///
    /// ```
    /// # use p2p_directory::{BitVec, Payload};
    /// let none = BitVec { index: 0, bits: Vec::new() };
    /// assert_eq!(Payload::BitVec(none).encode(), [2, 0, 0]);
    /// ```
    #[must_use]
    pub fn encode(&self) -> Vec<u8> {
        let mut out = Vec::with_capacity(self.encode_size());
        match self {
            Payload::Data(data) => {
                out.push(DATA_PREFIX);
                data.write(&mut out);
            }
            Payload::Greeting(info) => {
                out.push(GREETING_PREFIX);
                info.write(&mut out);
            }
            Payload::BitVec(bits) => {
                out.push(BIT_VEC_PREFIX);
                bits.write(&mut out);
            }
            Payload::Peers(infos) => {
                out.push(PEERS_PREFIX);
                write_infos(&mut out, infos);
            }
        }
        out
    }

    /// The encoded size of the payload.
    ///
    /// # Examples
    ///
    /// ```
    /// # use p2p_directory::{Data, Payload};
    /// let data = Payload::Data(Data { channel: 300, message: vec![0; 128] });
    /// assert_eq!(data.encode_size(), 1 + 2 + 2 + 128);
    /// ```
    #[must_use]
    pub fn encode_size(&self) -> usize {
        let value = match self {
            Payload::Data(Data { channel, message }) => {
                varint_size(*channel) + varint_size(message.len() as u64) + message.len()
            }
            Payload::Greeting(info) => info.encode_size(),
            Payload::BitVec(BitVec { index, bits }) => {
                varint_size(*index) + varint_size(bits.len() as u64) + bits.len().div_ceil(8)
            }
            Payload::Peers(infos) => {
                let sizes = infos.iter().map(Info::encode_size);
                varint_size(infos.len() as u64) + sizes.sum::<usize>()
            }
        };
        1 + value
    }

    /// Decodes the payload of a frame under these limits.
    ///
    /// # Errors
    ///
    /// The first error of a frame that encodes no payload within the limits.
    /// [`Node::receive`](super::Node::receive) returns it as
    /// [`Received::Codec`](super::Received::Codec).
    ///
    /// # Examples
    ///
    /// ```
    /// # use p2p_directory::{CodecError, Payload, PayloadConfig, What};
    /// let limits = PayloadConfig { max_bit_vec: 9, max_peers: 8, max_data_length: 8 };
    /// let padded = [2, 5, 9, 0xff, 3];
    /// assert_eq!(Payload::decode(&padded, &limits), Err(CodecError::Invalid(What::Padding)));
    /// ```
    pub fn decode(frame: &[u8], limits: &PayloadConfig) -> Result<Payload<P>, CodecError> {
        let mut reader = Reader::new(frame);
        let payload = Payload::read(&mut reader, limits).map_err(ReadError::fault)?;
        reader.end()?;
        Ok(payload)
    }

    /// The maximum length of what the library writes about the infos of a frame. Each info is
    /// written with its length, and with its timestamp in eight bytes in place of at least one.
    pub(crate) fn room_to_check(frame: &[u8]) -> usize {
        match frame.first() {
            Some(&PEERS_PREFIX) => frame.len() + frame.len() / min_info_size::<P>() * 15 + 8,
            _ => 0,
        }
    }

    /// The maximum number of bits of a frame.
    pub(crate) fn most_bits(frame: &[u8]) -> usize {
        match frame.first() {
            Some(&BIT_VEC_PREFIX) => frame.len().saturating_mul(8),
            _ => 0,
        }
    }

    /// Whether a frame can have infos, since only these are signed.
    pub(crate) fn is_signed(frame: &[u8]) -> bool {
        matches!(frame.first(), Some(&(GREETING_PREFIX | PEERS_PREFIX)))
    }

    fn read(reader: &mut Reader<'_>, limits: &PayloadConfig) -> Result<Payload<P>, ReadError> {
        Ok(match reader.byte()? {
            DATA_PREFIX => Payload::Data(Data::read(reader, limits.max_data_length as u64)?),
            GREETING_PREFIX => Payload::Greeting(Info::read(reader)?),
            BIT_VEC_PREFIX => Payload::BitVec(BitVec::read(reader, limits.max_bit_vec)?),
            PEERS_PREFIX => Payload::Peers(read_infos(reader, limits.max_peers as u64)?),
            other => return Err(CodecError::InvalidEnum(other).into()),
        })
    }
}
