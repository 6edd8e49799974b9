//! The sizes of frames and values, by `docs/FORMATS.md` of the repository.

use crate::codec::{MAX_VARINT_SIZE, put_varint, varint_size};
use std::fmt;

/// How many bytes a data frame is longer than its message, at most.
///
/// # Examples
///
/// ```
/// assert_eq!(p2p_directory::MAX_PAYLOAD_OVERHEAD, 16);
/// ```
pub const MAX_PAYLOAD_OVERHEAD: u32 = 1 + 10 + 5;

/// The maximum size of a message if a transport carries frames of at most `max_frame_size` bytes.
/// Returns `None` if that is less than [`MAX_PAYLOAD_OVERHEAD`].
///
/// # Examples
///
/// ```
/// assert_eq!(p2p_directory::max_size(1 << 20), Some((1 << 20) - 16));
/// assert_eq!(p2p_directory::max_size(15), None);
/// ```
#[must_use]
pub const fn max_size(max_frame_size: u32) -> Option<u32> {
    max_frame_size.checked_sub(MAX_PAYLOAD_OVERHEAD)
}

/// The maximum size of a frame that isn't data, if infos have at most this size.
pub(crate) const fn longest_gossip(
    info: usize,
    max_bit_vec: u64,
    max_peers: usize,
) -> Option<usize> {
    let bytes = max_bit_vec.div_ceil(8);
    if bytes > usize::MAX as u64 - 64 {
        return None;
    }
    let bits = MAX_VARINT_SIZE + varint_size(max_bit_vec) + bytes as usize;
    let Some(infos) = info.checked_mul(max_peers) else {
        return None;
    };
    let Some(peers) = infos.checked_add(5) else {
        return None;
    };
    let mut longest = info;
    if longest < bits {
        longest = bits;
    }
    if longest < peers {
        longest = peers;
    }
    longest.checked_add(1)
}

/// The first bytes of a data frame, which precede the message. With them a host can send a message
/// without copying it into a frame.
///
/// # Examples
///
/// ```
/// use p2p_directory::{Data, EncodedData, Payload};
///
/// let header = EncodedData::new(1, 5);
/// let frame = [header.as_bytes(), b"hello"].concat();
/// let data = Data { channel: 1, message: b"hello".to_vec() };
/// assert_eq!(frame, Payload::Data(data).encode());
/// ```
#[derive(Clone, Copy, PartialEq, Eq, Hash)]
pub struct EncodedData {
    bytes: [u8; MAX_PAYLOAD_OVERHEAD as usize],
    length: u8,
}

impl EncodedData {
    /// Creates the header for a message of `message_size` bytes on a channel. It doesn't allocate.
    #[must_use]
    pub fn new(channel: u64, message_size: u32) -> EncodedData {
        let mut header = EncodedData {
            bytes: [0; MAX_PAYLOAD_OVERHEAD as usize],
            length: 1,
        };
        header.append(channel);
        header.append(message_size.into());
        header
    }

    /// The bytes of the header, at most [`MAX_PAYLOAD_OVERHEAD`].
    #[must_use]
    pub fn as_bytes(&self) -> &[u8] {
        &self.bytes[..usize::from(self.length)]
    }

    fn append(&mut self, value: u64) {
        put_varint(value, |byte| {
            self.bytes[usize::from(self.length)] = byte;
            self.length += 1;
        });
    }
}

impl fmt::Debug for EncodedData {
    fn fmt(&self, f: &mut fmt::Formatter<'_>) -> fmt::Result {
        f.debug_tuple("EncodedData")
            .field(&self.as_bytes())
            .finish()
    }
}
