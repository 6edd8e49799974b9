//! Signed addresses of peers.

use super::pair::{Bytes, Pair, Private};
use super::verification::Question;
use crate::codec::{MAX_VARINT_SIZE, ReadError, Reader, varint_size, write_length, write_varint};
use crate::error::{CodecError, OutOfMemory, What};
use crate::ingress::Ingress;
use std::fmt;

/// The minimum encoded size of an info: that of a name of one byte and a timestamp of one byte.
pub(crate) const fn min_info_size<P: Pair>() -> usize {
    5 + 1 + P::KEY_SIZE + P::SIGNATURE_SIZE
}

/// The address at which a peer can be dialled, a timestamp, and the peer's signature over both.
///
/// # Examples
///
/// ```
/// use p2p_directory::{Info, Ingress, Key, Signature};
/// use std::net::SocketAddr;
///
/// let ingress = Ingress::from(SocketAddr::from(([127, 0, 0, 1], 8080)));
/// // Your own scheme signs. This one has no security.
/// let info = Info::sign(Key([1; 32]), b"net", ingress, 1000, |_namespace, _message| {
///     Signature([1; 64])
/// });
/// assert_eq!(Info::decode(&info.encode()), Ok(info));
/// ```
#[derive(Clone, Debug, PartialEq, Eq, Hash)]
pub struct Info<P: Pair> {
    /// The address at which the peer can be dialled.
    pub ingress: Ingress,
    /// The time since when it can be dialled there, in milliseconds since the Unix epoch. Of two
    /// infos, the one with the greater timestamp is newer.
    pub timestamp: u64,
    /// The key of the peer.
    pub public_key: P::Key,
    /// Its signature over ingress and timestamp, in a namespace.
    pub signature: P::Signature,
}

impl<P: Pair> Info<P> {
    /// Creates an info with the signature that `sign` returns. It is called once, with the
    /// namespace and the [signed bytes](Info::signed_bytes).
    ///
    /// The signed bytes have no tag that says what they are. So sign nothing else with this key under
    /// this namespace: not the handshake of a connection, nor a message of the application.
    ///
    /// # Examples
    ///
    /// ```
    /// # use p2p_directory::{Info, Ingress, Key, Signature};
    /// # use std::net::SocketAddr;
    /// let ingress = Ingress::from(SocketAddr::from(([8, 8, 8, 8], 9000)));
    /// let info = Info::sign(Key([9; 32]), b"net", ingress, 0, |namespace, message| {
    ///     assert_eq!(namespace, b"net");
    ///     assert_eq!(message.len(), 16);
    ///     Signature([0; 64])
    /// });
    /// assert_eq!(info.timestamp, 0);
    /// ```
    pub fn sign(
        public_key: P::Key,
        namespace: &[u8],
        ingress: impl Into<Ingress>,
        timestamp: u64,
        sign: impl FnOnce(&[u8], &[u8]) -> P::Signature,
    ) -> Info<P> {
        let ingress = ingress.into();
        let signature = sign(namespace, &signed_bytes(&ingress, timestamp));
        Info {
            ingress,
            timestamp,
            public_key,
            signature,
        }
    }

    /// The bytes over which the signature is made: the encoding of the ingress, then the timestamp
    /// in eight bytes, the most significant first.
    ///
    /// # Examples
    ///
    /// ```
    /// # use p2p_directory::{Info, Ingress, Key, Signature};
    /// # use std::net::SocketAddr;
    /// # let ingress = Ingress::from(SocketAddr::from(([127, 0, 0, 1], 8080)));
    /// # let info = Info::sign(Key([1; 32]), b"", ingress, 1000, |_, _| Signature([0; 64]));
    /// assert_eq!(
    ///     info.signed_bytes(),
    ///     [0, 4, 127, 0, 0, 1, 0x1f, 0x90, 0, 0, 0, 0, 0, 0, 0x03, 0xe8]
    /// );
    /// ```
    #[must_use]
    pub fn signed_bytes(&self) -> Vec<u8> {
        signed_bytes(&self.ingress, self.timestamp)
    }

    /// Returns what `verify` returns for the question whether the signature is valid, in this
    /// namespace.
    ///
    /// # Examples
    ///
    /// ```
    /// # use p2p_directory::{Info, Ingress, Key, Signature};
    /// # use std::net::SocketAddr;
    /// # let ingress = Ingress::from(SocketAddr::from(([127, 0, 0, 1], 8080)));
    /// let info = Info::sign(Key([1; 32]), b"net", ingress, 1000, |_, _| Signature([1; 64]));
    /// assert!(info.verify(b"net", |question| question.signature.0[..32] == question.public_key.0));
    /// ```
    pub fn verify(&self, namespace: &[u8], verify: impl FnOnce(Question<'_, P>) -> bool) -> bool {
        verify(Question {
            public_key: self.public_key,
            namespace,
            message: &self.signed_bytes(),
            signature: self.signature,
        })
    }

    /// The maximum encoded size of an info.
    ///
    /// # Examples
    ///
    /// ```
    /// assert_eq!(p2p_directory::Info::max_encode_size(), 261 + 10 + 32 + 64);
    /// ```
    #[must_use]
    pub const fn max_encode_size() -> usize {
        Ingress::MAX_ENCODE_SIZE + 10 + P::KEY_SIZE + P::SIGNATURE_SIZE
    }

    /// The encoding of the info.
    ///
    /// # Examples
    ///
    /// ```
    /// # use p2p_directory::{Info, Ingress, Key, Signature};
    /// # use std::net::SocketAddr;
    /// # let ingress = Ingress::from(SocketAddr::from(([127, 0, 0, 1], 8080)));
    /// # let info = Info::sign(Key([1; 32]), b"", ingress, 1000, |_, _| Signature([0; 64]));
    /// assert_eq!(info.encode().len(), 8 + 2 + 32 + 64);
    /// ```
    #[must_use]
    pub fn encode(&self) -> Vec<u8> {
        let mut out = Vec::with_capacity(self.encode_size());
        self.write(&mut out);
        out
    }

    /// The encoded size of the info.
    ///
    /// # Examples
    ///
    /// ```
    /// # use p2p_directory::testing::info;
    /// assert_eq!(info(1, 1000).encode_size(), info(1, 1000).encode().len());
    /// ```
    #[must_use]
    pub fn encode_size(&self) -> usize {
        self.ingress.encode_size() + varint_size(self.timestamp) + P::KEY_SIZE + P::SIGNATURE_SIZE
    }

    /// Decodes the info that these bytes encode.
    ///
    /// # Errors
    ///
    /// The first error of bytes that encode no info.
    ///
    /// # Examples
    ///
    /// ```
    /// # use p2p_directory::{CodecError, Info};
    /// assert_eq!(Info::decode(&[]), Err(CodecError::EndOfBuffer));
    /// ```
    pub fn decode(bytes: &[u8]) -> Result<Info<P>, CodecError> {
        let mut reader = Reader::new(bytes);
        let info = Info::read(&mut reader).map_err(ReadError::fault)?;
        reader.end()?;
        Ok(info)
    }

    /// Appends the encoding, unless an allocation fails.
    pub(crate) fn try_write(&self, out: &mut Vec<u8>) -> Result<(), OutOfMemory> {
        out.try_reserve(self.encode_size())?;
        self.write(out);
        Ok(())
    }

    pub(crate) fn write(&self, out: &mut Vec<u8>) {
        self.ingress.write(out);
        write_varint(out, self.timestamp);
        out.extend_from_slice(self.public_key.as_ref());
        out.extend_from_slice(self.signature.as_ref());
    }

    pub(crate) fn read(reader: &mut Reader<'_>) -> Result<Info<P>, ReadError> {
        Ok(Info {
            ingress: Ingress::read(reader)?,
            timestamp: reader.varint()?,
            public_key: read_key::<P>(reader)?,
            signature: read_signature::<P>(reader)?,
        })
    }
}

/// Formats an info in one line: the key, the ingress, and the timestamp in milliseconds.
impl<P: Pair> fmt::Display for Info<P> {
    fn fmt(&self, f: &mut fmt::Formatter<'_>) -> fmt::Result {
        let Info {
            ingress,
            timestamp,
            public_key,
            ..
        } = self;
        write!(f, "{public_key} at {ingress} since {timestamp} ms")
    }
}

/// Reads a key, and refuses bytes that are none.
pub(crate) fn read_key<P: Pair>(reader: &mut Reader<'_>) -> Result<P::Key, CodecError> {
    let key = P::Key::of_bytes(reader.take(P::KEY_SIZE)?);
    key.ok_or(CodecError::Invalid(What::Key))
}

/// Reads a signature. Any bytes are one.
pub(crate) fn read_signature<P: Pair>(reader: &mut Reader<'_>) -> Result<P::Signature, CodecError> {
    Ok(P::Signature::of_library(reader.take(P::SIGNATURE_SIZE)?))
}

fn signed_bytes(ingress: &Ingress, timestamp: u64) -> Vec<u8> {
    let timestamp = timestamp.to_be_bytes();
    let mut out = Vec::with_capacity(ingress.encode_size() + timestamp.len());
    ingress.write(&mut out);
    out.extend_from_slice(&timestamp);
    out
}

/// Appends the encoding of a list of infos.
pub(crate) fn write_infos<P: Pair>(out: &mut Vec<u8>, infos: &[Info<P>]) {
    write_length(out, infos.len());
    for info in infos {
        info.write(out);
    }
}

/// Appends the encoding of a list of infos, unless an allocation fails.
pub(crate) fn try_write_infos<P: Pair>(
    out: &mut Vec<u8>,
    infos: &[Info<P>],
) -> Result<(), OutOfMemory> {
    let size: usize = infos.iter().map(Info::encode_size).sum();
    out.try_reserve_exact(MAX_VARINT_SIZE + size)?;
    write_infos(out, infos);
    Ok(())
}

/// Decodes a list of infos, at most so many. It allocates for the infos that are there, not for the
/// number that is announced.
pub(crate) fn read_infos<P: Pair>(
    reader: &mut Reader<'_>,
    most: u64,
) -> Result<Vec<Info<P>>, ReadError> {
    let count = reader.length()?;
    if count > most {
        return Err(CodecError::InvalidLength(count).into());
    }
    let mut infos = Vec::new();
    for _ in 0..count {
        let info = Info::read(reader)?;
        infos.try_reserve(1)?;
        infos.push(info);
    }
    Ok(infos)
}
