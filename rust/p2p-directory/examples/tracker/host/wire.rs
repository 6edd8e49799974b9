//! Frames on a stream, and the handshake before them.

use super::shared::random;
use p2p_directory::testing::sign;
use p2p_directory::{
    KEY_SIZE, Key, MAX_PAYLOAD_OVERHEAD, PayloadConfig, SIGNATURE_SIZE, Signature, max_gossip_size,
};
use std::io::{self, BufWriter, ErrorKind, Read, Write};
use std::net::TcpStream;
use std::time::{Duration, Instant};

/// The first byte of a data frame: see `docs/FORMATS.md`.
pub const DATA: u8 = 0;

/// The first byte of a greeting.
pub const GREETING: u8 = 1;

/// The namespace in which challenges are signed, which differs from that of infos.
const HANDSHAKE: &[u8] = b"tracker handshake";

const CHALLENGE_SIZE: usize = 8;

/// The maximum lengths of frames.
#[derive(Clone, Copy, Debug)]
pub struct FrameLimits {
    data: usize,
    gossip: usize,
}

impl FrameLimits {
    /// The limits that allow each frame that a node with these limits accepts, or `None` if they
    /// exceed `usize::MAX`.
    pub fn new(payload: &PayloadConfig) -> Option<FrameLimits> {
        let overhead = MAX_PAYLOAD_OVERHEAD as usize;
        Some(FrameLimits {
            data: payload.max_data_length.checked_add(overhead)?,
            gossip: max_gossip_size(payload.max_bit_vec, payload.max_peers)?,
        })
    }
}

/// Writes the length of a frame in four bytes, and then its parts, one after the other.
pub fn write_frame(stream: impl Write, parts: &[&[u8]]) -> io::Result<()> {
    let length: usize = parts.iter().map(|part| part.len()).sum();
    let length = u32::try_from(length).map_err(|_| ErrorKind::InvalidInput)?;
    let mut out = BufWriter::new(stream);
    out.write_all(&length.to_be_bytes())?;
    for part in parts {
        out.write_all(part)?;
    }
    out.flush()
}

/// Reads a frame. One that is too long is refused with [`ErrorKind::InvalidData`] before anything
/// is allocated for it.
pub fn read_frame(mut stream: impl Read, limits: FrameLimits) -> io::Result<Vec<u8>> {
    let length = u32::from_be_bytes(read_array(&mut stream)?) as usize;
    if length == 0 {
        return Ok(Vec::new());
    }
    let [prefix] = read_array(&mut stream)?;
    let most = match prefix {
        DATA => limits.data,
        _ => limits.gossip,
    };
    if length > most {
        return Err(io::Error::new(ErrorKind::InvalidData, "a frame too long"));
    }
    let mut frame = Vec::new();
    frame.try_reserve_exact(length)?;
    frame.resize(length, prefix);
    stream.read_exact(&mut frame[1..])?;
    Ok(frame)
}

/// Sends the local key to the listener, and checks that the listener has the key that was dialled.
///
/// This and [`handshake_as_listener`] stand for the handshake of a real transport. That
/// authenticates both sides by signatures that can't be forged, and encrypts what follows. The
/// scheme of `testing` does neither: anybody can sign for any key.
pub fn handshake_as_dialer(
    mut stream: &TcpStream,
    own: &Key,
    peer: &Key,
    time: Duration,
) -> io::Result<()> {
    let mut reader = Until::new(stream, time);
    let challenge: [u8; CHALLENGE_SIZE] = random().to_be_bytes();
    stream.write_all(&[own.as_ref(), &challenge].concat())?;
    let key = Key(read_array::<KEY_SIZE>(&mut reader)?);
    let to_sign = read_array::<CHALLENGE_SIZE>(&mut reader)?;
    let signature = Signature(read_array::<SIGNATURE_SIZE>(&mut reader)?);
    if key != *peer || signature != sign(&key, HANDSHAKE, &challenge) {
        return Err(ErrorKind::PermissionDenied.into());
    }
    stream.write_all(sign(own, HANDSHAKE, &to_sign).as_ref())
}

/// Returns the key of a dialer. Nothing is sent to a dialer whose key isn't accepted.
pub fn handshake_as_listener(
    mut stream: &TcpStream,
    own: &Key,
    time: Duration,
    is_admitted: impl FnOnce(&Key) -> bool,
) -> io::Result<Key> {
    let mut reader = Until::new(stream, time);
    let key = Key(read_array::<KEY_SIZE>(&mut reader)?);
    let to_sign = read_array::<CHALLENGE_SIZE>(&mut reader)?;
    if !is_admitted(&key) {
        return Err(ErrorKind::PermissionDenied.into());
    }
    let challenge: [u8; CHALLENGE_SIZE] = random().to_be_bytes();
    let signed = sign(own, HANDSHAKE, &to_sign);
    stream.write_all(&[own.as_ref(), &challenge, signed.as_ref()].concat())?;
    let signature = Signature(read_array::<SIGNATURE_SIZE>(&mut reader)?);
    if signature != sign(&key, HANDSHAKE, &challenge) {
        return Err(ErrorKind::PermissionDenied.into());
    }
    Ok(key)
}

/// A stream with a deadline, however few bytes are read or written at once.
pub struct Until<'s> {
    stream: &'s TcpStream,
    end: Instant,
}

impl Until<'_> {
    /// A stream that is read or written within this time.
    pub fn new(stream: &TcpStream, time: Duration) -> Until<'_> {
        let end = Instant::now() + time;
        Until { stream, end }
    }

    /// Sets the deadline anew.
    pub fn renew(&mut self, time: Duration) {
        self.end = Instant::now() + time;
    }

    fn left(&self) -> io::Result<Duration> {
        match self.end.saturating_duration_since(Instant::now()) {
            Duration::ZERO => Err(ErrorKind::TimedOut.into()),
            left => Ok(left),
        }
    }
}

impl Read for Until<'_> {
    fn read(&mut self, bytes: &mut [u8]) -> io::Result<usize> {
        self.stream.set_read_timeout(Some(self.left()?))?;
        self.stream.read(bytes)
    }
}

impl Write for Until<'_> {
    fn write(&mut self, bytes: &[u8]) -> io::Result<usize> {
        self.stream.set_write_timeout(Some(self.left()?))?;
        self.stream.write(bytes)
    }

    fn flush(&mut self) -> io::Result<()> {
        self.stream.flush()
    }
}

fn read_array<const N: usize>(stream: &mut impl Read) -> io::Result<[u8; N]> {
    let mut bytes = [0; N];
    stream.read_exact(&mut bytes)?;
    Ok(bytes)
}
