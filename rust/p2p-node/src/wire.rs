//! Streams with deadlines, and frames on them.

use p2p_directory::OutOfMemory;
use std::error;
use std::fmt;
use std::io::{self, ErrorKind, Read, Write};
use std::net::TcpStream;
use std::sync::atomic::{AtomicBool, Ordering};
use std::thread;
use std::time::{Duration, Instant};

/// How long a call of the system waits before the flag and the deadline are looked at.
pub const POLL: Duration = Duration::from_millis(250);

/// How many bytes of a frame are requested at a time. A frame takes no more memory than has
/// arrived of it, and this.
const PIECE: usize = 1 << 16;

/// A stream whose reads and writes end at a deadline, or when a flag is set.
#[derive(Debug)]
pub struct Timed<'s> {
    stream: &'s TcpStream,
    stop: &'s AtomicBool,
    deadline: Option<Instant>,
}

impl<'s> Timed<'s> {
    /// Wraps a stream, without a deadline.
    ///
    /// # Errors
    ///
    /// That of the system if it refuses the options of the stream.
    pub fn new(stream: &'s TcpStream, stop: &'s AtomicBool) -> io::Result<Timed<'s>> {
        stream.set_read_timeout(Some(POLL))?;
        stream.set_write_timeout(Some(POLL))?;
        Ok(Timed {
            stream,
            stop,
            deadline: None,
        })
    }

    /// Sets the deadline of all reads and writes from now on together, or takes it away.
    pub fn set_deadline(&mut self, within: Option<Duration>) {
        self.deadline = within.and_then(|within| Instant::now().checked_add(within));
    }

    /// Waits so long and reads nothing.
    ///
    /// # Errors
    ///
    /// That of the stream if it is shut down meanwhile, or the flag is set.
    pub fn pause(&mut self, time: Duration) -> io::Result<()> {
        let begin = Instant::now();
        self.set_deadline(None);
        loop {
            // A write of nothing fails once the stream is shut down.
            let _ = self.write(&[])?;
            let left = time.saturating_sub(begin.elapsed());
            if left.is_zero() {
                return Ok(());
            }
            thread::sleep(left.min(POLL));
        }
    }

    /// Repeats a call while it only waited, until the deadline has passed or the flag is set.
    fn wait<T>(&self, mut call: impl FnMut(&TcpStream) -> io::Result<T>) -> io::Result<T> {
        loop {
            if self.stop.load(Ordering::Relaxed) {
                return Err(io::Error::other("this node is ending"));
            }
            if self
                .deadline
                .is_some_and(|deadline| Instant::now() >= deadline)
            {
                return Err(ErrorKind::TimedOut.into());
            }
            match call(self.stream) {
                Err(error) if is_wait(error.kind()) => {}
                result => return result,
            }
        }
    }
}

fn is_wait(kind: ErrorKind) -> bool {
    use ErrorKind::{Interrupted, TimedOut, WouldBlock};
    matches!(kind, Interrupted | TimedOut | WouldBlock)
}

impl Read for Timed<'_> {
    fn read(&mut self, bytes: &mut [u8]) -> io::Result<usize> {
        self.wait(|mut stream| stream.read(bytes))
    }
}

impl Write for Timed<'_> {
    fn write(&mut self, bytes: &[u8]) -> io::Result<usize> {
        self.wait(|mut stream| stream.write(bytes))
    }

    fn flush(&mut self) -> io::Result<()> {
        Ok(())
    }
}

/// Why no frame was read.
#[derive(Debug)]
pub enum FrameError {
    /// The stream failed, ended, or took too long.
    Stream(io::Error),
    /// The frame has so many bytes, more than the limit.
    TooLong(u32),
    /// There is no memory for the frame.
    OutOfMemory,
}

impl fmt::Display for FrameError {
    fn fmt(&self, f: &mut fmt::Formatter<'_>) -> fmt::Result {
        match self {
            FrameError::Stream(error) => error.fmt(f),
            FrameError::TooLong(length) => write!(f, "a frame of {length} bytes is too long"),
            FrameError::OutOfMemory => OutOfMemory.fmt(f),
        }
    }
}

impl error::Error for FrameError {}

impl From<io::Error> for FrameError {
    fn from(error: io::Error) -> FrameError {
        FrameError::Stream(error)
    }
}

/// Writes the length of a frame in four bytes, the most significant first, and the frame.
///
/// # Errors
///
/// That of the stream, and [`ErrorKind::InvalidInput`] for a frame of 4 GiB or more.
pub fn write_frame(stream: &mut impl Write, frame: &[u8]) -> io::Result<()> {
    let length = u32::try_from(frame.len()).map_err(|_| ErrorKind::InvalidInput)?;
    stream.write_all(&length.to_be_bytes())?;
    stream.write_all(frame)
}

/// Reads a frame of at most `limit` bytes.
///
/// # Errors
///
/// [`FrameError`]. A frame that is too long is refused before anything is allocated.
pub fn read_frame(stream: &mut impl Read, limit: u32) -> Result<Vec<u8>, FrameError> {
    let mut length = [0; 4];
    stream.read_exact(&mut length)?;
    let length = u32::from_be_bytes(length);
    if length > limit {
        return Err(FrameError::TooLong(length));
    }
    let mut frame = Vec::new();
    let mut left = length as usize;
    while left > 0 {
        let (read, piece) = (frame.len(), left.min(PIECE));
        let reserved = frame.try_reserve(piece);
        reserved.map_err(|_| FrameError::OutOfMemory)?;
        frame.resize(read + piece, 0);
        stream.read_exact(frame.split_at_mut(read).1)?;
        left -= piece;
    }
    Ok(frame)
}

#[cfg(test)]
mod tests {
    use super::*;
    use std::net::{Ipv4Addr, TcpListener};

    #[test]
    fn a_frame_has_its_length_before_it() {
        let mut bytes = Vec::new();
        write_frame(&mut bytes, b"hello").unwrap();
        assert_eq!(bytes, b"\0\0\0\x05hello");
        assert_eq!(read_frame(&mut bytes.as_slice(), 5).unwrap(), b"hello");
        assert_eq!(read_frame(&mut [0_u8; 4].as_slice(), 5).unwrap(), b"");
    }

    #[test]
    fn a_long_frame_arrives_in_pieces() {
        let frame: Vec<u8> = (0..3 * PIECE + 7).map(|place| place as u8).collect();
        let mut bytes = Vec::new();
        write_frame(&mut bytes, &frame).unwrap();
        assert_eq!(read_frame(&mut bytes.as_slice(), u32::MAX).unwrap(), frame);
    }

    #[test]
    fn a_frame_above_the_limit_is_refused_by_its_length() {
        let refused = read_frame(&mut b"\0\0\0\x06".as_slice(), 5);
        assert!(
            matches!(refused, Err(FrameError::TooLong(6))),
            "{refused:?}"
        );
        let refused = read_frame(&mut b"\xff\xff\xff\xff".as_slice(), 1 << 20);
        assert!(matches!(refused, Err(FrameError::TooLong(u32::MAX))));
        let cut = read_frame(&mut b"\0\0\0\x05hell".as_slice(), 5);
        assert!(matches!(cut, Err(FrameError::Stream(_))));
    }

    fn pair() -> (TcpStream, TcpStream) {
        let listener = TcpListener::bind((Ipv4Addr::LOCALHOST, 0)).unwrap();
        let one = TcpStream::connect(listener.local_addr().unwrap()).unwrap();
        (one, listener.accept().unwrap().0)
    }

    #[test]
    fn a_deadline_is_of_all_reads_together() {
        let (one, mut two) = pair();
        let stop = AtomicBool::new(false);
        let begin = Instant::now();
        let drips = std::thread::spawn(move || {
            while two.write_all(b"x").is_ok() && begin.elapsed() < Duration::from_secs(10) {
                std::thread::sleep(Duration::from_millis(20));
            }
        });
        let mut timed = Timed::new(&one, &stop).unwrap();
        timed.set_deadline(Some(Duration::from_millis(300)));
        let error = timed.read_exact(&mut [0; 10_000]).unwrap_err();
        assert_eq!(error.kind(), ErrorKind::TimedOut);
        let passed = begin.elapsed();
        assert!(passed >= Duration::from_millis(300), "{passed:?}");
        assert!(passed < Duration::from_secs(5), "{passed:?}");
        drop(one);
        drips.join().unwrap();
    }

    #[test]
    fn a_write_has_a_deadline() {
        let (one, _two) = pair();
        let stop = AtomicBool::new(false);
        let mut timed = Timed::new(&one, &stop).unwrap();
        timed.set_deadline(Some(Duration::from_millis(300)));
        let error = timed.write_all(&vec![0; 1 << 26]).unwrap_err();
        assert_eq!(error.kind(), ErrorKind::TimedOut);
    }

    #[test]
    fn a_flag_ends_a_read() {
        let (one, _two) = pair();
        let stop = AtomicBool::new(true);
        let mut timed = Timed::new(&one, &stop).unwrap();
        assert_eq!(
            timed.read(&mut [0]).unwrap_err().to_string(),
            "this node is ending"
        );
    }
}
