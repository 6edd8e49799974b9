//! Logs of the calls of a directory or node, which can be made anew.
//!
//! A [`Recorder`] writes each call that crosses into the library, with its arguments and its
//! answer: those that an item of this crate makes by itself too, as the release of a dropped
//! reservation. [`Directory::init_recorded`](crate::Directory::init_recorded) and
//! [`Node::new_recorded`](crate::Node::new_recorded) begin with one. `docs/FORMATS.md` of the
//! repository has the form of a log.
//!
//! A [`Log`] is read back call by call, and [`Replay`](crate::Replay) makes each on a session of
//! its own. The program `p2p-replay` compares the answers.
//!
//! A log has the keys and addresses that the calls had. Of a message it has the first bytes, the
//! length and a checksum. It has no secret key, since the library is given none.

mod calls;
mod checksum;
mod log;
mod replay;

pub use log::{Argument, Call, Calls, Header, Log, LogError};
pub(crate) use replay::Arguments;
pub use replay::{Answer, MOST_ROOM, ReplayError};

use crate::data::DATA_PREFIX;
use crate::memory::give_back_large;
use crate::sizes::MAX_PAYLOAD_OVERHEAD;
use calls::{CALLS, CallForm, Form};
use checksum::Checksum;
pub use p2p_directory_sys::ARCHIVE;
use p2p_directory_sys::BAD_CALL;
use std::fmt;
use std::io::{self, ErrorKind, Write};
use std::mem;
use std::panic::{AssertUnwindSafe, catch_unwind};

/// With what a log begins.
pub(crate) const MAGIC: [u8; 4] = *b"P2PL";

/// The version of the form of a log that is written. Earlier ones are read, too.
pub(crate) const VERSION: u8 = 2;

/// The number in place of a call's, if the log ends at its bound.
pub(crate) const FULL: u8 = 0;

/// The number in place of a call's, if the log is whole.
pub(crate) const WHOLE: u8 = u8::MAX;

/// The length in place of a slice's, if the slice is that of the call before.
pub(crate) const REPEATED: u32 = u32::MAX;

/// The length in place of a slice's, if the slice is a message of which only a part is recorded.
pub(crate) const SHORTENED: u32 = u32::MAX - 1;

/// How many bytes of a message are recorded: its header, which decides what is answered.
pub(crate) const MESSAGE_HEAD: usize = MAX_PAYLOAD_OVERHEAD as usize;

/// How many bytes the last record has, which says that the log is whole or full: its length, its
/// number, the number of records before it, and the checksum of all bytes before it.
pub(crate) const LAST_RECORD: usize = 4 + 1 + 8 + 4;

/// How a recording stands.
#[derive(Clone, Copy, Debug, PartialEq, Eq)]
#[non_exhaustive]
pub enum Recording {
    /// Calls are recorded.
    Going,
    /// The bound was reached. The last record says so.
    Full,
    /// It was [ended](crate::Directory::end_record). The last record says that the log is whole.
    Ended,
    /// The log couldn't be written, or what writes it panicked, which is
    /// [`Other`](io::ErrorKind::Other). It has the calls before.
    Failed(io::ErrorKind),
    /// There was no memory for a record. The log has the calls before.
    OutOfMemory,
}

/// Writes the calls of a directory or node to a log, until it has so many bytes.
///
/// What it does never changes what a call does or answers. If it can't write on, the recording
/// ends, and [`Recording`] says why.
///
/// # Examples
///
/// ```
/// # use p2p_directory::*;
/// use p2p_directory::record::{Log, Recorder, Recording};
/// use std::fs::File;
/// use std::io::BufWriter;
///
/// let path = std::env::temp_dir().join(format!("p2p-{}.log", std::process::id()));
/// let recorder = Recorder::new(BufWriter::new(File::create(&path)?), 1 << 20);
/// let mut node = Node::new_recorded(&testing::setup(9), recorder)?;
/// node.directory_mut().block(&testing::key(1), Moment::EPOCH)?;
/// assert_eq!(node.directory().recording(), Some(Recording::Going));
/// drop(node);
///
/// let log = Log::read(std::fs::read(&path)?)?;
/// let names: Vec<&str> = log.calls().map(|call| call.name()).collect();
/// assert_eq!(names, ["init", "block"]);
/// # std::fs::remove_file(&path)?;
/// # Ok::<(), Box<dyn std::error::Error>>(())
/// ```
pub struct Recorder {
    sink: Box<dyn Write + Send>,
    // How many bytes the log has, and may have.
    length: u64,
    limit: u64,
    // How many records it has, and the checksum of all its bytes.
    count: u64,
    checksum: Checksum,
    recording: Recording,
    // The record that is made.
    entry: Entry,
}

/// A record, while its call is written to it.
#[derive(Default)]
struct Entry {
    bytes: Vec<u8>,
    // The first slice of the call before, if it is long enough to be told by a word.
    last: Vec<u8>,
    // Whether this call had a slice, and whether there was memory for all.
    has_slice: bool,
    is_short: bool,
}

impl Recorder {
    /// A recorder to a file, or to whatever takes bytes, of at most so many bytes.
    ///
    /// The sink is called within each call of the directory or node, after the library has answered,
    /// and once more when the directory is dropped. So a sink that blocks delays the call, and all
    /// who wait for the directory; one that must not hands the bytes on, and returns an error if it
    /// can't. If it panics, the recording ends as failed, and the call returns what it always does.
    /// It may drop reservations. It can't make calls of the directory that it records.
    ///
    /// Bytes are written as they come, so a [`BufWriter`](io::BufWriter) around a file is faster.
    /// What is in it when the process is killed is lost, and the log ends before.
    ///
    /// # Examples
    ///
    /// ```
    /// use p2p_directory::record::Recorder;
    ///
    /// let recorder = Recorder::new(std::io::sink(), 1 << 20);
    /// assert!(format!("{recorder:?}").contains("Going"));
    /// ```
    pub fn new(sink: impl Write + Send + 'static, limit: u64) -> Recorder {
        Recorder {
            sink: Box::new(sink),
            length: 0,
            limit,
            count: 0,
            checksum: Checksum::new(),
            recording: Recording::Going,
            entry: Entry::default(),
        }
    }

    /// Writes with what a log begins.
    pub(crate) fn begin(&mut self, key_size: usize, signature_size: usize) {
        self.entry.clear();
        self.entry.raw(&MAGIC);
        self.entry.raw(&[VERSION]);
        self.entry.raw(&(key_size as u16).to_be_bytes());
        self.entry.raw(&(signature_size as u16).to_be_bytes());
        self.entry.raw(&ARCHIVE);
        self.write_entry();
    }

    /// Records the call of a number, with its answer and the bytes that it wrote to `out`.
    pub(crate) fn call(
        &mut self,
        number: u64,
        numbers: &[u64],
        bytes: [&[u8]; 3],
        answer: u64,
        out: &[u8],
    ) {
        // What is no call to the library stands in no log: it changed nothing.
        if self.recording != Recording::Going || answer == BAD_CALL {
            return;
        }
        let form = &CALLS[number as usize - 1];
        self.entry.clear();
        // The length comes here, when it is known.
        self.entry.raw(&[0; 4]);
        self.entry.raw(&[number as u8]);
        self.entry.arguments(form, numbers, bytes, out.len());
        self.entry.number(answer);
        self.entry.raw(written(answer, out));
        self.entry.set_length();
        self.write_entry();
        self.count += 1;
    }

    /// How the recording stands.
    pub(crate) fn recording(&self) -> Recording {
        self.recording
    }

    /// Ends a recording that is going on, by the record which says that the log is whole.
    pub(crate) fn end(&mut self) {
        if self.recording == Recording::Going {
            self.last(WHOLE, Recording::Ended);
        }
    }

    /// Flushes what takes the bytes, unless it failed before.
    pub(crate) fn flush(&mut self) {
        self.sink(|sink| sink.flush());
    }

    // Calls the sink, unless it failed before. If it fails or panics, the recording ends.
    fn sink(&mut self, call: impl FnOnce(&mut dyn Write) -> io::Result<()>) {
        if matches!(self.recording, Recording::Failed(_)) {
            return;
        }
        let sink = &mut self.sink;
        let called = catch_unwind(AssertUnwindSafe(|| call(sink.as_mut())));
        let failed = match called {
            Ok(Ok(())) => return,
            Ok(Err(error)) => error.kind(),
            Err(_panicked) => ErrorKind::Other,
        };
        self.recording = Recording::Failed(failed);
    }

    // Writes the record, or one that says that the log is full.
    fn write_entry(&mut self) {
        if self.entry.is_short {
            self.recording = Recording::OutOfMemory;
            return;
        }
        let length = self.length + self.entry.bytes.len() as u64;
        if length.saturating_add(LAST_RECORD as u64) > self.limit {
            self.last(FULL, Recording::Full);
            return;
        }
        self.length = length;
        self.checksum.add(&self.entry.bytes);
        let bytes = mem::take(&mut self.entry.bytes);
        self.sink(|sink| sink.write_all(&bytes));
        self.entry.bytes = bytes;
        give_back_large(&mut self.entry.bytes);
        give_back_large(&mut self.entry.last);
    }

    // Writes the last record, unless the bound leaves no room for it, and flushes.
    fn last(&mut self, number: u8, ended: Recording) {
        self.recording = ended;
        if self.length + LAST_RECORD as u64 > self.limit {
            return;
        }
        let mut last = [0; LAST_RECORD];
        last[3] = (LAST_RECORD - 4) as u8;
        last[4] = number;
        last[5..13].copy_from_slice(&self.count.to_be_bytes());
        last[13..].copy_from_slice(&self.checksum.value().to_be_bytes());
        self.length += LAST_RECORD as u64;
        self.sink(|sink| {
            sink.write_all(&last)?;
            sink.flush()
        });
    }
}

impl fmt::Debug for Recorder {
    fn fmt(&self, f: &mut fmt::Formatter<'_>) -> fmt::Result {
        f.debug_struct("Recorder")
            .field("length", &self.length)
            .field("limit", &self.limit)
            .field("recording", &self.recording)
            .finish_non_exhaustive()
    }
}

impl Drop for Recorder {
    fn drop(&mut self) {
        match self.recording {
            Recording::Going => self.end(),
            _ => self.flush(),
        }
        let sink = mem::replace(&mut self.sink, Box::new(io::sink()));
        // A sink may panic while it is dropped, too.
        let _ = catch_unwind(AssertUnwindSafe(|| drop(sink)));
    }
}

/// The bytes that a call wrote: none if it is refused, has no answer, or its answer is longer than
/// the buffer.
pub(crate) fn written(answer: u64, out: &[u8]) -> &[u8] {
    match usize::try_from(answer) {
        Ok(length) if answer < BAD_CALL && length <= out.len() => &out[..length],
        _ => &[],
    }
}

/// The reason why there is an argument for each parameter: the library took the call.
const TAKEN: &str = "as many as the call takes";

/// The shortest slice that is told by a word if it comes again.
const SHORTEST_REPEATED: usize = 256;

impl Entry {
    fn clear(&mut self) {
        self.bytes.clear();
        self.has_slice = false;
        self.is_short = false;
    }

    // Appends the arguments of a call, in the order of its parameters.
    fn arguments(&mut self, call: &CallForm, numbers: &[u64], bytes: [&[u8]; 3], room: usize) {
        let (mut numbers, mut bytes) = (numbers.iter(), bytes.into_iter());
        for (_, form) in call.parameters {
            match form {
                Form::Flag | Form::Small | Form::Number => {
                    self.number(*numbers.next().expect(TAKEN))
                }
                Form::Bytes => self.bytes(bytes.next().expect(TAKEN)),
                Form::Frame => self.frame(bytes.next().expect(TAKEN)),
                Form::Room => self.number(room as u64),
            }
        }
    }

    /// Appends a number, or how long a buffer is.
    fn number(&mut self, number: u64) {
        self.raw(&number.to_be_bytes());
    }

    /// Appends a slice, behind its length.
    fn bytes(&mut self, bytes: &[u8]) {
        let is_first = !mem::replace(&mut self.has_slice, true);
        let is_long = bytes.len() >= SHORTEST_REPEATED;
        if is_first && is_long && bytes == self.last {
            self.raw(&REPEATED.to_be_bytes());
            return;
        }
        match u32::try_from(bytes.len()) {
            Ok(length) if length < SHORTENED => self.raw(&length.to_be_bytes()),
            _ => self.is_short = true,
        }
        self.raw(bytes);
        if is_first {
            self.remember(if is_long { bytes } else { &[] });
        }
    }

    /// Appends a frame. If it is a message, its first bytes, its length and the checksum of the
    /// other bytes stand for it: a library answers by the header and the length alone.
    fn frame(&mut self, frame: &[u8]) {
        let (head, rest) = match frame.split_at_checked(MESSAGE_HEAD) {
            Some(parts) if frame[0] == DATA_PREFIX => parts,
            _ => return self.bytes(frame),
        };
        if !mem::replace(&mut self.has_slice, true) {
            self.remember(&[]);
        }
        self.raw(&SHORTENED.to_be_bytes());
        self.number(frame.len() as u64);
        self.raw(head);
        self.raw(&Checksum::of(rest).to_be_bytes());
    }

    fn remember(&mut self, bytes: &[u8]) {
        self.last.clear();
        match self.last.try_reserve(bytes.len()) {
            Ok(()) => self.last.extend_from_slice(bytes),
            Err(_) => self.is_short = true,
        }
    }

    fn raw(&mut self, bytes: &[u8]) {
        match self.bytes.try_reserve(bytes.len()) {
            Ok(()) => self.bytes.extend_from_slice(bytes),
            Err(_) => self.is_short = true,
        }
    }

    // The length of what follows it, at the front.
    fn set_length(&mut self) {
        match u32::try_from(self.bytes.len() - 4) {
            Ok(length) if !self.is_short => {
                self.bytes[..4].copy_from_slice(&length.to_be_bytes());
            }
            _ => self.is_short = true,
        }
    }
}
