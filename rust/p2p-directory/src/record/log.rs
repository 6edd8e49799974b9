//! What is read of a log.

use super::calls::{CALLS, CallForm, Form};
use super::checksum::Checksum;
use super::{
    Answer, FULL, LAST_RECORD, MAGIC, MESSAGE_HEAD, REPEATED, ReplayError, SHORTENED, VERSION,
    WHOLE,
};
use crate::codec::Reader;
use crate::error::CodecError;
use crate::memory::zeros;
use std::borrow::Cow;
use std::fmt;

/// An argument of a recorded call.
#[derive(Clone, Copy, PartialEq, Eq)]
#[non_exhaustive]
pub enum Argument<'a> {
    /// A number, or a bool as 0 or 1.
    Number(u64),
    /// A slice.
    Bytes(&'a [u8]),
    /// A frame with a message, of which only a part is recorded.
    Message {
        /// Its first sixteen bytes, which have the header of the message.
        head: &'a [u8],
        /// How many bytes it has.
        length: u64,
        /// The CRC-32 of its other bytes.
        checksum: u32,
    },
    /// How long the buffer is for what is written.
    Room(u64),
}

impl<'a> Argument<'a> {
    /// The bytes of a slice. For what isn't recorded of a message there are zeros: the library
    /// answers by the header and the length alone.
    ///
    /// # Errors
    ///
    /// [`ReplayError::Argument`] if it is no slice, [`ReplayError::TooLarge`] if it is a message of
    /// more than `most` bytes, and [`ReplayError::OutOfMemory`] if an allocation fails.
    ///
    /// # Examples
    ///
    /// ```
    /// # use p2p_directory::record::Argument;
    /// assert_eq!(Argument::Bytes(&[1, 2]).bytes(0)?[..], [1, 2]);
    /// assert!(Argument::Number(1).bytes(0).is_err());
    /// # Ok::<(), p2p_directory::record::ReplayError>(())
    /// ```
    pub fn bytes(&self, most: u64) -> Result<Cow<'a, [u8]>, ReplayError> {
        let (head, length) = match *self {
            Argument::Bytes(bytes) => return Ok(Cow::Borrowed(bytes)),
            Argument::Message { head, length, .. } => (head, length),
            Argument::Number(_) | Argument::Room(_) => return Err(ReplayError::Argument),
        };
        let mut bytes = room(length, most)?;
        let front = bytes.get_mut(..head.len());
        front.ok_or(ReplayError::Argument)?.copy_from_slice(head);
        Ok(Cow::Owned(bytes))
    }
}

/// So many zeros, if that isn't more than `most`.
pub(super) fn room(length: u64, most: u64) -> Result<Vec<u8>, ReplayError> {
    if length > most {
        return Err(ReplayError::TooLarge { length, most });
    }
    let length = usize::try_from(length).map_err(|_| ReplayError::Argument)?;
    zeros(length).map_err(|_| ReplayError::OutOfMemory)
}

impl fmt::Debug for Argument<'_> {
    fn fmt(&self, f: &mut fmt::Formatter<'_>) -> fmt::Result {
        match self {
            Argument::Number(number) => write!(f, "{number}"),
            Argument::Room(length) => write!(f, "{length} bytes of room"),
            Argument::Bytes([]) => write!(f, "no bytes"),
            Argument::Bytes(bytes) => hexadecimal(f, bytes),
            Argument::Message {
                head,
                length,
                checksum,
            } => {
                hexadecimal(f, head)?;
                write!(f, ".. ({length} bytes, checksum {checksum:08x})")
            }
        }
    }
}

fn hexadecimal(f: &mut fmt::Formatter<'_>, bytes: &[u8]) -> fmt::Result {
    bytes.iter().try_for_each(|byte| write!(f, "{byte:02x}"))
}

/// A recorded call.
#[derive(Clone, PartialEq, Eq)]
#[non_exhaustive]
pub struct Call<'a> {
    /// How many calls of the log come before it.
    pub place: usize,
    /// What it answered.
    pub answer: Answer,
    number: u8,
    arguments: Vec<Argument<'a>>,
}

impl<'a> Call<'a> {
    /// The number of the call, as in `tools/exports/session.table` of the repository.
    pub(crate) fn number(&self) -> u64 {
        u64::from(self.number)
    }

    /// The name of the call, as in `docs/C.md` of the repository.
    pub fn name(&self) -> &'static str {
        self.form().name
    }

    /// Its arguments, in their order.
    pub fn arguments(&self) -> &[Argument<'a>] {
        &self.arguments
    }

    /// The argument of a parameter, if there is one of this name.
    pub fn argument(&self, name: &str) -> Option<Argument<'a>> {
        let mut parameters = self.form().parameters.iter();
        let place = parameters.position(|(parameter, _)| *parameter == name)?;
        Some(self.arguments[place])
    }

    /// How long the buffer was for what it writes, if it writes anything.
    pub fn room(&self) -> Option<u64> {
        let mut rooms = self.arguments.iter().filter_map(|argument| match argument {
            Argument::Room(length) => Some(*length),
            Argument::Number(_) | Argument::Bytes(_) | Argument::Message { .. } => None,
        });
        rooms.next()
    }

    pub(super) fn form(&self) -> &'static CallForm {
        &CALLS[usize::from(self.number) - 1]
    }
}

impl fmt::Debug for Call<'_> {
    fn fmt(&self, f: &mut fmt::Formatter<'_>) -> fmt::Result {
        write!(f, "record {}, {}(", self.place, self.name())?;
        let parameters = self.form().parameters.iter().zip(&self.arguments);
        for (place, ((name, _), argument)) in parameters.enumerate() {
            let comma = if place == 0 { "" } else { ", " };
            write!(f, "{comma}{name}: {argument:?}")?;
        }
        write!(f, ") -> {:?}", self.answer)
    }
}

/// With what a log begins.
#[derive(Clone, Copy, Debug, PartialEq, Eq)]
#[non_exhaustive]
pub struct Header {
    /// The version of the form of the log.
    pub version: u8,
    /// How many bytes a key has.
    pub key_size: usize,
    /// How many bytes a signature has.
    pub signature_size: usize,
    /// The SHA-256 of the archive of the library that answered.
    pub archive: [u8; 32],
}

/// Why bytes are no log.
#[derive(Clone, Copy, Debug, PartialEq, Eq)]
#[non_exhaustive]
pub enum LogError {
    /// They don't begin as a log does.
    NoLog,
    /// The log has a version of the form that isn't known.
    Version(u8),
    /// This record is of no call, or its arguments and answer are not those of its call, or it is a
    /// last record and others follow it. Records are counted from 0.
    Record(usize),
    /// The checksum or the number of records of the last record is not that of the log.
    Checksum,
}

impl fmt::Display for LogError {
    fn fmt(&self, f: &mut fmt::Formatter<'_>) -> fmt::Result {
        match self {
            LogError::NoLog => write!(f, "these bytes don't begin as a log does"),
            LogError::Version(version) => {
                write!(
                    f,
                    "the log has version {version}, this reads 1 to {VERSION}"
                )
            }
            LogError::Record(place) => write!(f, "record {place} is damaged"),
            LogError::Checksum => write!(f, "the log is damaged: its checksum is another one"),
        }
    }
}

impl std::error::Error for LogError {}

/// A log.
///
/// # Examples
///
/// ```
/// use p2p_directory::record::{Log, LogError};
///
/// assert_eq!(Log::read(b"no log".to_vec()).err(), Some(LogError::NoLog));
/// ```
pub struct Log {
    bytes: Vec<u8>,
    header: Header,
    is_full: bool,
    is_cut: bool,
}

/// How many bytes the header has.
const HEADER_LENGTH: usize = 41;

impl Log {
    /// Reads a log. A record whose end is missing isn't read: a program that is killed leaves one.
    ///
    /// # Errors
    ///
    /// [`LogError`] if the bytes are no log, or it is damaged. Damage of a log that is whole or full
    /// is found by its checksum, but for logs of version 1, which have none.
    pub fn read(bytes: Vec<u8>) -> Result<Log, LogError> {
        let header = header(&bytes)?;
        let mut log = Log {
            bytes,
            header,
            is_full: false,
            is_cut: false,
        };
        let sum = log.checksum()?;
        let mut calls = log.calls();
        let end = loop {
            match calls.read() {
                Ok(Next::Call(_)) => {}
                Ok(end) => break end,
                Err(_damaged) => return Err(LogError::Record(calls.place)),
            }
        };
        let is_last = calls.reader.is_empty();
        (log.is_full, log.is_cut) = match (end, sum) {
            (Next::Full, None) if is_last && header.version == 1 => (true, false),
            (Next::End, None) => (false, header.version > 1),
            (Next::Cut, None) => (false, true),
            (Next::Full, Some(count)) if is_last && count == calls.place as u64 => (true, false),
            (Next::Whole, Some(count)) if is_last && count == calls.place as u64 => (false, false),
            (_, None) => return Err(LogError::Record(calls.place)),
            (_, Some(_)) => return Err(LogError::Checksum),
        };
        Ok(log)
    }

    // The number of records that the last record has, if the log ends with one and its checksum is
    // that of the bytes before it. Logs of version 1 have none.
    fn checksum(&self) -> Result<Option<u64>, LogError> {
        let Some((before, last)) = self.bytes.split_last_chunk::<LAST_RECORD>() else {
            return Ok(None);
        };
        let is_last = last[..3] == [0; 3] && usize::from(last[3]) == LAST_RECORD - 4;
        let is_last = is_last && matches!(last[4], FULL | WHOLE);
        if self.header.version == 1 || before.len() < HEADER_LENGTH || !is_last {
            return Ok(None);
        }
        let mut reader = Reader::new(&last[5..]);
        let told = (reader.number(), reader.array().map(u32::from_be_bytes));
        match told {
            (Ok(count), Ok(sum)) if sum == Checksum::of(before) => Ok(Some(count)),
            _ => Err(LogError::Checksum),
        }
    }

    /// With what it begins.
    pub fn header(&self) -> Header {
        self.header
    }

    /// Whether it ended at its bound, as its last record says.
    pub fn is_full(&self) -> bool {
        self.is_full
    }

    /// Whether its end is missing: the last record, which says that the log is whole or full. In a
    /// log of version 1, which has none, whether the last record is cut off.
    pub fn is_cut(&self) -> bool {
        self.is_cut
    }

    /// Its calls, in their order.
    pub fn calls(&self) -> Calls<'_> {
        Calls {
            reader: Reader::new(&self.bytes[HEADER_LENGTH..]),
            place: 0,
            last: &[],
        }
    }
}

impl fmt::Debug for Log {
    fn fmt(&self, f: &mut fmt::Formatter<'_>) -> fmt::Result {
        f.debug_struct("Log")
            .field("header", &self.header)
            .field("is_full", &self.is_full)
            .field("is_cut", &self.is_cut)
            .finish_non_exhaustive()
    }
}

fn header(bytes: &[u8]) -> Result<Header, LogError> {
    let mut reader = Reader::new(bytes);
    if reader.array() != Ok(MAGIC) {
        return Err(LogError::NoLog);
    }
    let version = match reader.byte() {
        Ok(version @ 1..=VERSION) => version,
        Ok(other) => return Err(LogError::Version(other)),
        Err(_) => return Err(LogError::NoLog),
    };
    let mut sizes = || -> Result<Header, CodecError> {
        Ok(Header {
            version,
            key_size: usize::from(reader.short()?),
            signature_size: usize::from(reader.short()?),
            archive: reader.array()?,
        })
    };
    sizes().map_err(|_| LogError::NoLog)
}

/// The calls of a log.
#[derive(Clone)]
pub struct Calls<'a> {
    reader: Reader<'a>,
    place: usize,
    // The first slice of the last call that had one.
    last: &'a [u8],
}

/// What comes next in a log.
enum Next<'a> {
    Call(Call<'a>),
    /// The last record of a log that ended at its bound.
    Full,
    /// The last record of a log that is whole.
    Whole,
    /// A record whose end is missing.
    Cut,
    End,
}

impl<'a> Calls<'a> {
    fn read(&mut self) -> Result<Next<'a>, CodecError> {
        if self.reader.is_empty() {
            return Ok(Next::End);
        }
        let Ok(length) = self.reader.array().map(u32::from_be_bytes) else {
            return Ok(Next::Cut);
        };
        let Ok(record) = self.reader.take(length as usize) else {
            return Ok(Next::Cut);
        };
        let mut record = Reader::new(record);
        let number = record.byte()?;
        match number {
            FULL => Ok(Next::Full),
            WHOLE => Ok(Next::Whole),
            _ => self.call(number, &mut record).map(Next::Call),
        }
    }

    fn call(&mut self, number: u8, record: &mut Reader<'a>) -> Result<Call<'a>, CodecError> {
        let form = CALLS.get(usize::from(number) - 1);
        let form = form.ok_or(CodecError::InvalidLength(u64::from(number)))?;
        let mut first = None;
        let mut arguments = Vec::new();
        for (_, form) in form.parameters {
            arguments.push(match form {
                Form::Flag | Form::Small | Form::Number => Argument::Number(record.number()?),
                Form::Room => Argument::Room(record.number()?),
                Form::Bytes | Form::Frame => {
                    let slice = self.slice(record, first.is_none())?;
                    first.get_or_insert(match slice {
                        Argument::Bytes(bytes) => bytes,
                        _ => &[],
                    });
                    slice
                }
            });
        }
        self.last = first.unwrap_or(self.last);
        let answer = Answer {
            number: record.number()?,
            bytes: record.clone().rest().to_vec(),
        };
        let place = self.place;
        self.place += 1;
        Ok(Call {
            place,
            answer,
            number,
            arguments,
        })
    }

    fn slice(&self, record: &mut Reader<'a>, is_first: bool) -> Result<Argument<'a>, CodecError> {
        Ok(match record.array().map(u32::from_be_bytes)? {
            REPEATED if is_first => Argument::Bytes(self.last),
            SHORTENED => Argument::Message {
                length: record.number()?,
                head: record.take(MESSAGE_HEAD)?,
                checksum: u32::from_be_bytes(record.array()?),
            },
            length => Argument::Bytes(record.take(length as usize)?),
        })
    }
}

impl<'a> Iterator for Calls<'a> {
    type Item = Call<'a>;

    fn next(&mut self) -> Option<Call<'a>> {
        match self.read() {
            Ok(Next::Call(call)) => Some(call),
            _ => None,
        }
    }
}

impl fmt::Debug for Calls<'_> {
    fn fmt(&self, f: &mut fmt::Formatter<'_>) -> fmt::Result {
        f.debug_struct("Calls")
            .field("place", &self.place)
            .finish_non_exhaustive()
    }
}
