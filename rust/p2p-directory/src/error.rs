//! The errors that calls return.

use std::collections::TryReserveError;
use std::error;
use std::fmt;

/// An allocation of the library or of the crate failed. The call had no effect.
///
/// # Examples
///
/// ```
/// assert_eq!(p2p_directory::OutOfMemory.to_string(), "memory was refused");
/// ```
#[derive(Clone, Copy, Debug, PartialEq, Eq, Hash)]
pub struct OutOfMemory;

/// The reason why no directory or node was created.
///
/// # Examples
///
/// ```
/// use p2p_directory::SetupError;
///
/// assert!(SetupError::Setting.to_string().contains("setting"));
/// ```
#[derive(Clone, Copy, Debug, PartialEq, Eq, Hash)]
#[non_exhaustive]
pub enum SetupError {
    /// An allocation failed.
    OutOfMemory,
    /// `max_sets` is `usize::MAX`, or `max_bit_vec` is above `u32::MAX`.
    Setting,
}

/// The reason why a node didn't register a peer set. Nothing has changed.
///
/// # Examples
///
/// ```
/// # use p2p_directory::*;
/// # let mut setup = testing::setup(9);
/// setup.payload.max_bit_vec = 3;
/// let mut node = Node::new(&setup)?;
/// let set = OrderedSet::from_iter_dedup((1..=4).map(testing::key)).into();
/// let refused = node.track(0, &set).unwrap_err();
/// assert_eq!(refused, TrackError::TooLarge { primary: 4, limit: 3 });
/// assert_eq!(refused.to_string(), "4 primary peers, and frames may have 3 bits");
/// # Ok::<(), SetupError>(())
/// ```
#[derive(Clone, Copy, Debug, PartialEq, Eq, Hash)]
#[non_exhaustive]
pub enum TrackError {
    /// An allocation failed.
    OutOfMemory,
    /// There are more primary peers than [`PayloadConfig::max_bit_vec`](crate::PayloadConfig). The
    /// node would refuse each question about the set, and block correct peers for it.
    TooLarge {
        /// How many primary peers there are.
        primary: usize,
        /// The limit: the maximum number of bits.
        limit: u64,
    },
}

/// The peer isn't reserved, so it can't be connected. Nothing has changed.
///
/// # Examples
///
/// ```
/// assert_eq!(p2p_directory::NotReservedError.to_string(), "the peer is not reserved");
/// ```
#[derive(Clone, Copy, Debug, PartialEq, Eq, Hash)]
pub struct NotReservedError;

/// The reason why an info of a frame, or a list of them, is refused.
///
/// # Examples
///
/// ```
/// use p2p_directory::Error;
///
/// assert_eq!(Error::TooManyPeers(9).to_string(), "too many peers: 9");
/// ```
#[derive(Clone, Copy, Debug, PartialEq, Eq, Hash)]
#[non_exhaustive]
pub enum Error {
    /// There are more infos than are accepted at a time: this many.
    TooManyPeers(u64),
    /// An info has the local key.
    ReceivedSelf,
    /// A signature is invalid.
    InvalidSignature,
    /// A timestamp is too far ahead.
    SynchronyBound,
}

/// The part of a value that is invalid.
///
/// # Examples
///
/// ```
/// use p2p_directory::{CodecError, Hostname, What};
///
/// assert_eq!(Hostname::new("-"), Err(CodecError::Invalid(What::Hostname)));
/// ```
#[derive(Clone, Copy, Debug, PartialEq, Eq, Hash)]
#[non_exhaustive]
pub enum What {
    /// A text that is no hostname.
    Hostname,
    /// Unused bits of the last byte that are not 0.
    Padding,
    /// Bytes that are no key. Only keys whose first byte is bounded, as those of
    /// [`keys33_64`](crate::keys33_64), have such bytes.
    Key,
    /// Bytes that are no signature. Never returned by this crate: any bytes of its sizes are one.
    Signature,
}

/// The first error of bytes that encode no value within the limits.
///
/// # Examples
///
/// ```
/// use p2p_directory::{CodecError, Payload, PayloadConfig};
///
/// let limits = PayloadConfig { max_bit_vec: 8, max_peers: 8, max_data_length: 8 };
/// assert_eq!(Payload::decode(&[4, 0, 1], &limits), Err(CodecError::InvalidEnum(4)));
/// ```
#[derive(Clone, Copy, Debug, PartialEq, Eq, Hash)]
#[non_exhaustive]
pub enum CodecError {
    /// The bytes end inside a value.
    EndOfBuffer,
    /// This many bytes follow the value.
    ExtraData(u64),
    /// A length or a number is outside its limits: this one.
    InvalidLength(u64),
    /// A varint is padded or too large. Its encoding has at most this many bytes.
    InvalidVarint(u64),
    /// A prefix that no variant has.
    InvalidEnum(u8),
    /// A part of the value is invalid: this one.
    Invalid(What),
}

/// The reason why a text is no key, signature or ingress.
///
/// # Examples
///
/// ```
/// use p2p_directory::{Ingress, Key, ParseError};
///
/// assert_eq!("0101".parse::<Key>(), Err(ParseError::Length(4)));
/// assert_eq!("example.com".parse::<Ingress>(), Err(ParseError::Port));
/// ```
#[derive(Clone, Copy, Debug, PartialEq, Eq, Hash)]
#[non_exhaustive]
pub enum ParseError {
    /// There are not two hexadecimal digits for each byte of a key or a signature: this is the
    /// length of the text in bytes.
    Length(usize),
    /// A character is no hexadecimal digit.
    Digit,
    /// No key begins with this byte.
    Key(u8),
    /// There is no port after a colon at the end, or it is above `u16::MAX`.
    Port,
    /// The host has brackets or its last label is a number, and it is no address.
    Address,
    /// The host is no hostname, for this reason.
    Hostname(CodecError),
}

/// A key occurs more than once in a list that was converted to a set.
///
/// # Examples
///
/// ```
/// use p2p_directory::{DuplicateKeyError, Key, OrderedSet};
///
/// assert_eq!(OrderedSet::try_from(vec![Key([1; 32]); 2]), Err(DuplicateKeyError));
/// ```
#[derive(Clone, Copy, Debug, PartialEq, Eq, Hash)]
pub struct DuplicateKeyError;

/// The reason why a reservation was not connected. Nothing has changed.
///
/// # Examples
///
/// ```
/// # use p2p_directory::*;
/// # let (cfg, random) = (testing::config(), || 4_711);
/// # let (mut directory, mut other) = (testing::directory(), testing::directory());
/// # let (peer, now) = (testing::key(1), Moment::from_secs(1));
/// # let _ = directory.track(0, &OrderedSet::from_iter_dedup([peer]).into())?;
/// let reservation = directory.listen(&peer, now, cfg.draw(random()))?.expect("in a set");
/// let refused = other.connect_reserved(&reservation).unwrap_err();
/// assert_eq!(refused, ConnectError::OfAnotherDirectory);
/// assert_eq!(refused.to_string(), "the reservation is of another directory");
/// # Ok::<(), OutOfMemory>(())
/// ```
#[derive(Clone, Copy, Debug, PartialEq, Eq, Hash)]
#[non_exhaustive]
pub enum ConnectError {
    /// The reservation is of another directory.
    OfAnotherDirectory,
    /// The peer is connected already.
    NotReserved,
}

/// The reason why a frame was refused, as an error.
///
/// # Examples
///
/// ```
/// # use p2p_directory::*;
/// # let mut node = Node::new(&testing::setup(9)).unwrap();
/// let refused = node.receive(&[], Moment::EPOCH, testing::verify).accepted().unwrap_err();
/// assert_eq!(refused, RefusedError::Codec(CodecError::EndOfBuffer));
/// assert_eq!(refused.to_string(), "the frame encodes no payload");
/// ```
#[derive(Clone, Copy, Debug, PartialEq, Eq, Hash)]
#[non_exhaustive]
pub enum RefusedError {
    /// The frame encodes no payload within the limits: its first error.
    Codec(CodecError),
    /// The number of bits differs from the number of primary peers.
    Malformed,
    /// An info, or the number of infos, is invalid.
    Invalid(Error),
    /// An allocation failed: the frame may be passed in again.
    OutOfMemory,
}

/// The number of verification results differs from the number of questions. Fewer are accepted only
/// if one of them is false.
///
/// # Examples
///
/// ```
/// # use p2p_directory::*;
/// # let node = Node::new(&testing::setup(9)).unwrap();
/// let frame = Payload::Peers(vec![testing::info(1, 0), testing::info(2, 0)]).encode();
/// let judged = |verdicts: &[bool]| {
///     let questions = node.check(&frame, Moment::from_secs(1)).expect("memory");
///     questions.judged(verdicts.iter().copied()).map(|_| ())
/// };
/// assert_eq!(judged(&[true]), Err(WrongVerdictsError));
/// assert_eq!(judged(&[true, true]), Ok(()));
/// assert_eq!(judged(&[false]), Ok(()));
/// ```
#[derive(Clone, Copy, Debug, PartialEq, Eq, Hash)]
pub struct WrongVerdictsError;

/// The reason why infos are invalid or could not be validated.
///
/// # Examples
///
/// ```
/// # use p2p_directory::{Error, ValidateError};
/// assert_eq!(ValidateError::Invalid(Error::ReceivedSelf).to_string(), "the infos are invalid");
/// ```
#[derive(Clone, Copy, Debug, PartialEq, Eq, Hash)]
#[non_exhaustive]
pub enum ValidateError {
    /// An allocation failed.
    OutOfMemory,
    /// An info, or the number of infos, is invalid.
    Invalid(Error),
}

/// The reason why bytes are no key of a pair whose keys begin with certain bytes.
///
/// # Examples
///
/// ```
/// use p2p_directory::{KeyError, keys33_64};
///
/// assert_eq!(keys33_64::Key::new([4; 33]), Err(KeyError::First(4)));
/// assert_eq!(keys33_64::Key::try_from(&[2; 32][..]), Err(KeyError::Length(32)));
/// ```
#[derive(Clone, Copy, Debug, PartialEq, Eq, Hash)]
#[non_exhaustive]
pub enum KeyError {
    /// There is another number of bytes: this one.
    Length(usize),
    /// No key begins with this byte.
    First(u8),
}

impl fmt::Display for OutOfMemory {
    fn fmt(&self, f: &mut fmt::Formatter<'_>) -> fmt::Result {
        f.write_str("memory was refused")
    }
}

impl fmt::Display for SetupError {
    fn fmt(&self, f: &mut fmt::Formatter<'_>) -> fmt::Result {
        f.write_str(match self {
            SetupError::OutOfMemory => "nothing could be set up",
            SetupError::Setting => "a setting is out of range",
        })
    }
}

impl fmt::Display for TrackError {
    fn fmt(&self, f: &mut fmt::Formatter<'_>) -> fmt::Result {
        match self {
            TrackError::OutOfMemory => f.write_str("the set could not be registered"),
            TrackError::TooLarge { primary, limit } => {
                write!(
                    f,
                    "{primary} primary peers, and frames may have {limit} bits"
                )
            }
        }
    }
}

impl fmt::Display for NotReservedError {
    fn fmt(&self, f: &mut fmt::Formatter<'_>) -> fmt::Result {
        f.write_str("the peer is not reserved")
    }
}

impl fmt::Display for Error {
    fn fmt(&self, f: &mut fmt::Formatter<'_>) -> fmt::Result {
        match self {
            Error::TooManyPeers(count) => write!(f, "too many peers: {count}"),
            Error::ReceivedSelf => f.write_str("received self"),
            Error::InvalidSignature => f.write_str("invalid signature"),
            Error::SynchronyBound => f.write_str("synchrony bound violated"),
        }
    }
}

impl fmt::Display for What {
    fn fmt(&self, f: &mut fmt::Formatter<'_>) -> fmt::Result {
        f.write_str(match self {
            What::Hostname => "hostname",
            What::Padding => "padding",
            What::Key => "key",
            What::Signature => "signature",
        })
    }
}

impl fmt::Display for CodecError {
    fn fmt(&self, f: &mut fmt::Formatter<'_>) -> fmt::Result {
        match self {
            CodecError::EndOfBuffer => f.write_str("the bytes end inside a value"),
            CodecError::ExtraData(count) => write!(f, "{count} bytes follow the value"),
            CodecError::InvalidLength(length) => write!(f, "invalid length: {length}"),
            CodecError::InvalidVarint(size) => write!(f, "invalid varint of {size} bytes at most"),
            CodecError::InvalidEnum(prefix) => write!(f, "invalid prefix: {prefix}"),
            CodecError::Invalid(what) => write!(f, "invalid {what}"),
        }
    }
}

impl fmt::Display for ParseError {
    fn fmt(&self, f: &mut fmt::Formatter<'_>) -> fmt::Result {
        match self {
            ParseError::Length(length) => write!(f, "invalid number of digits: {length}"),
            ParseError::Digit => f.write_str("invalid hexadecimal digit"),
            ParseError::Key(byte) => write!(f, "no key begins with the byte {byte}"),
            ParseError::Port => f.write_str("invalid port"),
            ParseError::Address => f.write_str("invalid address"),
            ParseError::Hostname(_) => f.write_str("the host is no name"),
        }
    }
}

impl error::Error for ParseError {
    fn source(&self) -> Option<&(dyn error::Error + 'static)> {
        match self {
            ParseError::Hostname(fault) => Some(fault),
            _ => None,
        }
    }
}

impl error::Error for OutOfMemory {}
impl error::Error for SetupError {
    fn source(&self) -> Option<&(dyn error::Error + 'static)> {
        match self {
            SetupError::OutOfMemory => Some(&OutOfMemory),
            SetupError::Setting => None,
        }
    }
}

impl error::Error for TrackError {
    fn source(&self) -> Option<&(dyn error::Error + 'static)> {
        match self {
            TrackError::OutOfMemory => Some(&OutOfMemory),
            TrackError::TooLarge { .. } => None,
        }
    }
}

impl error::Error for NotReservedError {}
impl error::Error for Error {}
impl error::Error for CodecError {}

impl From<TryReserveError> for OutOfMemory {
    fn from(_refused: TryReserveError) -> OutOfMemory {
        OutOfMemory
    }
}

impl From<OutOfMemory> for SetupError {
    fn from(_refused: OutOfMemory) -> SetupError {
        SetupError::OutOfMemory
    }
}

impl From<OutOfMemory> for TrackError {
    fn from(_refused: OutOfMemory) -> TrackError {
        TrackError::OutOfMemory
    }
}

impl fmt::Display for DuplicateKeyError {
    fn fmt(&self, f: &mut fmt::Formatter<'_>) -> fmt::Result {
        f.write_str("a key stands more than once")
    }
}

impl error::Error for DuplicateKeyError {}

impl fmt::Display for ConnectError {
    fn fmt(&self, f: &mut fmt::Formatter<'_>) -> fmt::Result {
        match self {
            ConnectError::OfAnotherDirectory => {
                f.write_str("the reservation is of another directory")
            }
            ConnectError::NotReserved => f.write_str("the reservation is connected already"),
        }
    }
}

impl error::Error for ConnectError {
    fn source(&self) -> Option<&(dyn error::Error + 'static)> {
        match self {
            ConnectError::OfAnotherDirectory => None,
            ConnectError::NotReserved => Some(&NotReservedError),
        }
    }
}

impl From<NotReservedError> for ConnectError {
    fn from(_refused: NotReservedError) -> ConnectError {
        ConnectError::NotReserved
    }
}

impl fmt::Display for RefusedError {
    fn fmt(&self, f: &mut fmt::Formatter<'_>) -> fmt::Result {
        match self {
            RefusedError::Codec(_) => f.write_str("the frame encodes no payload"),
            RefusedError::Malformed => f.write_str("the frame has another number of bits"),
            RefusedError::Invalid(_) => f.write_str("the infos of the frame are invalid"),
            RefusedError::OutOfMemory => f.write_str("the frame could not be processed"),
        }
    }
}

impl error::Error for RefusedError {
    fn source(&self) -> Option<&(dyn error::Error + 'static)> {
        match self {
            RefusedError::Codec(fault) => Some(fault),
            RefusedError::Malformed => None,
            RefusedError::Invalid(error) => Some(error),
            RefusedError::OutOfMemory => Some(&OutOfMemory),
        }
    }
}

impl fmt::Display for WrongVerdictsError {
    fn fmt(&self, f: &mut fmt::Formatter<'_>) -> fmt::Result {
        f.write_str("there is not one verdict for each question")
    }
}

impl error::Error for WrongVerdictsError {}

impl fmt::Display for ValidateError {
    fn fmt(&self, f: &mut fmt::Formatter<'_>) -> fmt::Result {
        match self {
            ValidateError::OutOfMemory => f.write_str("the infos could not be validated"),
            ValidateError::Invalid(_) => f.write_str("the infos are invalid"),
        }
    }
}

impl error::Error for ValidateError {
    fn source(&self) -> Option<&(dyn error::Error + 'static)> {
        match self {
            ValidateError::OutOfMemory => Some(&OutOfMemory),
            ValidateError::Invalid(error) => Some(error),
        }
    }
}

impl From<OutOfMemory> for ValidateError {
    fn from(_refused: OutOfMemory) -> ValidateError {
        ValidateError::OutOfMemory
    }
}

impl fmt::Display for KeyError {
    fn fmt(&self, f: &mut fmt::Formatter<'_>) -> fmt::Result {
        match self {
            KeyError::Length(length) => write!(f, "invalid number of bytes: {length}"),
            KeyError::First(byte) => write!(f, "no key begins with the byte {byte}"),
        }
    }
}

impl error::Error for KeyError {}
