//! What the types of the crate are generic in.

use super::directory::Spare;
use crate::error::ParseError;
use std::fmt::{Debug, Display};
use std::hash::Hash;
use std::str::FromStr;
use std::sync::Mutex;

/// A pair of sizes, of keys and of signatures. There is one for each pair that the library is
/// compiled for, and nobody can add another: [`Keys32_64`](crate::Keys32_64) is that of the root.
///
/// # Examples
///
/// A function for nodes with keys of any of these sizes:
///
/// ```
/// use p2p_directory::sized::{Node, Pair, Received};
/// use p2p_directory::{Keys32_64, Moment, keys33_64, sized};
///
/// fn greeted<P: Pair>(node: &mut Node<P>, frame: &[u8], now: Moment) -> Option<P::Key> {
///     match node.receive(frame, now, sized::testing::verify) {
///         Received::Greeted(key) => Some(key),
///         _ => None,
///     }
/// }
///
/// fn greets<P: Pair>() -> Option<P::Key> {
///     let mut node = Node::<P>::new(&sized::testing::setup(9)).ok()?;
///     let greeting = sized::Payload::Greeting(sized::testing::info::<P>(1, 0)).encode();
///     greeted(&mut node, &greeting, Moment::EPOCH)
/// }
///
/// assert_eq!(greets::<Keys32_64>(), Some(p2p_directory::testing::key(1)));
/// assert_eq!(greets::<keys33_64::Keys33_64>(), Some(keys33_64::testing::key(1)));
/// ```
pub trait Pair: Copy + Eq + Ord + Hash + Debug + Send + Sync + 'static + Sealed {
    /// A public key: bytes, ordered by them.
    type Key: Bytes;

    /// A signature.
    type Signature: Bytes;

    /// The length of a key, in bytes.
    const KEY_SIZE: usize;

    /// The length of a signature, in bytes.
    const SIGNATURE_SIZE: usize;
}

/// What keys and signatures of all sizes have. Nobody can implement it for another type.
///
/// # Examples
///
/// ```
/// use p2p_directory::sized::Bytes;
///
/// fn shown<B: Bytes>(value: B) -> String {
///     format!("{value}: {} bytes", value.as_ref().len())
/// }
/// let shown = shown(p2p_directory::Key([0; 32]));
/// assert!(shown.ends_with("00: 32 bytes"));
/// ```
pub trait Bytes:
    Copy
    + Ord
    + Hash
    + Debug
    + Display
    + AsRef<[u8]>
    + FromStr<Err = ParseError>
    + Send
    + Sync
    + 'static
    + Private
{
    /// Creates a value from its bytes, or returns `None` if there aren't as many as it has, or it is a
    /// key and no key begins with the first.
    ///
    /// # Examples
    ///
    /// ```
    /// use p2p_directory::{Key, keys33_64, sized::Bytes};
    ///
    /// assert_eq!(Key::of_bytes(&[3; 32]), Some(Key([3; 32])));
    /// assert_eq!(Key::of_bytes(&[3; 31]), None);
    /// assert_eq!(keys33_64::Key::of_bytes(&[4; 33]), None);
    /// ```
    #[must_use]
    fn of_bytes(bytes: &[u8]) -> Option<Self>;
}

/// What only this crate can implement and call.
pub trait Private: Sized {
    /// A value that the library wrote, in as many bytes as it has.
    fn of_library(bytes: &[u8]) -> Self;

    /// The value with the bytes that this writes over zeros.
    fn filled(fill: impl FnOnce(&mut [u8])) -> Self;
}

/// What only this crate can implement and use of a pair.
pub trait Sealed: Sized {
    /// What the library exports for these sizes.
    type Exports: p2p_directory_sys::sized::Pair;

    /// The least byte with which a key begins.
    const LEAST_FIRST: u8;

    /// The slots that no directory uses.
    fn spare() -> &'static Mutex<Spare<Self>>
    where
        Self: Pair;
}
