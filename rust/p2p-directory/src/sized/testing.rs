//! Keys, infos and a signature scheme without any security, for tests and examples, with the
//! feature `testing`.
//!
//! ```
//! use p2p_directory::testing;
//!
//! let info = testing::info(1, 1000);
//! assert!(info.verify(testing::NAMESPACE, testing::verify));
//! ```
//!
//! For real use, pass your own signature scheme to [`Node::receive`](super::Node::receive) and
//! [`Info::sign`](super::Info::sign).

use super::directory::Directory;
use super::info::Info;
use super::node::Setup;
use super::pair::{Pair, Private};
use super::verification::Question;
use crate::config::{Config, PayloadConfig};
use crate::ingress::Ingress;
use std::net::SocketAddr;
use std::num::NonZeroUsize;
use std::time::Duration;

/// The namespace in which infos of this module are signed.
///
/// # Examples
///
/// ```
/// assert_eq!(p2p_directory::testing::NAMESPACE, b"testing");
/// ```
pub const NAMESPACE: &[u8] = b"testing";

/// The key of a number: zeros, and then the two bytes of the number, the most significant first.
/// Where a key can't begin with 0, its first byte is the least with which it can.
///
/// # Examples
///
/// ```
/// use p2p_directory::testing;
///
/// assert!(testing::key(1) < testing::key(256));
/// ```
#[must_use]
pub fn key<P: Pair>(number: u16) -> P::Key {
    P::Key::filled(|bytes| {
        bytes[0] = P::LEAST_FIRST;
        bytes[P::KEY_SIZE - 2..].copy_from_slice(&number.to_be_bytes());
    })
}

/// The only signature of a key over a namespace and a message. Anybody can create it.
///
/// # Examples
///
/// ```
/// use p2p_directory::testing::{key, sign};
///
/// assert_ne!(sign(&key(1), b"net", b"hello"), sign(&key(1), b"net", b"hullo"));
/// ```
#[must_use]
pub fn sign<P: Pair>(key: &P::Key, namespace: &[u8], message: &[u8]) -> P::Signature {
    let mut hash: u64 = 0;
    let parts = [key.as_ref(), namespace, message];
    for byte in parts.into_iter().flatten() {
        hash = hash.wrapping_mul(257).wrapping_add(u64::from(*byte) + 1);
    }
    P::Signature::filled(|bytes| {
        for chunk in bytes.chunks_mut(8) {
            hash = hash.wrapping_mul(6_364_136_223_846_793_005).wrapping_add(1);
            chunk.copy_from_slice(&hash.to_be_bytes());
        }
    })
}

/// Whether the signature is that of the key over the namespace and the message.
///
/// # Examples
///
/// ```
/// use p2p_directory::{Question, testing};
///
/// let (public_key, namespace, message) = (testing::key(1), b"net".as_slice(), b"hello".as_slice());
/// let signature = testing::sign(&public_key, namespace, message);
/// let question = Question { public_key, namespace, message, signature };
/// assert!(testing::verify(question));
/// assert!(!testing::verify(Question { public_key: testing::key(2), ..question }));
/// ```
#[must_use]
pub fn verify<P: Pair>(question: Question<'_, P>) -> bool {
    let Question {
        public_key,
        namespace,
        message,
        signature,
    } = question;
    sign::<P>(&public_key, namespace, message) == signature
}

/// The info of the key of a number, at the address 1.2.3.4 and the port 8000 plus the number.
///
/// # Examples
///
/// ```
/// use p2p_directory::testing;
///
/// let info = testing::info(1, 1000);
/// assert_eq!(info.ingress.port(), 8001);
/// assert!(info.verify(testing::NAMESPACE, testing::verify));
/// ```
#[must_use]
pub fn info<P: Pair>(number: u16, timestamp: u64) -> Info<P> {
    info_at(number, timestamp, 8000 + number)
}

/// The info of the key of a number, at the address 1.2.3.4 and this port.
///
/// # Examples
///
/// ```
/// use p2p_directory::testing;
///
/// assert_eq!(testing::info_at(1, 1000, 80).ingress.port(), 80);
/// ```
#[must_use]
pub fn info_at<P: Pair>(number: u16, timestamp: u64, port: u16) -> Info<P> {
    let ingress = Ingress::from(SocketAddr::from(([1, 2, 3, 4], port)));
    let key = key::<P>(number);
    Info::sign(key, NAMESPACE, ingress, timestamp, |namespace, message| {
        sign::<P>(&key, namespace, message)
    })
}

/// A configuration with one retained set, a cooldown of ten seconds and blocks of a minute.
///
/// # Examples
///
/// ```
/// assert_eq!(p2p_directory::testing::config().max_sets.get(), 1);
/// ```
#[must_use]
pub fn config() -> Config {
    Config {
        allow_private_ips: true,
        allow_dns: true,
        max_sets: NonZeroUsize::MIN,
        dial_fail_limit: 1,
        peer_connection_cooldown: Duration::from_secs(10),
        block_duration: Duration::from_secs(60),
    }
}

/// A directory with this [`config`], whose local key has the number 9.
///
/// # Panics
///
/// Panics if an allocation fails.
///
/// # Examples
///
/// ```
/// assert_eq!(p2p_directory::testing::directory().tracked(), 0);
/// ```
#[must_use]
pub fn directory<P: Pair>() -> Directory<P> {
    Directory::init(&[], &info(9, 0), config()).expect("memory for a directory")
}

/// The settings of a node with the key of a number.
///
/// # Examples
///
/// ```
/// use p2p_directory::testing;
///
/// assert_eq!(testing::setup(3).myself.public_key, testing::key(3));
/// ```
#[must_use]
pub fn setup<P: Pair>(number: u16) -> Setup<P> {
    Setup {
        bootstrappers: Vec::new(),
        myself: info(number, 0),
        cfg: config(),
        payload: PayloadConfig {
            max_bit_vec: 1024,
            max_peers: 256,
            max_data_length: 4096,
        },
        peer_gossip_max_count: 256,
        synchrony_bound: Duration::from_secs(30),
        namespace: NAMESPACE.to_vec(),
    }
}
