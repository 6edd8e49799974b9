//! The peer table of a network whose nodes find each other by signed gossip.
//!
//! The application registers which peers there are. A [`Directory`] decides which of them to dial,
//! which to accept, which are blocked, which connections must be closed, and which infos to share
//! with other nodes. A [`Node`] also decodes frames and replies to them.
//!
//! The crate is a wrapper over a library that is proved in Rattle. Each call of [`Directory`] and
//! [`Node`] is one call of the library, whose reply is what its specification computes from the
//! history of calls. There is no clock, random generator, socket, thread or signature scheme
//! inside: the caller passes in the time, random numbers, frames and a function that verifies
//! signatures.
//!
//! Names and parameters are those of the discovery directory of `commonware-p2p` where possible.
//! The frames are not compatible with it.
//!
//! # Memory
//!
//! A call that returns [`OutOfMemory`], [`SetupError::OutOfMemory`] or [`Received::Memory`] has had
//! no effect, whether an allocation of the library or one of the crate failed. Calls that can't
//! return one of these never allocate, except those that create or copy a value. These are `clone`,
//! `encode`, `decode`, [`Info::sign`], [`Info::signed_bytes`], [`Hostname::new`], `parse`,
//! [`OrderedSet::from_iter_dedup`] and formatting. If an allocation fails, they abort the program,
//! as collections of the standard library do.
//!
//! Buffers are kept between calls, each up to 64 KiB.
//!
//! # Keys of other sizes
//!
//! Keys have 32 bytes and signatures 64, as those of ed25519. The modules [`keys33_64`],
//! [`keys48_96`] and [`keys96_48`] have the same names for keys and signatures of other sizes, and
//! a host names one of them in place of the root. Types that don't depend on the sizes are the same
//! in all. The others are aliases of those in [`sized`], which are generic: [`sized::Pair`] shows
//! code for any sizes.
//!
//! ```
//! use p2p_directory::keys33_64::{Config, Directory, Info, Ingress, Key, Moment, Signature};
//! use p2p_directory::keys33_64::{OrderedSet, Status};
//! use std::net::SocketAddr;
//! use std::num::NonZeroUsize;
//! use std::time::Duration;
//!
//! let cfg = Config {
//!     allow_private_ips: true,
//!     allow_dns: true,
//!     max_sets: NonZeroUsize::MIN,
//!     dial_fail_limit: 1,
//!     peer_connection_cooldown: Duration::from_secs(10),
//!     block_duration: Duration::from_secs(60),
//! };
//! let ingress = Ingress::from(SocketAddr::from(([8, 8, 8, 8], 9000)));
//! let (own, peer) = (Key::new([2; 33])?, Key::new([3; 33])?);
//! let myself = Info::sign(own, b"net", ingress, 0, |_, _| Signature([0; 64]));
//! let mut directory = Directory::init(&[], &myself, cfg)?;
//! assert!(directory.track(0, &OrderedSet::from_iter_dedup([peer]).into())?.accepted().is_some());
//! assert_eq!(directory.status(&peer), Some(Status::Inert));
//! # Ok::<(), Box<dyn std::error::Error>>(())
//! ```
//!
//! A key of one pair of sizes at a directory of another doesn't compile:
//!
//! ```compile_fail,E0308
//! fn status(directory: &p2p_directory::keys33_64::Directory, peer: &p2p_directory::Key) {
//!     directory.status(peer);
//! }
//! ```
//!
//! ```compile_fail,E0308
//! fn status(directory: &p2p_directory::Directory, peer: &p2p_directory::keys33_64::Key) {
//!     directory.status(peer);
//! }
//! ```
//!
//! # Features
//!
//! `testing` adds the module `testing`: keys, infos and a signature scheme without any security,
//! for tests and examples. The examples of this documentation use it.
//!
//! `record` adds the module `record`: logs of the calls of a directory or node, and the program
//! `p2p-replay`, which makes the calls of a log anew and compares the answers.
//!
//! # Examples
//!
//! ```
//! # use p2p_directory::*;
//! # let (cfg, random) = (testing::config(), || 4_711);
//! # let disconnect = |_: &Key| ();
//! let mut directory = testing::directory();
//! let peer = testing::key(1);
//! let peers = OrderedSet::from_iter_dedup([peer]).into();
//! if let Tracked::Accepted(to_disconnect) = directory.track(0, &peers)? {
//!     to_disconnect.iter().for_each(disconnect);
//! }
//! directory.update_peers(&[testing::info(1, 1000)])?;
//!
//! let now = Moment::from_secs(100);
//! for peer in directory.dialable(now)?.peers {
//!     // `random()` is a random `u64` of your generator.
//!     if let Some(reservation) = directory.dial(&peer, now, cfg.draw(random()))? {
//!         // A reservation that is dropped by an error is released.
//!         directory.connect_reserved(&reservation)?;
//!         // .. the connection ..
//!         directory.release(reservation)?;
//!     }
//! }
//! # Ok::<(), Box<dyn std::error::Error>>(())
//! ```

#![forbid(unsafe_code)]

mod answer;
mod codec;
mod config;
mod data;
mod error;
mod ingress;
mod keys;
pub mod keys32_64;
mod memory;
mod moment;
mod pairs;
#[cfg(feature = "record")]
pub mod record;
mod shared;
pub mod sized;
mod sizes;
mod status;
mod text;

pub use config::{Config, PayloadConfig};
pub use data::{BitVec, Data};
pub use error::{
    CodecError, ConnectError, DuplicateKeyError, Error, KeyError, NotReservedError, OutOfMemory,
    ParseError, RefusedError, SetupError, TrackError, ValidateError, What, WrongVerdictsError,
};
pub use ingress::{Hostname, Ingress, is_global};
#[cfg(feature = "record")]
pub use keys32_64::Replay;
#[cfg(any(test, feature = "testing"))]
pub use keys32_64::testing;
pub use keys32_64::{
    Dialable, Directory, Info, InfoVerifier, Judged, KEY_SIZE, Key, Keys32_64, Metadata, Node,
    OrderedSet, Payload, PeerSetUpdate, Question, Questions, QuestionsIter, ReceiveError, Received,
    ReleaseError, Reservation, SIGNATURE_SIZE, Setup, Signature, Tracked, TrackedPeers,
    max_gossip_size,
};
pub use moment::{BeforeEpochError, Moment};
pub use pairs::*;
pub use sizes::{EncodedData, MAX_PAYLOAD_OVERHEAD, max_size};
pub use status::Status;

#[cfg(doctest)]
#[doc = include_str!("../README.md")]
struct Readme;
