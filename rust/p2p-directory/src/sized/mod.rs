//! The types of this crate, for keys and signatures of any pair of sizes.
//!
//! The names at the root of the crate, and those of the modules of other pairs, are aliases of these:
//! [`Directory`](crate::Directory) is [`sized::Directory`](Directory) with
//! [`Keys32_64`](crate::Keys32_64). Code for any pair takes these types with a parameter, as
//! [`Pair`] shows.

mod directory;
mod info;
mod node;
mod pair;
mod payload;
#[cfg(feature = "record")]
mod recorded;
#[cfg(feature = "record")]
mod replay;
mod sets;
#[cfg(any(test, feature = "testing"))]
pub mod testing;
mod verification;
mod verifier;

pub use directory::Spare;
pub use directory::{Dialable, Directory, Metadata, PeerSetUpdate, ReleaseError, Reservation};
pub use info::Info;
pub use node::{Node, Received, Setup};
pub use pair::{Bytes, Pair};
pub(crate) use pair::{Private, Sealed};
pub use payload::{Payload, max_gossip_size};
#[cfg(feature = "record")]
pub use replay::Replay;
pub use sets::{OrderedSet, Tracked, TrackedPeers};
pub use verification::{Judged, Question, Questions, QuestionsIter, ReceiveError};
pub use verifier::InfoVerifier;

/// What makes the calls of a directory: the library.
#[cfg(not(feature = "record"))]
type Calls<P> = p2p_directory_sys::sized::Library<<P as Sealed>::Exports>;

/// What makes the calls of a directory: the library, and they may be recorded.
#[cfg(feature = "record")]
type Calls<P> = recorded::Recorded<P>;

/// The session of a directory.
type Session<P> = p2p_directory_sys::sized::Session<Calls<P>>;
