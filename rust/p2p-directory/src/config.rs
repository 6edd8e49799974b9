//! The settings of directories and nodes, whatever sizes their keys have.

use std::num::NonZeroUsize;
use std::time::Duration;

/// The settings of a directory.
///
/// # Examples
///
/// ```
/// use p2p_directory::Config;
/// use std::num::NonZeroUsize;
/// use std::time::Duration;
///
/// let cfg = Config {
///     allow_private_ips: false,
///     allow_dns: true,
///     max_sets: NonZeroUsize::new(4).unwrap(),
///     dial_fail_limit: 3,
///     peer_connection_cooldown: Duration::from_secs(10),
///     block_duration: Duration::from_secs(3600),
/// };
/// assert!(!cfg.allow_private_ips);
/// ```
#[derive(Clone, Copy, Debug, PartialEq, Eq, Hash)]
pub struct Config {
    /// Whether addresses that are not [global](crate::is_global) may be dialled.
    pub allow_private_ips: bool,
    /// Whether names may be dialled.
    pub allow_dns: bool,
    /// How many peer sets are retained, below `usize::MAX`.
    pub max_sets: NonZeroUsize,
    /// After how many failed dials a peer's info is requested again.
    pub dial_fail_limit: usize,
    /// The minimum time between two reservations of one peer.
    pub peer_connection_cooldown: Duration,
    /// How long a block lasts.
    pub block_duration: Duration,
}

impl Config {
    /// The jitter of a reservation, for [`Directory::dial`](crate::Directory::dial) and
    /// [`Directory::listen`](crate::Directory::listen), from a random number: `random` modulo the
    /// number of nanoseconds from zero to twice the half of the cooldown, both included. The half is
    /// rounded down.
    ///
    /// If `random` is drawn uniformly from all numbers, once for each call, the jitter is uniform
    /// over that range. For cooldowns above 584 years it is at most `u64::MAX` nanoseconds.
    ///
    /// # Examples
    ///
    /// ```
    /// # let cfg = p2p_directory::testing::config();
    /// use std::time::Duration;
    ///
    /// assert_eq!(cfg.peer_connection_cooldown, Duration::from_secs(10));
    /// assert_eq!(cfg.draw(4_711), Duration::from_nanos(4_711));
    /// assert_eq!(cfg.draw(10_000_000_000), Duration::from_secs(10));
    /// assert_eq!(cfg.draw(10_000_000_001), Duration::ZERO);
    /// ```
    #[must_use]
    pub fn draw(&self, random: u64) -> Duration {
        let half = self.peer_connection_cooldown.as_nanos() / 2;
        let jitter = u128::from(random) % (2 * half + 1);
        Duration::from_nanos(jitter as u64)
    }
}

/// The limits under which frames are decoded.
///
/// # Examples
///
/// ```
/// use p2p_directory::{CodecError, Payload, PayloadConfig};
///
/// let limits = PayloadConfig { max_bit_vec: 8, max_peers: 8, max_data_length: 4 };
/// let frame = [0, 1, 5, b'h', b'e', b'l', b'l', b'o'];
/// assert_eq!(Payload::decode(&frame, &limits), Err(CodecError::InvalidLength(5)));
/// ```
#[derive(Clone, Copy, Debug, PartialEq, Eq, Hash)]
pub struct PayloadConfig {
    /// The maximum number of bits, at most `u32::MAX`.
    pub max_bit_vec: u64,
    /// The maximum number of infos.
    pub max_peers: usize,
    /// The maximum length of a message, in bytes.
    pub max_data_length: usize,
}

/// The settings of a node in addition to those of its directory.
pub(crate) struct Limits {
    pub(crate) payload: PayloadConfig,
    pub(crate) peer_gossip_max_count: usize,
    pub(crate) synchrony_bound: Duration,
    pub(crate) namespace: Vec<u8>,
}

impl Limits {
    /// Those of a directory without a node, which decodes no frames.
    pub(crate) fn none() -> Limits {
        Limits {
            payload: PayloadConfig {
                max_bit_vec: u64::from(u32::MAX),
                max_peers: usize::MAX,
                max_data_length: usize::MAX,
            },
            peer_gossip_max_count: usize::MAX,
            synchrony_bound: Duration::MAX,
            namespace: Vec::new(),
        }
    }
}
