//! Sorted sets of keys, the peers of a set by role, and what registering them returns.

use super::pair::{Pair, Private};
use crate::error::{DuplicateKeyError, OutOfMemory};
use std::ops::Deref;

/// Keys in ascending order, without duplicates. Sets are compared as lists of their keys.
///
/// `collect` and [`OrderedSet::from_iter_dedup`] drop duplicates, and `try_from` refuses them.
///
/// # Examples
///
/// ```
/// use p2p_directory::{Key, OrderedSet};
///
/// let set = OrderedSet::from_iter_dedup([Key([2; 32]), Key([1; 32]), Key([2; 32])]);
/// assert_eq!(set.to_vec(), [Key([1; 32]), Key([2; 32])]);
/// assert_eq!(set.position(&Key([2; 32])), Some(1));
/// ```
#[derive(Clone, Debug, PartialEq, Eq, PartialOrd, Ord, Hash)]
pub struct OrderedSet<P: Pair>(Vec<P::Key>);

impl<P: Pair> Default for OrderedSet<P> {
    fn default() -> OrderedSet<P> {
        OrderedSet(Vec::new())
    }
}

impl<P: Pair> OrderedSet<P> {
    /// Creates a set from keys, and drops duplicates. It aborts the program if an allocation fails.
    ///
    /// # Examples
    ///
    /// ```
    /// # use p2p_directory::{Key, OrderedSet};
    /// assert_eq!(OrderedSet::from_iter_dedup([Key([1; 32]); 3]).len(), 1);
    /// ```
    #[must_use]
    pub fn from_iter_dedup(keys: impl IntoIterator<Item = P::Key>) -> OrderedSet<P> {
        let mut keys: Vec<P::Key> = keys.into_iter().collect();
        keys.sort_unstable();
        keys.dedup();
        OrderedSet(keys)
    }

    /// The position of the key in the set, counted from 0, or `None` if it isn't in the set.
    ///
    /// # Examples
    ///
    /// ```
    /// # use p2p_directory::{Key, OrderedSet};
    /// let set = OrderedSet::from_iter_dedup([Key([1; 32])]);
    /// assert_eq!(set.position(&Key([9; 32])), None);
    /// ```
    #[must_use]
    pub fn position(&self, key: &P::Key) -> Option<usize> {
        self.0.binary_search(key).ok()
    }

    pub(crate) fn write(&self, out: &mut Vec<u8>) -> Result<(), OutOfMemory> {
        out.try_reserve(self.0.len() * P::KEY_SIZE)?;
        for key in &self.0 {
            out.extend_from_slice(key.as_ref());
        }
        Ok(())
    }

    // Reads keys that are written one after the other. They are sorted and distinct.
    pub(crate) fn read(bytes: &[u8]) -> Result<OrderedSet<P>, OutOfMemory> {
        read_keys::<P>(bytes).map(OrderedSet)
    }

    // Reads them as `read` does, into an empty list.
    pub(crate) fn read_into(mut room: Vec<P::Key>, bytes: &[u8]) -> OrderedSet<P> {
        room.extend(keys_of::<P>(bytes));
        OrderedSet(room)
    }
}

fn keys_of<P: Pair>(bytes: &[u8]) -> impl ExactSizeIterator<Item = P::Key> {
    bytes.chunks_exact(P::KEY_SIZE).map(P::Key::of_library)
}

/// Reads keys that are written one after the other.
pub(crate) fn read_keys<P: Pair>(bytes: &[u8]) -> Result<Vec<P::Key>, OutOfMemory> {
    let spelled = keys_of::<P>(bytes);
    let mut keys = Vec::new();
    keys.try_reserve_exact(spelled.len())?;
    keys.extend(spelled);
    Ok(keys)
}

impl<P: Pair> Deref for OrderedSet<P> {
    type Target = [P::Key];

    fn deref(&self) -> &[P::Key] {
        &self.0
    }
}

impl<const N: usize, P: Pair> TryFrom<[P::Key; N]> for OrderedSet<P> {
    type Error = DuplicateKeyError;

    /// Creates a set from these keys, in any order, and fails if a key occurs more than once.
    fn try_from(keys: [P::Key; N]) -> Result<OrderedSet<P>, DuplicateKeyError> {
        OrderedSet::try_from(Vec::from(keys))
    }
}

impl<P: Pair> TryFrom<Vec<P::Key>> for OrderedSet<P> {
    type Error = DuplicateKeyError;

    /// Creates a set from these keys, in any order, and fails if a key occurs more than once.
    fn try_from(mut keys: Vec<P::Key>) -> Result<OrderedSet<P>, DuplicateKeyError> {
        keys.sort_unstable();
        if keys.windows(2).any(|pair| pair[0] == pair[1]) {
            return Err(DuplicateKeyError);
        }
        Ok(OrderedSet(keys))
    }
}

impl<P: Pair> AsRef<[P::Key]> for OrderedSet<P> {
    fn as_ref(&self) -> &[P::Key] {
        &self.0
    }
}

impl<P: Pair> From<OrderedSet<P>> for Vec<P::Key> {
    /// Returns the keys in ascending order. It doesn't allocate.
    fn from(set: OrderedSet<P>) -> Vec<P::Key> {
        set.0
    }
}

impl<P: Pair> IntoIterator for OrderedSet<P> {
    type Item = P::Key;
    type IntoIter = std::vec::IntoIter<P::Key>;

    fn into_iter(self) -> Self::IntoIter {
        self.0.into_iter()
    }
}

impl<P: Pair> FromIterator<P::Key> for OrderedSet<P> {
    /// Creates a set as [`OrderedSet::from_iter_dedup`] does.
    fn from_iter<I: IntoIterator<Item = P::Key>>(keys: I) -> OrderedSet<P> {
        OrderedSet::from_iter_dedup(keys)
    }
}

impl<'a, P: Pair> IntoIterator for &'a OrderedSet<P> {
    type Item = &'a P::Key;
    type IntoIter = std::slice::Iter<'a, P::Key>;

    fn into_iter(self) -> Self::IntoIter {
        self.0.iter()
    }
}

/// The peers of one set, or of all retained sets, by role.
///
/// # Examples
///
/// ```
/// use p2p_directory::{Key, OrderedSet, TrackedPeers};
///
/// let primary = OrderedSet::from_iter_dedup([Key([1; 32])]);
/// assert!(TrackedPeers::from(primary).secondary.is_empty());
/// ```
#[derive(Clone, Debug, PartialEq, Eq, Hash)]
pub struct TrackedPeers<P: Pair> {
    /// The primary peers, whose infos are gossiped.
    pub primary: OrderedSet<P>,
    /// The secondary peers. A peer in both roles is primary only.
    pub secondary: OrderedSet<P>,
}

impl<P: Pair> Default for TrackedPeers<P> {
    fn default() -> TrackedPeers<P> {
        TrackedPeers::from(OrderedSet::default())
    }
}

impl<P: Pair> TrackedPeers<P> {
    /// Creates a value from the peers of both roles.
    ///
    /// # Examples
    ///
    /// ```
    /// # use p2p_directory::{OrderedSet, TrackedPeers};
    /// let none = TrackedPeers::new(OrderedSet::default(), OrderedSet::default());
    /// assert_eq!(none, TrackedPeers::default());
    /// ```
    #[must_use]
    pub fn new(primary: OrderedSet<P>, secondary: OrderedSet<P>) -> TrackedPeers<P> {
        TrackedPeers { primary, secondary }
    }
}

impl<P: Pair> From<OrderedSet<P>> for TrackedPeers<P> {
    /// Creates a value with these primary peers and no secondary ones.
    fn from(primary: OrderedSet<P>) -> TrackedPeers<P> {
        TrackedPeers::new(primary, OrderedSet::default())
    }
}

/// Whether a peer set was registered, and whom to disconnect then.
///
/// # Examples
///
/// ```
/// # use p2p_directory::*;
/// # let mut directory = testing::directory();
/// # let set = OrderedSet::from_iter_dedup([testing::key(1)]).into();
/// match directory.track(7, &set)? {
///     Tracked::Accepted(to_disconnect) => assert!(to_disconnect.is_empty()),
///     Tracked::Stale => unreachable!("it is the first set"),
/// }
/// assert_eq!(directory.track(7, &set)?, Tracked::Stale);
/// # Ok::<(), OutOfMemory>(())
/// ```
///
/// A result that isn't looked at is a warning:
///
/// ```compile_fail
/// #![deny(unused_must_use)]
/// # use p2p_directory::*;
/// fn track(directory: &mut Directory, peers: &TrackedPeers) -> Result<(), OutOfMemory> {
///     directory.track(0, peers)?;
///     Ok(())
/// }
/// ```
///
/// This compiles, and drops it:
///
/// ```
/// #![deny(unused_must_use)]
/// # use p2p_directory::*;
/// fn track(directory: &mut Directory, peers: &TrackedPeers) -> Result<(), OutOfMemory> {
///     let _ = directory.track(0, peers)?;
///     Ok(())
/// }
/// ```
#[derive(Clone, Debug, PartialEq, Eq, Hash)]
#[must_use = "it says which peers must be disconnected"]
pub enum Tracked<P: Pair> {
    /// The set is retained. These peers must be disconnected: they are reserved or connected, were
    /// eligible before, and no longer are.
    Accepted(OrderedSet<P>),
    /// The index isn't above that of each set registered before. Nothing has changed.
    Stale,
}

impl<P: Pair> Tracked<P> {
    /// The peers that must be disconnected, or `None` if the set isn't registered.
    ///
    /// # Examples
    ///
    /// ```
    /// # use p2p_directory::*;
    /// assert_eq!(Tracked::Stale.accepted(), None);
    /// ```
    #[must_use = "these peers must be disconnected"]
    pub fn accepted(self) -> Option<OrderedSet<P>> {
        match self {
            Tracked::Accepted(to_disconnect) => Some(to_disconnect),
            Tracked::Stale => None,
        }
    }
}
