//! Permission to connect to a peer.

use super::super::pair::Pair;
use super::held::Origin;
use crate::ingress::Ingress;
use std::error;
use std::fmt;

/// Permission to connect to a peer, returned by [`Directory::dial`](super::Directory::dial) and
/// [`Directory::listen`](super::Directory::listen). While it is held, the peer can't be reserved
/// again.
///
/// [`Directory::release`](super::Directory::release) gives it back at once. One that is dropped, on
/// whichever thread, is released by the next call of its directory, queries included, before that
/// call returns. Dropping doesn't allocate, and has no effect if the directory was dropped.
///
/// # Examples
///
/// ```
/// # use p2p_directory::*;
/// # let (cfg, random) = (testing::config(), || 4_711);
/// # let mut directory = testing::directory();
/// # let (peer, now) = (testing::key(1), Moment::from_secs(1));
/// # let _ = directory.track(0, &OrderedSet::from_iter_dedup([peer]).into())?;
/// let reservation = directory.listen(&peer, now, cfg.draw(random()))?.expect("in a set");
/// assert!(directory.listen(&peer, now, cfg.draw(random()))?.is_none());
/// directory.release(reservation).expect("its own");
///
/// // After its cooldown it is accepted again, and this time the reservation is dropped.
/// let later = Moment::from_secs(11);
/// let reservation = directory.listen(&peer, later, cfg.draw(random()))?.expect("not reserved");
/// drop(reservation);
/// assert_eq!(directory.status(&peer), Some(Status::Inert));
/// # Ok::<(), OutOfMemory>(())
/// ```
#[must_use = "a reservation that is dropped is released by the next call of its directory"]
pub struct Reservation<P: Pair> {
    metadata: Metadata<P>,
    // `None` after it was given back.
    origin: Option<Origin<P>>,
}

/// The peer of a reservation, and the direction of its connection.
///
/// # Examples
///
/// ```
/// # use p2p_directory::{Key, Metadata};
/// assert_eq!(Metadata::Listener(Key([1; 32])).public_key(), &Key([1; 32]));
/// ```
#[derive(Clone, Debug, PartialEq, Eq, Hash)]
#[non_exhaustive]
pub enum Metadata<P: Pair> {
    /// The peer is dialled at this address.
    Dialer(P::Key, Ingress),
    /// The peer is inbound.
    Listener(P::Key),
}

/// A reservation that was passed to [`Directory::release`](super::Directory::release) is of another
/// directory. Nothing has changed.
///
/// The error gives the reservation back. If the error is dropped, so is the reservation, and its
/// own directory releases it.
///
/// # Examples
///
/// ```
/// # use p2p_directory::*;
/// # let (cfg, random) = (testing::config(), || 4_711);
/// # let (mut directory, mut other) = (testing::directory(), testing::directory());
/// # let (peer, now) = (testing::key(1), Moment::from_secs(1));
/// # let _ = directory.track(0, &OrderedSet::from_iter_dedup([peer]).into())?;
/// let reservation = directory.listen(&peer, now, cfg.draw(random()))?.expect("in a set");
/// let ReleaseError { reservation, .. } = other.release(reservation).unwrap_err();
/// assert!(directory.release(reservation).is_ok());
/// # Ok::<(), OutOfMemory>(())
/// ```
#[derive(Debug)]
#[non_exhaustive]
pub struct ReleaseError<P: Pair> {
    /// The reservation that was passed.
    pub reservation: Reservation<P>,
}

impl<P: Pair> Reservation<P> {
    #[inline]
    pub(super) fn new(metadata: Metadata<P>, origin: Origin<P>) -> Reservation<P> {
        Reservation {
            metadata,
            origin: Some(origin),
        }
    }

    /// The peer of the reservation, and the direction of its connection. For a dial it has the
    /// address to dial. It doesn't allocate.
    ///
    /// # Examples
    ///
    /// ```
    /// # use p2p_directory::*;
    /// # let (cfg, random) = (testing::config(), || 4_711);
    /// # let mut directory = testing::directory();
    /// let (peer, now) = (testing::key(1), Moment::from_secs(1));
    /// assert!(directory.track(0, &OrderedSet::from_iter_dedup([peer]).into())?.accepted().is_some());
    /// directory.update_peers(&[testing::info(1, 1000)])?;
    /// let reservation = directory.dial(&peer, now, cfg.draw(random()))?.expect("its address is known");
    /// let Metadata::Dialer(key, ingress) = reservation.metadata() else { panic!() };
    /// assert_eq!((key, ingress), (&peer, &testing::info(1, 1000).ingress));
    /// # directory.release(reservation).expect("its own");
    /// # Ok::<(), OutOfMemory>(())
    /// ```
    #[must_use]
    #[inline]
    pub fn metadata(&self) -> &Metadata<P> {
        &self.metadata
    }

    /// The key of the peer.
    ///
    /// # Examples
    ///
    /// ```
    /// # use p2p_directory::*;
    /// # let (cfg, random) = (testing::config(), || 4_711);
    /// # let mut directory = testing::directory();
    /// # let (peer, now) = (testing::key(1), Moment::from_secs(1));
    /// # let _ = directory.track(0, &OrderedSet::from_iter_dedup([peer]).into())?;
    /// let reservation = directory.listen(&peer, now, cfg.draw(random()))?.expect("in a set");
    /// assert_eq!(reservation.public_key(), &peer);
    /// # directory.release(reservation).expect("its own");
    /// # Ok::<(), OutOfMemory>(())
    /// ```
    #[must_use]
    #[inline]
    pub fn public_key(&self) -> &P::Key {
        self.metadata.public_key()
    }

    #[inline]
    pub(super) fn is_of(&self, directory: Origin<P>) -> bool {
        self.origin
            .is_some_and(|origin| origin.id() == directory.id())
    }

    /// Returns the peer without giving the reservation back.
    #[inline]
    pub(super) fn into_peer(mut self) -> P::Key {
        self.origin = None;
        *self.public_key()
    }
}

impl<P: Pair> Drop for Reservation<P> {
    #[inline]
    fn drop(&mut self) {
        if let Some(origin) = self.origin {
            origin.leave(*self.public_key());
        }
    }
}

impl<P: Pair> fmt::Debug for Reservation<P> {
    fn fmt(&self, f: &mut fmt::Formatter<'_>) -> fmt::Result {
        f.debug_struct("Reservation")
            .field("metadata", &self.metadata)
            .finish_non_exhaustive()
    }
}

impl<P: Pair> Metadata<P> {
    /// The key of the peer.
    ///
    /// # Examples
    ///
    /// ```
    /// # use p2p_directory::{Key, Metadata};
    /// assert_eq!(Metadata::Listener(Key([2; 32])).public_key(), &Key([2; 32]));
    /// ```
    #[must_use]
    #[inline]
    pub fn public_key(&self) -> &P::Key {
        match self {
            Metadata::Dialer(key, _) | Metadata::Listener(key) => key,
        }
    }

    #[inline]
    pub(super) fn is_dialer(&self) -> bool {
        matches!(self, Metadata::Dialer(..))
    }
}

impl<P: Pair> fmt::Display for Metadata<P> {
    fn fmt(&self, f: &mut fmt::Formatter<'_>) -> fmt::Result {
        match self {
            Metadata::Dialer(key, ingress) => write!(f, "dialer of {key} at {ingress}"),
            Metadata::Listener(key) => write!(f, "listener for {key}"),
        }
    }
}

impl<P: Pair> fmt::Display for ReleaseError<P> {
    fn fmt(&self, f: &mut fmt::Formatter<'_>) -> fmt::Result {
        let peer = self.reservation.public_key();
        write!(f, "the reservation of {peer} is of another directory")
    }
}

impl<P: Pair> error::Error for ReleaseError<P> {}
