//! A session with the reservations that it granted. Those that were dropped are released before the
//! next call.

use super::super::Session;
use super::super::pair::Pair;
use crate::answer::{is_true, unknown};
use crate::error::OutOfMemory;
use std::cell::Cell;
use std::sync::atomic::{AtomicU64, AtomicUsize, Ordering};
use std::sync::{Mutex, MutexGuard, PoisonError};

/// Holds the reservations of a directory that were dropped, until it releases them.
///
/// Reservations and the directory share it, and any of them may outlive the others. Rust has no
/// shared pointer with fallible allocation, so slots are never freed: the slot of a directory that
/// was dropped is used by the next one that is created.
struct Slot<P: Pair> {
    // How many keys there are. It is read without the lock.
    count: AtomicUsize,
    left: Mutex<Left<P>>,
}

struct Left<P: Pair> {
    // The directory that uses the slot at present.
    directory: u64,
    // It has capacity for a key of each reservation that is held.
    peers: Vec<P::Key>,
}

/// The slots that no directory uses, with capacity for all that were created.
pub struct Spare<P: Pair> {
    slots: Vec<&'static Slot<P>>,
    made: usize,
}

static NEXT_ID: AtomicU64 = AtomicU64::new(0);

impl<P: Pair> Spare<P> {
    /// No slot was created yet.
    pub(crate) const fn none() -> Spare<P> {
        Spare {
            slots: Vec::new(),
            made: 0,
        }
    }
}

/// The directory of a reservation, to which it is given back.
#[derive(Clone, Copy)]
pub(super) struct Origin<P: Pair> {
    slot: &'static Slot<P>,
    directory: u64,
}

/// A session with its reservations, which is used through [`Held::session`] alone.
pub(super) struct Held<P: Pair> {
    session: Session<P>,
    origin: Origin<P>,
    // How many reservations were granted and not released.
    count: Cell<usize>,
    // For how many reservations the slot has capacity.
    room: usize,
}

// Each critical section leaves the value consistent, so a poisoned lock can be used.
fn locked<T>(mutex: &Mutex<T>) -> MutexGuard<'_, T> {
    mutex.lock().unwrap_or_else(PoisonError::into_inner)
}

impl<P: Pair> Slot<P> {
    fn made() -> Result<&'static Slot<P>, OutOfMemory> {
        let mut one = Vec::new();
        one.try_reserve_exact(1)?;
        one.push(Slot {
            count: AtomicUsize::new(0),
            left: Mutex::new(Left {
                directory: u64::MAX,
                peers: Vec::new(),
            }),
        });
        Ok(&one.leak()[0])
    }

    fn taken() -> Result<&'static Slot<P>, OutOfMemory> {
        let mut spare = locked(P::spare());
        if let Some(slot) = spare.slots.pop() {
            return Ok(slot);
        }
        let made = spare.made + 1;
        spare.slots.try_reserve(made)?;
        let slot = Slot::made()?;
        spare.made = made;
        Ok(slot)
    }

    // Takes a key of a dropped reservation.
    fn take_left(&self) -> Option<P::Key> {
        let mut left = locked(&self.left);
        let peer = left.peers.pop();
        self.count.store(left.peers.len(), Ordering::Relaxed);
        peer
    }

    // The next directory must not see the reservations of this one, which have no effect from now
    // on.
    fn put_back(&'static self) {
        *locked(&self.left) = Left {
            directory: u64::MAX,
            peers: Vec::new(),
        };
        self.count.store(0, Ordering::Relaxed);
        locked(P::spare()).slots.push(self);
    }
}

impl<P: Pair> Origin<P> {
    fn of_new_directory() -> Result<Origin<P>, OutOfMemory> {
        let slot = Slot::taken()?;
        let directory = NEXT_ID.fetch_add(1, Ordering::Relaxed);
        locked(&slot.left).directory = directory;
        Ok(Origin { slot, directory })
    }

    /// The number of the directory, unique in the process among those with keys of its size.
    #[inline]
    pub(super) fn id(self) -> u64 {
        self.directory
    }

    /// Leaves a dropped reservation to its directory, unless that was dropped. It doesn't allocate:
    /// there is capacity for it.
    pub(super) fn leave(self, peer: P::Key) {
        let mut left = locked(&self.slot.left);
        if left.directory == self.directory {
            left.peers.push(peer);
            self.slot.count.store(left.peers.len(), Ordering::Relaxed);
        }
    }
}

impl<P: Pair> Held<P> {
    pub(super) fn new(session: Session<P>) -> Result<Held<P>, OutOfMemory> {
        Ok(Held {
            session,
            origin: Origin::of_new_directory()?,
            count: Cell::new(0),
            room: 0,
        })
    }

    #[inline]
    pub(super) fn origin(&self) -> Origin<P> {
        self.origin
    }

    /// The session, after each dropped reservation is released.
    ///
    /// If a thread saw that a reservation was dropped, on whichever thread, it also sees its count
    /// here.
    #[inline]
    pub(super) fn session(&self) -> &Session<P> {
        if self.origin.slot.count.load(Ordering::Relaxed) != 0 {
            self.release_left();
        }
        &self.session
    }

    // One after the other, and the slot isn't locked meanwhile: a release may call the sink of a
    // log, which may drop reservations.
    #[cold]
    fn release_left(&self) {
        while let Some(peer) = self.origin.slot.take_left() {
            self.count.set(self.count.get() - 1);
            release::<P>(&self.session, &peer);
        }
    }

    /// How many reservations were granted and not released.
    #[inline]
    pub(super) fn count(&self) -> usize {
        self.count.get()
    }

    /// Requests a grant, after making space for the drop of its reservation.
    #[inline]
    pub(super) fn grant(
        &mut self,
        ask: impl FnOnce(&Session<P>) -> u64,
    ) -> Result<bool, OutOfMemory> {
        self.session();
        if self.count.get() == self.room {
            self.make_room()?;
        }
        let is_granted = is_true(ask(&self.session))?;
        self.count.set(self.count.get() + usize::from(is_granted));
        Ok(is_granted)
    }

    #[cold]
    fn make_room(&mut self) -> Result<(), OutOfMemory> {
        let mut left = locked(&self.origin.slot.left);
        let more = self.count.get() + 1 - left.peers.len();
        left.peers.try_reserve(more)?;
        self.room = left.peers.capacity();
        Ok(())
    }

    /// Releases a reservation that is of this session and was not dropped.
    #[inline]
    pub(super) fn release(&self, peer: &P::Key) {
        release::<P>(self.session(), peer);
        self.count.set(self.count.get() - 1);
    }
}

#[inline]
fn release<P: Pair>(session: &Session<P>, peer: &P::Key) {
    match session.release(peer.as_ref()) {
        1 => {}
        other => unknown(other),
    }
}

impl<P: Pair> Drop for Held<P> {
    fn drop(&mut self) {
        self.origin.slot.put_back();
    }
}
