//! The queries of a directory. None of these calls changes anything.

use super::super::Session;
use super::super::info::{Info, read_infos};
use super::super::pair::Pair;
use super::super::sets::{OrderedSet, TrackedPeers, read_keys};
use super::{Dialable, Directory, PeerSetUpdate};
use crate::answer::{Kind, OWN, certain, is_certain, unknown};
use crate::codec::{ReadError, Reader};
use crate::data::BitVec;
use crate::error::OutOfMemory;
use crate::ingress::Ingress;
use crate::memory::give_back_large;
use crate::moment::Moment;
use crate::status::Status;
use p2p_directory_sys::NONE;

impl<P: Pair> Directory<P> {
    /// When the next block ends, or `None` if there is no block. A block that has ended counts
    /// until [`Directory::unblock_expired`] removes it.
    ///
    /// # Examples
    ///
    /// ```
    /// # use p2p_directory::*;
    /// # let directory = testing::directory();
    /// assert_eq!(directory.next_unblock(), None);
    /// ```
    #[must_use]
    pub fn next_unblock(&self) -> Option<Moment> {
        self.certain_question(Session::<P>::next_unblock, |bytes| {
            Reader::new(bytes).moment()
        })
    }

    /// The peers that are blocked at the time `now`, in ascending order.
    ///
    /// # Errors
    ///
    /// [`OutOfMemory`] if an allocation fails.
    ///
    /// # Panics
    ///
    /// Panics if the result of the library can't be read, which is a bug.
    ///
    /// # Examples
    ///
    /// ```
    /// # use p2p_directory::*;
    /// # let directory = testing::directory();
    /// assert!(directory.blocked_peers(Moment::EPOCH)?.is_empty());
    /// # Ok::<(), OutOfMemory>(())
    /// ```
    pub fn blocked_peers(&self, now: Moment) -> Result<OrderedSet<P>, OutOfMemory> {
        let (seconds, nanos) = now.parts();
        let blocked = self.question(
            Kind::Blocked,
            |session, out| session.blocked_peers(seconds, nanos, out),
            |bytes| Ok(OrderedSet::read(bytes)?),
        )?;
        Ok(blocked.expect(OWN))
    }

    /// The peers of the retained set with this index, or `None` if there is no such set.
    ///
    /// # Errors
    ///
    /// [`OutOfMemory`] if an allocation fails.
    ///
    /// # Examples
    ///
    /// ```
    /// # use p2p_directory::*;
    /// # let mut directory = testing::directory();
    /// let peers = TrackedPeers::from(OrderedSet::from_iter_dedup([testing::key(1)]));
    /// assert!(directory.track(5, &peers.clone())?.accepted().is_some());
    /// assert_eq!(directory.get_peer_set(5)?, Some(peers));
    /// # Ok::<(), OutOfMemory>(())
    /// ```
    pub fn get_peer_set(&self, index: u64) -> Result<Option<TrackedPeers<P>>, OutOfMemory> {
        self.question(
            Kind::PeerSet,
            |session, out| session.get_peer_set(index, out),
            read_peers,
        )
    }

    /// The latest set with its index, and the peers of all retained sets, or `None` if no set was
    /// registered.
    ///
    /// # Errors
    ///
    /// [`OutOfMemory`] if an allocation fails.
    ///
    /// # Examples
    ///
    /// ```
    /// # use p2p_directory::*;
    /// # let directory = testing::directory();
    /// assert_eq!(directory.latest_update()?, None);
    /// # Ok::<(), OutOfMemory>(())
    /// ```
    pub fn latest_update(&self) -> Result<Option<PeerSetUpdate<P>>, OutOfMemory> {
        self.question(Kind::Update, Session::<P>::latest_update, read_update)
    }

    /// The index of the latest set, or `None` if no set was registered.
    ///
    /// # Examples
    ///
    /// ```
    /// # use p2p_directory::*;
    /// # let directory = testing::directory();
    /// assert_eq!(directory.latest_set_index(), None);
    /// ```
    #[must_use]
    pub fn latest_set_index(&self) -> Option<u64> {
        self.certain_question(Session::<P>::latest_set_index, |bytes| {
            Reader::new(bytes).number()
        })
    }

    /// The peers of all retained sets. A peer that is primary in one of them is primary only.
    ///
    /// # Errors
    ///
    /// [`OutOfMemory`] if an allocation fails.
    ///
    /// # Panics
    ///
    /// Panics if the result of the library can't be read, which is a bug.
    ///
    /// # Examples
    ///
    /// ```
    /// # use p2p_directory::*;
    /// # let directory = testing::directory();
    /// assert_eq!(directory.all()?, TrackedPeers::default());
    /// # Ok::<(), OutOfMemory>(())
    /// ```
    pub fn all(&self) -> Result<TrackedPeers<P>, OutOfMemory> {
        let all = self.question(Kind::All, Session::<P>::all, read_peers)?;
        Ok(all.expect(OWN))
    }

    /// Whether the peer is reserved or connected, or `None` if there is no record of it.
    ///
    /// # Examples
    ///
    /// ```
    /// # use p2p_directory::*;
    /// # let directory = testing::directory();
    /// assert_eq!(directory.status(&testing::key(1)), None);
    /// ```
    #[must_use]
    #[inline]
    pub fn status(&self, peer: &P::Key) -> Option<Status> {
        match self.session().status(peer.as_ref()) {
            NONE => None,
            0 => Some(Status::Inert),
            1 => Some(Status::Reserved),
            2 => Some(Status::Active),
            other => unknown(other),
        }
    }

    /// The info of the peer if it may be shared: the local info, and that of a connected peer.
    /// Otherwise `None`.
    ///
    /// # Errors
    ///
    /// [`OutOfMemory`] if an allocation fails.
    ///
    /// # Examples
    ///
    /// ```
    /// # use p2p_directory::*;
    /// # let directory = testing::directory();
    /// let own = directory.info(&testing::key(9))?.expect("the local info");
    /// assert_eq!(own.timestamp, 0);
    /// # Ok::<(), OutOfMemory>(())
    /// ```
    pub fn info(&self, peer: &P::Key) -> Result<Option<Info<P>>, OutOfMemory> {
        self.question(
            Kind::Info,
            |session, out| session.info(peer.as_ref(), out),
            |bytes| Info::read(&mut Reader::new(bytes)),
        )
    }

    /// The address that is held of the peer, whoever it is and whether or not it may be dialled:
    /// that of its newest info, else that of the last bootstrapper with its key, and of the local
    /// node its own. `None` if the peer has no record, or no address is known.
    ///
    /// # Errors
    ///
    /// [`OutOfMemory`] if an allocation fails.
    ///
    /// # Examples
    ///
    /// ```
    /// # use p2p_directory::*;
    /// # let mut directory = testing::directory();
    /// assert_eq!(directory.ingress(&testing::key(1))?, None);
    /// let own = directory.info(&testing::key(9))?.expect("the local info");
    /// assert_eq!(directory.ingress(&testing::key(9))?, Some(own.ingress));
    /// # Ok::<(), OutOfMemory>(())
    /// ```
    pub fn ingress(&self, peer: &P::Key) -> Result<Option<Ingress>, OutOfMemory> {
        self.question(
            Kind::Ingress,
            |session, out| session.ingress(peer.as_ref(), out),
            |bytes| Ingress::read(&mut Reader::new(bytes)),
        )
    }

    /// The infos to send to a peer that sent these bits, at the time `now`.
    ///
    /// They are the infos of those primary peers of the set whose bit is false, in the order of
    /// keys. An info is left out if it may not be shared, or its timestamp is above `now` in whole
    /// milliseconds.
    ///
    /// The list is empty if no retained set has the index. Returns `None` if the number of bits
    /// differs from the number of primary peers.
    ///
    /// # Errors
    ///
    /// [`OutOfMemory`] if an allocation fails.
    ///
    /// # Panics
    ///
    /// Panics if there are more than `u32::MAX` bits.
    ///
    /// # Examples
    ///
    /// ```
    /// # use p2p_directory::*;
    /// # let directory = testing::directory();
    /// let bits = BitVec { index: 3, bits: vec![false; 4] };
    /// assert_eq!(directory.infos(&bits, Moment::EPOCH)?, Some(Vec::new()));
    /// # Ok::<(), OutOfMemory>(())
    /// ```
    pub fn infos(
        &self,
        bit_vec: &BitVec,
        now: Moment,
    ) -> Result<Option<Vec<Info<P>>>, OutOfMemory> {
        let (seconds, nanos) = now.parts();
        let mut spelled = self.input.borrow_mut();
        spelled.clear();
        let infos = bit_vec.try_write(&mut spelled).and_then(|()| {
            self.question_in(
                Kind::Infos,
                self.room_for_infos(bit_vec.bits.len()),
                |session, out| session.infos(&spelled, seconds, nanos, out),
                |bytes| read_infos(&mut Reader::new(bytes), u64::MAX),
            )
        });
        give_back_large(&mut spelled);
        infos
    }

    /// The bits of the retained set at a position, counted from 0 in the order of indices, or
    /// `None` if there is no such position.
    ///
    /// A bit says of a primary peer whether its info is known and not wanted. For a random set,
    /// pass a random position below [`Directory::retained`].
    ///
    /// # Errors
    ///
    /// [`OutOfMemory`] if an allocation fails.
    ///
    /// # Examples
    ///
    /// ```
    /// # use p2p_directory::*;
    /// # let mut directory = testing::directory();
    /// assert!(directory.track(5, &OrderedSet::from_iter_dedup([testing::key(1)]).into())?.accepted().is_some());
    /// let bits = BitVec { index: 5, bits: vec![false] };
    /// assert_eq!(directory.get_random_bit_vec(0)?, Some(bits));
    /// # Ok::<(), OutOfMemory>(())
    /// ```
    pub fn get_random_bit_vec(&self, place: usize) -> Result<Option<BitVec>, OutOfMemory> {
        self.question(
            Kind::Bits,
            |session, out| session.get_random_bit_vec(place as u64, out),
            |bytes| BitVec::read(&mut Reader::new(bytes), u64::MAX),
        )
    }

    /// Whether the peer may be connected at the time `now`: it is in a retained set or a
    /// bootstrapper, not blocked, and not the local node.
    ///
    /// # Examples
    ///
    /// ```
    /// # use p2p_directory::*;
    /// # let directory = testing::directory();
    /// assert!(!directory.eligible(&testing::key(9), Moment::EPOCH));
    /// ```
    #[must_use]
    #[inline]
    pub fn eligible(&self, peer: &P::Key, now: Moment) -> bool {
        let (seconds, nanos) = now.parts();
        is_certain(self.session().eligible(peer.as_ref(), seconds, nanos))
    }

    /// Whether an inbound connection of the peer may be accepted at the time `now`: it is eligible,
    /// and neither reserved nor connected.
    ///
    /// # Examples
    ///
    /// ```
    /// # use p2p_directory::*;
    /// # let directory = testing::directory();
    /// assert!(!directory.acceptable(&testing::key(1), Moment::EPOCH));
    /// ```
    #[must_use]
    #[inline]
    pub fn acceptable(&self, peer: &P::Key, now: Moment) -> bool {
        let (seconds, nanos) = now.parts();
        is_certain(self.session().acceptable(peer.as_ref(), seconds, nanos))
    }

    /// Whether [`Directory::listen`] would grant the peer a reservation at the time `now`, if memory
    /// suffices: it is acceptable, and its cooldown is over.
    ///
    /// # Examples
    ///
    /// ```
    /// # use p2p_directory::*; use std::time::Duration;
    /// # let mut directory = testing::directory();
    /// # let (peer, now) = (testing::key(1), Moment::from_secs(1));
    /// # let _ = directory.track(0, &OrderedSet::from_iter_dedup([peer]).into())?;
    /// assert!(directory.may_listen(&peer, now));
    /// // Its cooldown is ten seconds.
    /// drop(directory.listen(&peer, now, Duration::ZERO)?);
    /// assert!(!directory.may_listen(&peer, Moment::from_secs(10)));
    /// assert!(directory.may_listen(&peer, Moment::from_secs(11)));
    /// # Ok::<(), OutOfMemory>(())
    /// ```
    #[must_use]
    #[inline]
    pub fn may_listen(&self, peer: &P::Key, now: Moment) -> bool {
        let (seconds, nanos) = now.parts();
        is_certain(self.session().may_listen(peer.as_ref(), seconds, nanos))
    }

    /// The peers that may be dialled at the time `now`, and when to ask again.
    ///
    /// # Errors
    ///
    /// [`OutOfMemory`] if an allocation fails.
    ///
    /// # Panics
    ///
    /// Panics if the result of the library can't be read, which is a bug.
    ///
    /// # Examples
    ///
    /// ```
    /// # use p2p_directory::*;
    /// # let directory = testing::directory();
    /// assert_eq!(directory.dialable(Moment::EPOCH)?, Dialable::default());
    /// # Ok::<(), OutOfMemory>(())
    /// ```
    pub fn dialable(&self, now: Moment) -> Result<Dialable<P>, OutOfMemory> {
        let (seconds, nanos) = now.parts();
        let dialable = self.question(
            Kind::Dialable,
            |session, out| session.dialable(seconds, nanos, out),
            read_dialable,
        )?;
        Ok(dialable.expect(OWN))
    }

    /// How many sets are retained. [`Directory::get_random_bit_vec`] and
    /// [`Node::ask`](super::super::Node::ask) have a set at each position below this number.
    ///
    /// # Examples
    ///
    /// ```
    /// # use p2p_directory::*;
    /// # let mut directory = testing::directory();
    /// assert_eq!(directory.retained(), 0);
    /// assert!(directory.track(5, &OrderedSet::from_iter_dedup([testing::key(1)]).into())?.accepted().is_some());
    /// assert_eq!(directory.retained(), 1);
    /// # Ok::<(), OutOfMemory>(())
    /// ```
    #[must_use]
    #[inline]
    pub fn retained(&self) -> usize {
        certain(self.session().retained()) as usize
    }

    /// When [`Directory::forget_cooled`] next forgets a cooldown: the earliest dial time of those
    /// that are kept, or `None` if there are none. It may be in the past.
    ///
    /// # Examples
    ///
    /// ```
    /// # use p2p_directory::*; use std::time::Duration;
    /// # let mut directory = testing::directory();
    /// # let (peer, now) = (testing::key(1), Moment::from_secs(1));
    /// # let _ = directory.track(0, &OrderedSet::from_iter_dedup([peer]).into())?;
    /// assert_eq!(directory.next_cooled(), None);
    /// // Its cooldown is ten seconds.
    /// let reservation = directory.listen(&peer, now, Duration::from_secs(2))?;
    /// assert_eq!(directory.next_cooled(), Some(Moment::from_secs(13)));
    /// # Ok::<(), OutOfMemory>(())
    /// ```
    #[must_use]
    pub fn next_cooled(&self) -> Option<Moment> {
        self.certain_question(Session::<P>::next_cooled, |bytes| {
            Reader::new(bytes).moment()
        })
    }

    /// How many peers have a record, not counting the local node.
    ///
    /// # Examples
    ///
    /// ```
    /// # use p2p_directory::*;
    /// # let directory = testing::directory();
    /// assert_eq!(directory.tracked(), 0);
    /// ```
    #[must_use]
    #[inline]
    pub fn tracked(&self) -> usize {
        certain(self.session().tracked()) as usize
    }
}

fn read_peers<P: Pair>(bytes: &[u8]) -> Result<TrackedPeers<P>, ReadError> {
    let mut reader = Reader::new(bytes);
    let primary = reader.number()?;
    let primary = read_set(&mut reader, primary)?;
    let secondary = OrderedSet::read(reader.rest())?;
    Ok(TrackedPeers::new(primary, secondary))
}

fn read_update<P: Pair>(bytes: &[u8]) -> Result<PeerSetUpdate<P>, ReadError> {
    let mut reader = Reader::new(bytes);
    let index = reader.number()?;
    let (primary, secondary, all) = (reader.number()?, reader.number()?, reader.number()?);
    let latest = TrackedPeers::new(
        read_set(&mut reader, primary)?,
        read_set(&mut reader, secondary)?,
    );
    let all = read_set(&mut reader, all)?;
    let all = TrackedPeers::new(all, OrderedSet::read(reader.rest())?);
    Ok(PeerSetUpdate { index, latest, all })
}

fn read_dialable<P: Pair>(bytes: &[u8]) -> Result<Dialable<P>, ReadError> {
    let mut reader = Reader::new(bytes);
    let next_query_at = match reader.byte()? {
        0 => None,
        1 => Some(reader.moment()?),
        other => unknown(other.into()),
    };
    Ok(Dialable {
        peers: read_keys::<P>(reader.rest())?,
        next_query_at,
    })
}

fn read_set<P: Pair>(reader: &mut Reader<'_>, count: u64) -> Result<OrderedSet<P>, ReadError> {
    let keys = reader.take(count as usize * P::KEY_SIZE)?;
    Ok(OrderedSet::read(keys)?)
}
