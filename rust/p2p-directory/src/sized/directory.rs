//! The directory of peers, and what its calls return.

use super::info::{Info, try_write_infos};
use super::pair::Pair;
use super::sets::{OrderedSet, Tracked, TrackedPeers};
use super::{Calls, Session};
use crate::answer::{Kind, OWN, Room, answered, certain, is_certain, is_done, is_true, unknown};
use crate::codec::{ReadError, Reader};
use crate::config::{Config, Limits};
use crate::error::{CodecError, ConnectError, NotReservedError, OutOfMemory, SetupError};
use crate::ingress::{Ingress, MAX_HOSTNAME};
use crate::memory::{MOST_KEPT, give_back_large};
use crate::moment::Moment;
#[cfg(feature = "record")]
use crate::record::{Recorder, Recording};
use p2p_directory_sys::{BAD_SETTING, NOT_RESERVED};
use std::cell::RefCell;
use std::fmt;
use std::time::Duration;

mod held;
mod questions;
mod reservation;

use held::Held;
pub use held::Spare;
pub use reservation::{Metadata, ReleaseError, Reservation};

/// The latest peer set, and the peers of all retained sets.
///
/// # Examples
///
/// ```
/// # use p2p_directory::*;
/// # let mut directory = testing::directory();
/// let set = OrderedSet::from_iter_dedup([testing::key(1)]);
/// assert!(directory.track(7, &set.into())?.accepted().is_some());
/// let PeerSetUpdate { index, latest, all, .. } = directory.latest_update()?.expect("a set");
/// assert_eq!(index, 7);
/// assert_eq!(latest, all);
/// # Ok::<(), OutOfMemory>(())
/// ```
#[derive(Clone, Debug, PartialEq, Eq, Hash)]
#[non_exhaustive]
pub struct PeerSetUpdate<P: Pair> {
    /// The index of the latest set.
    pub index: u64,
    /// The peers of the latest set.
    pub latest: TrackedPeers<P>,
    /// The peers of all retained sets. A peer that is primary in one of them is primary only.
    pub all: TrackedPeers<P>,
}

/// The peers that may be dialled at a time, and when to ask again.
///
/// # Examples
///
/// ```
/// # use p2p_directory::Dialable;
/// assert_eq!(Dialable::default().next_query_at, None);
/// ```
#[derive(Clone, Debug, PartialEq, Eq, Hash)]
#[non_exhaustive]
pub struct Dialable<P: Pair> {
    /// The peers that may be dialled, in ascending order.
    pub peers: Vec<P::Key>,
    /// When to ask again. Without calls in between, `peers` stays the same before that time, or
    /// forever if this is `None`.
    pub next_query_at: Option<Moment>,
}

impl<P: Pair> Default for Dialable<P> {
    /// No peers, and no time to ask again.
    fn default() -> Dialable<P> {
        Dialable {
            peers: Vec::new(),
            next_query_at: None,
        }
    }
}

/// The directory of peers. It has the retained sets, and a record of each peer that is in one of
/// them, a bootstrapper, reserved or connected.
///
/// Each call is one call of the proved library, whose reply is what its specification computes from
/// the history of calls. `docs/RUST.md` of the repository says where the proof ends. A directory is
/// `Send` and not `Sync`. The time may go backwards from call to call.
///
/// # Examples
///
/// ```
/// use p2p_directory::{
///     Config, Directory, Info, Ingress, Key, Moment, OrderedSet, Signature, Status,
/// };
/// use std::net::SocketAddr;
/// use std::num::NonZeroUsize;
/// use std::time::Duration;
///
/// let cfg = Config {
///     allow_private_ips: true,
///     allow_dns: true,
///     max_sets: NonZeroUsize::MIN,
///     dial_fail_limit: 1,
///     peer_connection_cooldown: Duration::from_secs(10),
///     block_duration: Duration::from_secs(60),
/// };
/// let ingress = Ingress::from(SocketAddr::from(([8, 8, 8, 8], 9000)));
/// let myself = Info::sign(Key([9; 32]), b"net", ingress, 0, |_, _| Signature([0; 64]));
/// let mut directory = Directory::init(&[], &myself, cfg)?;
///
/// # let random = || 4_711;
/// let peer = Key([1; 32]);
/// assert!(directory.track(0, &OrderedSet::from_iter_dedup([peer]).into())?.accepted().is_some());
/// let now = Moment::from_secs(100);
/// let reservation = directory.listen(&peer, now, cfg.draw(random()))?.expect("the peer is acceptable");
/// assert_eq!(directory.status(&peer), Some(Status::Reserved));
/// // .. the connection ..
/// directory.release(reservation).expect("it is this directory's");
/// assert_eq!(directory.status(&peer), Some(Status::Inert));
/// # Ok::<(), Box<dyn std::error::Error>>(())
/// ```
///
/// It can be sent to another thread:
///
/// ```
/// fn is_sent<T: Send>() {}
/// is_sent::<p2p_directory::Directory>();
/// ```
///
/// but not shared between threads:
///
/// ```compile_fail,E0277
/// fn is_shared<T: Sync>() {}
/// is_shared::<p2p_directory::Directory>();
/// ```
pub struct Directory<P: Pair> {
    held: Held<P>,
    // The namespace in which infos are signed.
    namespace: Vec<u8>,
    // Buffers for the arguments and the results of calls.
    input: RefCell<Vec<u8>>,
    output: RefCell<Room>,
    // The buffers for the address of the next dial: its encoding, and its host name.
    address: [u8; 1 + Ingress::MAX_ENCODE_SIZE],
    name: String,
}

/// The initial length of the buffer for results. It is enough for the result of each call that
/// changes something, except `track`.
const FIRST_ROOM: usize = 512;

impl<P: Pair> Directory<P> {
    /// Creates a directory that retains no set and blocks nobody.
    ///
    /// If a key occurs twice among the bootstrappers, the later one counts. The local info replaces
    /// a bootstrapper with its key. The arguments are copied into the library.
    ///
    /// # Errors
    ///
    /// [`SetupError::OutOfMemory`] if an allocation fails, and [`SetupError::Setting`] if
    /// `cfg.max_sets` is `usize::MAX`.
    ///
    /// # Examples
    ///
    /// ```
    /// # use p2p_directory::{Config, Directory, Info, Ingress, Key, SetupError, Signature};
    /// # use std::{net::SocketAddr, num::NonZeroUsize, time::Duration};
    /// # let mut cfg = Config { allow_private_ips: true, allow_dns: true, max_sets: NonZeroUsize::MIN,
    /// #     dial_fail_limit: 1, peer_connection_cooldown: Duration::ZERO, block_duration: Duration::ZERO };
    /// # let ingress = Ingress::from(SocketAddr::from(([8, 8, 8, 8], 9000)));
    /// # let myself = Info::sign(Key([9; 32]), b"", ingress.clone(), 0, |_, _| Signature([0; 64]));
    /// let directory = Directory::init(&[(Key([1; 32]), ingress)], &myself, cfg)?;
    /// assert_eq!(directory.tracked(), 1);
    ///
    /// cfg.max_sets = NonZeroUsize::MAX;
    /// assert_eq!(Directory::init(&[], &myself, cfg).err(), Some(SetupError::Setting));
    /// # Ok::<(), SetupError>(())
    /// ```
    pub fn init(
        bootstrappers: &[(P::Key, Ingress)],
        myself: &Info<P>,
        cfg: Config,
    ) -> Result<Directory<P>, SetupError> {
        let session = new_session::<P>()?;
        Directory::with_limits(session, bootstrappers, myself, &cfg, Limits::none())
    }

    /// Creates a directory as [`Directory::init`] does, and records that call and each later one.
    ///
    /// # Errors
    ///
    /// Those of [`Directory::init`]. The log has the refused call.
    ///
    /// # Examples
    ///
    /// ```
    /// # use p2p_directory::{*, record::{Recorder, Recording}};
    /// # let setup = testing::setup(9);
    /// # let (myself, cfg) = (setup.myself, setup.cfg);
    /// let recorder = Recorder::new(std::io::sink(), 1 << 20);
    /// let directory = Directory::init_recorded(&[], &myself, cfg, recorder)?;
    /// assert_eq!(directory.recording(), Some(Recording::Going));
    /// # Ok::<(), SetupError>(())
    /// ```
    #[cfg(feature = "record")]
    pub fn init_recorded(
        bootstrappers: &[(P::Key, Ingress)],
        myself: &Info<P>,
        cfg: Config,
        recorder: Recorder,
    ) -> Result<Directory<P>, SetupError> {
        let session = new_session::<P>()?;
        session.caller().record(recorder);
        Directory::with_limits(session, bootstrappers, myself, &cfg, Limits::none())
    }

    pub(crate) fn with_limits(
        session: Session<P>,
        bootstrappers: &[(P::Key, Ingress)],
        myself: &Info<P>,
        cfg: &Config,
        limits: Limits,
    ) -> Result<Directory<P>, SetupError> {
        let spelled = spelled::<P>(bootstrappers)?;
        let mut own = Vec::new();
        myself.try_write(&mut own)?;
        let output = Room::new(FIRST_ROOM)?;
        let answer = session.init(
            cfg.allow_private_ips,
            cfg.allow_dns,
            cfg.max_sets.get() as u64,
            cfg.dial_fail_limit as u64,
            cfg.peer_connection_cooldown.as_secs(),
            cfg.peer_connection_cooldown.subsec_nanos(),
            cfg.block_duration.as_secs(),
            cfg.block_duration.subsec_nanos(),
            limits.payload.max_bit_vec,
            limits.payload.max_peers as u64,
            limits.payload.max_data_length as u64,
            limits.peer_gossip_max_count as u64,
            limits.synchrony_bound.as_secs(),
            limits.synchrony_bound.subsec_nanos(),
            &limits.namespace,
            &spelled,
            &own,
        );
        match answer {
            BAD_SETTING => return Err(SetupError::Setting),
            answer => is_done(answer)?,
        };
        Ok(Directory {
            held: Held::new(session)?,
            namespace: limits.namespace,
            input: RefCell::new(Vec::new()),
            output: RefCell::new(output),
            address: [0; 1 + Ingress::MAX_ENCODE_SIZE],
            name: String::new(),
        })
    }

    /// Registers a peer set if its index is above that of each set registered before.
    ///
    /// If more than [`Config::max_sets`] sets are retained then, the oldest is dropped. Returns the
    /// peers that must be disconnected, or [`Tracked::Stale`] if the index isn't above.
    ///
    /// A directory by itself takes sets of any size. [`Node::track`](super::Node::track) refuses one
    /// about which the node could not be asked.
    ///
    /// # Errors
    ///
    /// [`OutOfMemory`] if an allocation fails; then nothing has changed.
    ///
    /// # Examples
    ///
    /// ```
    /// # use p2p_directory::*;
    /// # let mut directory = testing::directory();
    /// # let draw = testing::config().draw(4_711);
    /// let set = |key| OrderedSet::from_iter_dedup([testing::key(key)]).into();
    /// assert_eq!(directory.track(7, &set(1))?, Tracked::Accepted(OrderedSet::default()));
    /// assert_eq!(directory.track(7, &set(2))?, Tracked::Stale);
    /// let (peer, now) = (testing::key(1), Moment::from_secs(100));
    /// let reservation = directory.listen(&peer, now, draw)?.expect("in a set");
    /// let Tracked::Accepted(to_disconnect) = directory.track(8, &set(2))? else { panic!() };
    /// assert_eq!(to_disconnect.to_vec(), [peer]);
    /// # directory.release(reservation).expect("its own");
    /// # Ok::<(), OutOfMemory>(())
    /// ```
    pub fn track(
        &mut self,
        index: u64,
        peers: &TrackedPeers<P>,
    ) -> Result<Tracked<P>, OutOfMemory> {
        let tracked = self.try_track(index, peers);
        give_back_large(self.input.get_mut());
        self.output.get_mut().give_back();
        tracked
    }

    fn try_track(
        &mut self,
        index: u64,
        peers: &TrackedPeers<P>,
    ) -> Result<Tracked<P>, OutOfMemory> {
        let keys = self.input.get_mut();
        keys.clear();
        peers.primary.write(keys)?;
        let split = keys.len();
        peers.secondary.write(keys)?;
        let (primary, secondary) = keys.split_at(split);
        let session = self.held.session();
        let out = self.output.get_mut();
        let out = out.least(session.track_room() as usize)?;
        // Each peer that must be disconnected is held, so nothing is allocated after the set is
        // registered.
        let mut torn = Vec::new();
        torn.try_reserve_exact(self.held.count())?;
        let length = answered(session.track(index, primary, secondary, out))?;
        let torn = length.map(|length| OrderedSet::read_into(torn, &out[..length as usize]));
        Ok(torn.map_or(Tracked::Stale, Tracked::Accepted))
    }

    /// Reserves the peer for a dial at the time `now`, at its known address.
    ///
    /// Returns `None` and changes nothing unless the peer has a record and is eligible, not blocked
    /// and neither reserved nor connected. In addition, its address must be known and allowed, and
    /// its cooldown must be over.
    ///
    /// `draw` is jitter: how much later than reservable the peer is dialable again. Draw one for
    /// each call, by [`Config::draw`] from a random number. With a jitter that is always zero, nodes
    /// that start together dial each other at the same times: each dial meets the other node's, both
    /// are refused, and that goes on. A jitter above twice the half of
    /// [`Config::peer_connection_cooldown`] counts as that.
    ///
    /// # Errors
    ///
    /// [`OutOfMemory`] if an allocation fails; then nothing has changed.
    ///
    /// # Examples
    ///
    /// ```
    /// # use p2p_directory::*;
    /// # let cfg = testing::config();
    /// # let mut directory = testing::directory();
    /// # let (peer, now) = (testing::key(1), Moment::from_secs(1));
    /// # let random = || 4_711;
    /// # let _ = directory.track(0, &OrderedSet::from_iter_dedup([peer]).into())?;
    /// // Its address is not known yet.
    /// assert!(directory.dial(&peer, now, cfg.draw(random()))?.is_none());
    ///
    /// directory.update_peers(&[testing::info(1, 1000)])?;
    /// let reservation = directory.dial(&peer, now, cfg.draw(random()))?.expect("may be dialled");
    /// assert_eq!(reservation.public_key(), &peer);
    /// # directory.release(reservation).expect("its own");
    /// # Ok::<(), OutOfMemory>(())
    /// ```
    #[inline]
    pub fn dial(
        &mut self,
        peer: &P::Key,
        now: Moment,
        draw: Duration,
    ) -> Result<Option<Reservation<P>>, OutOfMemory> {
        let (seconds, nanos) = now.parts();
        let (draw_seconds, draw_nanos) = (draw.as_secs(), draw.subsec_nanos());
        // There is space for the longest name before anything is granted.
        self.name.try_reserve_exact(MAX_HOSTNAME)?;
        let is_granted = self.held.grant(|session| {
            session.dial(peer.as_ref(), seconds, nanos, draw_seconds, draw_nanos)
        })?;
        if !is_granted {
            return Ok(None);
        }
        let metadata = Metadata::Dialer(*peer, self.dialled(peer));
        Ok(Some(Reservation::new(metadata, self.held.origin())))
    }

    // The address of a granted dial. It doesn't allocate, since `name` has the capacity for the
    // longest.
    #[inline]
    fn dialled(&mut self, peer: &P::Key) -> Ingress {
        let out = &mut self.address;
        let length = certain(self.held.session().reservation(peer.as_ref(), out));
        let mut reader = Reader::new(&out[..length as usize]);
        match reader.byte().expect(OWN) {
            1 => Ingress::read_into(&mut self.name, &mut reader).expect(OWN),
            other => unknown(other.into()),
        }
    }

    /// Reserves the peer for an inbound connection at the time `now`.
    ///
    /// Returns `None` and changes nothing unless the peer is eligible, not blocked and neither
    /// reserved nor connected, and its cooldown is over.
    ///
    /// `draw` is jitter, drawn for each call by [`Config::draw`], as for [`Directory::dial`].
    ///
    /// # Errors
    ///
    /// [`OutOfMemory`] if an allocation fails; then nothing has changed.
    ///
    /// # Examples
    ///
    /// ```
    /// # use p2p_directory::*;
    /// # let cfg = testing::config();
    /// # let mut directory = testing::directory();
    /// # let random = || 4_711;
    /// let (peer, now) = (testing::key(1), Moment::from_secs(1));
    /// assert!(directory.listen(&peer, now, cfg.draw(random()))?.is_none());
    /// let to_disconnect = directory.track(0, &OrderedSet::from_iter_dedup([peer]).into())?;
    /// assert_eq!(to_disconnect, Tracked::Accepted(OrderedSet::default()));
    /// let reservation = directory.listen(&peer, now, cfg.draw(random()))?.expect("in a set");
    /// assert_eq!(reservation.public_key(), &peer);
    /// # directory.release(reservation).expect("its own");
    /// # Ok::<(), OutOfMemory>(())
    /// ```
    #[inline]
    pub fn listen(
        &mut self,
        peer: &P::Key,
        now: Moment,
        draw: Duration,
    ) -> Result<Option<Reservation<P>>, OutOfMemory> {
        let (seconds, nanos) = now.parts();
        let (draw_seconds, draw_nanos) = (draw.as_secs(), draw.subsec_nanos());
        let is_granted = self.held.grant(|session| {
            session.listen(peer.as_ref(), seconds, nanos, draw_seconds, draw_nanos)
        })?;
        Ok(is_granted.then(|| Reservation::new(Metadata::Listener(*peer), self.held.origin())))
    }

    /// Marks a reserved peer as connected. `dialer` says whether the local node dialled it; if so,
    /// its count of failed dials is reset.
    ///
    /// # Errors
    ///
    /// [`NotReservedError`] if the peer isn't reserved; then nothing has changed.
    ///
    /// # Examples
    ///
    /// ```
    /// # use p2p_directory::*;
    /// # let mut directory = testing::directory();
    /// assert_eq!(directory.connect(&testing::key(1), false), Err(NotReservedError));
    /// ```
    #[inline]
    pub fn connect(&mut self, peer: &P::Key, dialer: bool) -> Result<(), NotReservedError> {
        match self.session().connect(peer.as_ref(), dialer) {
            NOT_RESERVED => Err(NotReservedError),
            1 => Ok(()),
            other => unknown(other),
        }
    }

    /// Marks the peer of a reservation as connected. It was dialled by the local node if
    /// [`Directory::dial`] returned the reservation.
    ///
    /// # Errors
    ///
    /// [`ConnectError`] if the reservation is of another directory or its peer is connected
    /// already; then nothing has changed.
    ///
    /// # Examples
    ///
    /// ```
    /// # use p2p_directory::*;
    /// # let (cfg, random) = (testing::config(), || 4_711);
    /// # let mut directory = testing::directory();
    /// # let (peer, now) = (testing::key(1), Moment::from_secs(1));
    /// # let _ = directory.track(0, &OrderedSet::from_iter_dedup([peer]).into())?;
    /// let reservation = directory.listen(&peer, now, cfg.draw(random()))?.expect("in a set");
    /// directory.connect_reserved(&reservation)?;
    /// assert_eq!(directory.status(&peer), Some(Status::Active));
    /// assert_eq!(directory.connect_reserved(&reservation), Err(ConnectError::NotReserved));
    /// # directory.release(reservation).expect("its own");
    /// # Ok::<(), Box<dyn std::error::Error>>(())
    /// ```
    #[inline]
    pub fn connect_reserved(&mut self, reservation: &Reservation<P>) -> Result<(), ConnectError> {
        if !reservation.is_of(self.held.origin()) {
            return Err(ConnectError::OfAnotherDirectory);
        }
        let metadata = reservation.metadata();
        Ok(self.connect(metadata.public_key(), metadata.is_dialer())?)
    }

    /// Releases a reservation, and with it the connection of its peer.
    ///
    /// The release of a reservation that [`Directory::dial`] returned counts as one failed dial of
    /// its address, even if the peer was connected.
    ///
    /// # Errors
    ///
    /// [`ReleaseError`] if the reservation is of another directory, which gives it back; then
    /// nothing has changed.
    ///
    /// # Examples
    ///
    /// ```
    /// # use p2p_directory::*;
    /// # let (cfg, random) = (testing::config(), || 4_711);
    /// # let (mut directory, mut other) = (testing::directory(), testing::directory());
    /// # let (peer, now) = (testing::key(1), Moment::from_secs(1));
    /// # let _ = directory.track(0, &OrderedSet::from_iter_dedup([peer]).into())?;
    /// let reservation = directory.listen(&peer, now, cfg.draw(random()))?.expect("in a set");
    /// let refused = other.release(reservation).unwrap_err();
    /// directory.release(refused.reservation).expect("its own");
    /// # Ok::<(), OutOfMemory>(())
    /// ```
    #[inline]
    // The error gives the reservation back, which has the key.
    #[allow(clippy::result_large_err)]
    pub fn release(&mut self, reservation: Reservation<P>) -> Result<(), ReleaseError<P>> {
        if !reservation.is_of(self.held.origin()) {
            return Err(ReleaseError { reservation });
        }
        self.held.release(&reservation.into_peer());
        Ok(())
    }

    /// Updates the infos of peers, in any order.
    ///
    /// Of the known info of a peer and those in the list, its record keeps the first with the
    /// greatest timestamp. The local info stays, and an info of a peer without a record is dropped.
    /// Signatures are not verified: pass only infos that were signed locally or verified before.
    ///
    /// # Errors
    ///
    /// [`OutOfMemory`] if an allocation fails; then nothing has changed.
    ///
    /// # Panics
    ///
    /// Panics if there are more than `u32::MAX` infos; then nothing has changed.
    ///
    /// # Examples
    ///
    /// ```
    /// # use p2p_directory::*;
    /// # let mut directory = testing::directory();
    /// let peer = testing::key(1);
    /// assert!(directory.track(0, &OrderedSet::from_iter_dedup([peer]).into())?.accepted().is_some());
    /// directory.update_peers(&[testing::info(1, 1000)])?;
    /// assert_eq!(directory.dialable(Moment::from_secs(1))?.peers, [peer]);
    /// # Ok::<(), OutOfMemory>(())
    /// ```
    pub fn update_peers(&mut self, infos: &[Info<P>]) -> Result<(), OutOfMemory> {
        let spelled = self.input.get_mut();
        spelled.clear();
        let is_taken = try_write_infos(spelled, infos)
            .and_then(|()| is_done(self.held.session().update_peers(spelled)));
        give_back_large(spelled);
        is_taken
    }

    /// Blocks the peer from the time `now` on, for [`Config::block_duration`], whether or not it
    /// has a record.
    ///
    /// Returns false and changes nothing for the local key, and for a peer that is blocked at
    /// `now`.
    ///
    /// # Errors
    ///
    /// [`OutOfMemory`] if an allocation fails; then nothing has changed.
    ///
    /// # Examples
    ///
    /// ```
    /// # use p2p_directory::*;
    /// # let mut directory = testing::directory();
    /// let (peer, now) = (testing::key(1), Moment::from_secs(1));
    /// assert!(directory.block(&peer, now)?);
    /// assert!(!directory.block(&peer, now)?);
    /// assert_eq!(directory.next_unblock(), Some(Moment::from_secs(61)));
    /// # Ok::<(), OutOfMemory>(())
    /// ```
    #[inline]
    pub fn block(&mut self, peer: &P::Key, now: Moment) -> Result<bool, OutOfMemory> {
        let (seconds, nanos) = now.parts();
        is_true(self.session().block(peer.as_ref(), seconds, nanos))
    }

    /// Ends the blocks that last until the time `now` or an earlier one, and returns whether there
    /// were any.
    ///
    /// # Examples
    ///
    /// ```
    /// # use p2p_directory::*;
    /// # let mut directory = testing::directory();
    /// assert!(!directory.unblock_expired(Moment::MAX));
    /// ```
    #[inline]
    pub fn unblock_expired(&mut self, now: Moment) -> bool {
        let (seconds, nanos) = now.parts();
        is_certain(self.session().unblock_expired(seconds, nanos))
    }

    /// Forgets the cooldown of each peer whose dial time is at or before `now`, and returns how
    /// many there were. A cooldown outlasts the record of its peer until it is forgotten.
    ///
    /// # Examples
    ///
    /// ```
    /// # use p2p_directory::*;
    /// # let mut directory = testing::directory();
    /// assert_eq!(directory.forget_cooled(Moment::MAX), 0);
    /// ```
    #[inline]
    pub fn forget_cooled(&mut self, now: Moment) -> usize {
        let (seconds, nanos) = now.parts();
        certain(self.session().forget_cooled(seconds, nanos)) as usize
    }

    /// How the recording of its calls stands, or `None` if they aren't recorded. Never allocates.
    ///
    /// # Examples
    ///
    /// ```
    /// # use p2p_directory::*;
    /// assert_eq!(testing::directory().recording(), None);
    /// ```
    #[cfg(feature = "record")]
    pub fn recording(&self) -> Option<Recording> {
        self.session().caller().recording()
    }

    /// Flushes what the recorder writes to, so that the log has each call that was made. A failure
    /// ends the recording, as [`Directory::recording`] then says. Never allocates by itself.
    ///
    /// # Examples
    ///
    /// ```
    /// # use p2p_directory::*;
    /// testing::directory().flush_record();
    /// ```
    #[cfg(feature = "record")]
    pub fn flush_record(&self) {
        self.session().caller().flush_record();
    }

    /// Ends the recording with the record that says that the log is whole, and flushes it. Later calls
    /// aren't recorded. A directory that is dropped does this by itself; a process that ends otherwise
    /// leaves a log whose end is missing. Never allocates by itself.
    ///
    /// # Examples
    ///
    /// ```
    /// # use p2p_directory::{*, record::{Recorder, Recording}};
    /// # let setup = testing::setup(9);
    /// # let (myself, cfg) = (setup.myself, setup.cfg);
    /// let recorder = Recorder::new(std::io::sink(), 1 << 20);
    /// let directory = Directory::init_recorded(&[], &myself, cfg, recorder)?;
    /// directory.end_record();
    /// assert_eq!(directory.recording(), Some(Recording::Ended));
    /// # Ok::<(), SetupError>(())
    /// ```
    #[cfg(feature = "record")]
    pub fn end_record(&self) {
        self.session().caller().end_record();
    }

    // The session, after each dropped reservation is released.
    #[inline]
    pub(crate) fn session(&self) -> &Session<P> {
        self.held.session()
    }

    // The number of this directory, unique in the process among those with keys of its size.
    pub(crate) fn id(&self) -> u64 {
        self.held.origin().id()
    }

    pub(crate) fn namespace(&self) -> &[u8] {
        &self.namespace
    }

    // Space for the infos that answer so many bits, at most those of the connected peers and of the
    // local node, as far as a buffer of this size is kept.
    pub(crate) fn room_for_infos(&self, bits: usize) -> usize {
        let shared = bits.min(self.held.count() + 1);
        let room = shared.saturating_mul(Info::<P>::max_encode_size());
        room.saturating_add(FIRST_ROOM).min(MOST_KEPT)
    }

    // Calls the library with at least so much space for its result, and reads the result.
    pub(crate) fn question_in<T>(
        &self,
        kind: Kind,
        room: usize,
        ask: impl Fn(&Session<P>, &mut [u8]) -> u64,
        read: impl FnOnce(&[u8]) -> Result<T, ReadError>,
    ) -> Result<Option<T>, OutOfMemory> {
        let session = self.session();
        let mut out = self.output.borrow_mut();
        out.asked(kind, room, |out| ask(session, out), read)
    }

    // Calls the library, and reads the result.
    fn question<T>(
        &self,
        kind: Kind,
        ask: impl Fn(&Session<P>, &mut [u8]) -> u64,
        read: impl FnOnce(&[u8]) -> Result<T, ReadError>,
    ) -> Result<Option<T>, OutOfMemory> {
        self.question_in(kind, 0, ask, read)
    }

    // Calls the library for a short result. It doesn't allocate.
    fn certain_question<T>(
        &self,
        ask: impl FnOnce(&Session<P>, &mut [u8]) -> u64,
        read: impl FnOnce(&[u8]) -> Result<T, CodecError>,
    ) -> Option<T> {
        let mut out = [0; 16];
        let length = answered(ask(self.session(), &mut out)).expect(OWN)?;
        Some(read(&out[..length as usize]).expect(OWN))
    }
}

/// Formats the sizes of keys and signatures, and how many reservations are out, dropped ones that
/// aren't released yet among them. It makes no call, so it stands in no log and releases nothing.
impl<P: Pair> fmt::Debug for Directory<P> {
    fn fmt(&self, f: &mut fmt::Formatter<'_>) -> fmt::Result {
        f.debug_struct("Directory")
            .field("key_size", &P::KEY_SIZE)
            .field("signature_size", &P::SIGNATURE_SIZE)
            .field("reservations", &self.held.count())
            .finish_non_exhaustive()
    }
}

/// A session with no node.
pub(super) fn new_session<P: Pair>() -> Result<Session<P>, OutOfMemory> {
    Ok(Session::<P>::of(Calls::<P>::new().ok_or(OutOfMemory)?))
}

// The encoding of bootstrappers: keys and ingresses, one after the other.
fn spelled<P: Pair>(bootstrappers: &[(P::Key, Ingress)]) -> Result<Vec<u8>, OutOfMemory> {
    let sizes = bootstrappers.iter();
    let size: usize = sizes
        .map(|(_, ingress)| P::KEY_SIZE + ingress.encode_size())
        .sum();
    let mut spelled = Vec::new();
    spelled.try_reserve_exact(size)?;
    for (key, ingress) in bootstrappers {
        spelled.extend_from_slice(key.as_ref());
        ingress.write(&mut spelled);
    }
    Ok(spelled)
}
