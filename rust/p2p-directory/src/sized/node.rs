//! A node: a directory that verifies the infos of frames, and replies to frames.

use super::Session;
use super::directory::{Directory, new_session};
use super::info::Info;
use super::pair::{Pair, Private};
use super::payload::{Payload, greeting_of, reply_of};
use super::sets::{Tracked, TrackedPeers};
use super::verification::{
    Judged, NOTHING_TOLD, Question, Questions, ReceiveError, read_told, write_verdicts,
};
use crate::answer::{Kind, OWN, Room, own, unknown};
use crate::codec::{ReadError, Reader};
use crate::config::{Config, Limits, PayloadConfig};
use crate::data::BitVec;
use crate::error::{CodecError, Error, OutOfMemory, RefusedError, SetupError, TrackError, What};
use crate::ingress::Ingress;
use crate::memory::{copied, give_back_large, lengthen};
use crate::moment::Moment;
#[cfg(feature = "record")]
use crate::record::Recorder;
use std::ops::Range;
use std::time::Duration;

/// The settings of a node.
///
/// # Examples
///
/// ```
/// # use p2p_directory::*;
/// let setup = testing::setup(9);
/// assert_eq!(setup.namespace, testing::NAMESPACE);
/// ```
#[derive(Clone, Debug)]
pub struct Setup<P: Pair> {
    /// The bootstrappers. If a key occurs twice, the later one counts.
    pub bootstrappers: Vec<(P::Key, Ingress)>,
    /// The local info.
    pub myself: Info<P>,
    /// The settings of its directory.
    pub cfg: Config,
    /// The limits under which it decodes frames.
    pub payload: PayloadConfig,
    /// How many infos it accepts at a time.
    pub peer_gossip_max_count: usize,
    /// How far ahead the timestamp of an info may be.
    pub synchrony_bound: Duration,
    /// The namespace in which infos are signed.
    pub namespace: Vec<u8>,
}

/// What a node returns for a frame.
///
/// # Examples
///
/// ```
/// # use p2p_directory::{CodecError, Received};
/// let answer = Received::Codec(CodecError::EndOfBuffer);
/// assert_ne!(answer, Received::Malformed);
/// ```
///
/// A result that isn't looked at is a warning:
///
/// ```compile_fail
/// #![deny(unused_must_use)]
/// # use p2p_directory::*;
/// fn receive(node: &mut Node, frame: &[u8], now: Moment) {
///     node.receive(frame, now, |_| false);
/// }
/// ```
///
/// This compiles, and drops it:
///
/// ```
/// #![deny(unused_must_use)]
/// # use p2p_directory::*;
/// fn receive(node: &mut Node, frame: &[u8], now: Moment) {
///     let _ = node.receive(frame, now, |_| false);
/// }
/// ```
#[derive(Clone, Debug, PartialEq, Eq, Hash)]
#[must_use = "a reply has to be sent back, and the key of a greeting compared"]
#[non_exhaustive]
pub enum Received<P: Pair> {
    /// A message on a channel. Nothing has changed.
    Data {
        /// The channel.
        channel: u64,
        /// The range of the message in the frame.
        message: Range<usize>,
    },
    /// The info of a greeting was applied. This is its key. The node doesn't know the peer of the
    /// connection, so the host must compare the two.
    Greeted(P::Key),
    /// A frame with the infos for the bits that were received: send it back. It has all of them,
    /// however many the peer accepts at a time. [`Node::reply_at_most`] returns fewer. Nothing has
    /// changed.
    Reply(Vec<u8>),
    /// All infos of the frame were applied: their number.
    Applied(usize),
    /// The frame encodes no payload within the limits: its first error. Nothing has changed.
    Codec(CodecError),
    /// The number of bits that were received differs from the number of primary peers. Nothing has
    /// changed.
    Malformed,
    /// An info, or the number of infos, is invalid. Nothing has changed.
    Invalid(Error),
    /// An allocation failed. Nothing has changed: the frame may be passed in again.
    Memory,
}

impl<P: Pair> Received<P> {
    /// Returns itself if the frame was accepted, and otherwise the reason why it was refused.
    ///
    /// # Errors
    ///
    /// [`RefusedError`] for [`Received::Codec`], [`Received::Malformed`], [`Received::Invalid`] and
    /// [`Received::Memory`].
    ///
    /// # Examples
    ///
    /// ```
    /// # use p2p_directory::*;
    /// # let mut node = Node::new(&testing::setup(9)).unwrap();
    /// let frame = Payload::Greeting(testing::info(1, 0)).encode();
    /// match node.receive(&frame, Moment::EPOCH, testing::verify).accepted()? {
    ///     Received::Greeted(key) => assert_eq!(key, testing::key(1)),
    ///     other => panic!("{other:?}"),
    /// }
    /// # Ok::<(), RefusedError>(())
    /// ```
    pub fn accepted(self) -> Result<Received<P>, RefusedError> {
        match self {
            Received::Data { .. }
            | Received::Greeted(_)
            | Received::Reply(_)
            | Received::Applied(_) => Ok(self),
            Received::Codec(fault) => Err(RefusedError::Codec(fault)),
            Received::Malformed => Err(RefusedError::Malformed),
            Received::Invalid(error) => Err(RefusedError::Invalid(error)),
            Received::Memory => Err(RefusedError::OutOfMemory),
        }
    }
}

/// A directory that decodes frames and replies to them.
///
/// It has no signature scheme: a function that verifies signatures is passed in with each frame.
///
/// # Examples
///
/// ```
/// # use p2p_directory::*;
/// use p2p_directory::{Node, Received};
///
/// let (one, two) = (testing::key(1), testing::key(2));
/// let mut asker = Node::new(&testing::setup(1))?;
/// let mut replier = Node::new(&testing::setup(2))?;
/// for node in [&mut asker, &mut replier] {
///     node.directory_mut().track(0, &OrderedSet::from_iter_dedup([one, two]).into())?;
/// }
///
/// // The asker wants the info of the replier, which sends it.
/// let now = Moment::from_secs(100);
/// let question = asker.ask(0)?.expect("a set");
/// let Received::Reply(reply) = replier.receive(&question, now, testing::verify) else { panic!() };
/// assert_eq!(asker.receive(&reply, now, testing::verify), Received::Applied(1));
/// assert_eq!(asker.directory().dialable(now)?.peers, [two]);
/// # Ok::<(), Box<dyn std::error::Error>>(())
/// ```
///
/// Like its directory, it can be sent to another thread but not shared between threads:
///
/// ```
/// fn is_sent<T: Send>() {}
/// is_sent::<p2p_directory::Node>();
/// ```
///
/// ```compile_fail,E0277
/// fn is_shared<T: Sync>() {}
/// is_shared::<p2p_directory::Node>();
/// ```
#[derive(Debug)]
pub struct Node<P: Pair> {
    directory: Directory<P>,
    public_key: P::Key,
    greeting: Vec<u8>,
    // The number of the directory that was created with the limits of this node.
    id: u64,
    // How many bits a frame may have.
    max_bit_vec: u64,
    // The verification results for the infos of a frame.
    verdicts: Vec<u8>,
    // The buffer for what the library returns for a frame.
    answer: Room,
}

/// The initial length of the buffer for results. It is enough for each result of a call that
/// changes something.
const FIRST_ROOM: usize = 4096;

impl<P: Pair> Node<P> {
    /// Creates a node with a new directory. It keeps copies of the namespace and the local info.
    ///
    /// # Errors
    ///
    /// [`SetupError::OutOfMemory`] if an allocation fails, and [`SetupError::Setting`] if
    /// `cfg.max_sets` is `usize::MAX` or `payload.max_bit_vec` is above `u32::MAX`.
    ///
    /// # Examples
    ///
    /// ```
    /// # use p2p_directory::*;
    /// # use p2p_directory::{Node, SetupError};
    /// let mut setup = testing::setup(9);
    /// assert!(Node::new(&setup).is_ok());
    /// setup.payload.max_bit_vec = 1 << 32;
    /// assert_eq!(Node::new(&setup).err(), Some(SetupError::Setting));
    /// ```
    pub fn new(setup: &Setup<P>) -> Result<Node<P>, SetupError> {
        Node::in_session(new_session::<P>()?, setup)
    }

    /// Creates a node as [`Node::new`] does, and records that call and each later one of the node
    /// and of its directory.
    ///
    /// # Errors
    ///
    /// Those of [`Node::new`]. The log has the refused call.
    ///
    /// # Examples
    ///
    /// ```
    /// # use p2p_directory::{*, record::{Recorder, Recording}};
    /// let recorder = Recorder::new(std::io::sink(), 1 << 20);
    /// let node = Node::new_recorded(&testing::setup(9), recorder)?;
    /// assert_eq!(node.directory().recording(), Some(Recording::Going));
    /// # Ok::<(), SetupError>(())
    /// ```
    #[cfg(feature = "record")]
    pub fn new_recorded(setup: &Setup<P>, recorder: Recorder) -> Result<Node<P>, SetupError> {
        let session = new_session::<P>()?;
        session.caller().record(recorder);
        Node::in_session(session, setup)
    }

    fn in_session(session: Session<P>, setup: &Setup<P>) -> Result<Node<P>, SetupError> {
        let limits = Limits {
            payload: setup.payload,
            peer_gossip_max_count: setup.peer_gossip_max_count,
            synchrony_bound: setup.synchrony_bound,
            namespace: copied(&setup.namespace)?,
        };
        let answer = Room::new(FIRST_ROOM)?;
        let greeting = greeting_of(&setup.myself)?;
        let Setup {
            bootstrappers,
            myself,
            cfg,
            ..
        } = setup;
        let directory = Directory::with_limits(session, bootstrappers, myself, cfg, limits)?;
        Ok(Node {
            id: directory.id(),
            max_bit_vec: setup.payload.max_bit_vec,
            public_key: myself.public_key,
            greeting,
            directory,
            verdicts: Vec::new(),
            answer,
        })
    }

    /// The local key.
    ///
    /// # Examples
    ///
    /// ```
    /// # use p2p_directory::*;
    /// let node = Node::new(&testing::setup(9)).unwrap();
    /// assert_eq!(node.public_key(), &testing::key(9));
    /// ```
    #[must_use]
    pub fn public_key(&self) -> &P::Key {
        &self.public_key
    }

    /// The frame with the local info, which is sent first on a new connection.
    ///
    /// # Examples
    ///
    /// ```
    /// # use p2p_directory::*;
    /// let setup = testing::setup(9);
    /// let node = Node::new(&setup).unwrap();
    /// assert_eq!(node.greeting(), Payload::Greeting(setup.myself).encode());
    /// ```
    #[must_use]
    pub fn greeting(&self) -> &[u8] {
        &self.greeting
    }

    /// Its directory.
    ///
    /// # Examples
    ///
    /// ```
    /// # use p2p_directory::*;
    /// let node = Node::new(&testing::setup(9)).unwrap();
    /// assert_eq!(node.directory().latest_set_index(), None);
    /// ```
    #[must_use]
    pub fn directory(&self) -> &Directory<P> {
        &self.directory
    }

    /// Its directory, for calls that change it.
    ///
    /// No other directory has the limits and the namespace of the node. If another one is put in
    /// its place, by `mem::swap` or an assignment, calls of the node with frames or sets panic.
    ///
    /// # Examples
    ///
    /// ```
    /// # use p2p_directory::*;
    /// let mut node = Node::new(&testing::setup(9)).unwrap();
    /// # let peers = OrderedSet::from_iter_dedup([testing::key(1)]);
    /// # let _ = node.track(3, &peers.into())?;
    /// node.directory_mut().update_peers(&[testing::info(1, 1000)])?;
    /// assert_eq!(node.directory().tracked(), 1);
    /// # Ok::<(), Box<dyn std::error::Error>>(())
    /// ```
    #[must_use]
    pub fn directory_mut(&mut self) -> &mut Directory<P> {
        &mut self.directory
    }

    /// Registers a peer set in the directory as [`Directory::track`] does, unless it has more
    /// primary peers than frames may have bits.
    ///
    /// Such a set would make correct nodes block each other: those with higher limits ask about it,
    /// and this node refuses their questions. So give all nodes the same limits, above the largest
    /// set that is to come.
    ///
    /// # Errors
    ///
    /// [`TrackError::TooLarge`] if there are more primary peers than
    /// [`PayloadConfig::max_bit_vec`], whatever the index is, and [`TrackError::OutOfMemory`] if an
    /// allocation fails; then nothing has changed.
    ///
    /// # Panics
    ///
    /// Panics if another directory was put in the place of the node's own.
    ///
    /// # Examples
    ///
    /// ```
    /// # use p2p_directory::*;
    /// let mut setup = testing::setup(9);
    /// setup.payload.max_bit_vec = 3;
    /// let mut node = Node::new(&setup)?;
    /// let set = |keys| OrderedSet::from_iter_dedup((1..=keys).map(testing::key)).into();
    /// assert_eq!(node.track(0, &set(3))?, Tracked::Accepted(OrderedSet::default()));
    /// assert_eq!(node.track(1, &set(4)), Err(TrackError::TooLarge { primary: 4, limit: 3 }));
    /// assert_eq!(node.directory().latest_set_index(), Some(0));
    /// # Ok::<(), Box<dyn std::error::Error>>(())
    /// ```
    pub fn track(&mut self, index: u64, peers: &TrackedPeers<P>) -> Result<Tracked<P>, TrackError> {
        self.expect_own_directory();
        let (primary, limit) = (peers.primary.len(), self.max_bit_vec);
        if primary as u64 > limit {
            return Err(TrackError::TooLarge { primary, limit });
        }
        Ok(self.directory.track(index, peers)?)
    }

    /// The frame that asks for the wanted infos of the retained set at a position, counted from 0
    /// in the order of indices. Returns `None` if there is no such position.
    ///
    /// # Errors
    ///
    /// [`OutOfMemory`] if an allocation fails.
    ///
    /// # Panics
    ///
    /// Panics if another directory was put in the place of the node's own.
    ///
    /// # Examples
    ///
    /// ```
    /// # use p2p_directory::*;
    /// # use p2p_directory::Node;
    /// # let node = Node::new(&testing::setup(9)).unwrap();
    /// assert_eq!(node.ask(0), Ok(None));
    /// ```
    pub fn ask(&self, place: usize) -> Result<Option<Vec<u8>>, OutOfMemory> {
        self.expect_own_directory();
        self.directory.question_in(
            Kind::Bits,
            0,
            |session, out| session.ask(place as u64, out),
            |frame| Ok(copied(frame)?),
        )
    }

    /// The frame with the infos for a peer that sent these bits, as in [`Received::Reply`], but
    /// with at most `count` infos.
    ///
    /// If there are more, it has `count` of them in the order of the set, from a position that
    /// `draw` decides, wrapping around at the end. If `draw` is drawn uniformly from all numbers,
    /// again for each reply, each info is sent about as often as any other.
    ///
    /// The frame has no infos if no retained set has the index. Returns `None` if the number of
    /// bits differs from the number of primary peers of the set.
    ///
    /// # Errors
    ///
    /// [`OutOfMemory`] if an allocation fails.
    ///
    /// # Panics
    ///
    /// Panics if there are more than `u32::MAX` bits, and if another directory was put in the place
    /// of the node's own.
    ///
    /// # Examples
    ///
    /// ```
    /// # use p2p_directory::*;
    /// # let limits = testing::setup(9).payload;
    /// # let mut node = Node::new(&testing::setup(9)).unwrap();
    /// # let set = OrderedSet::from_iter_dedup([1, 9].map(testing::key));
    /// # let _ = node.directory_mut().track(0, &set.into())?;
    /// let (now, draw) = (Moment::from_secs(1), 4_711);
    /// let question = [2, 0, 2, 0b00];
    /// let Ok(Payload::BitVec(bits)) = Payload::decode(&question, &limits) else { panic!() };
    /// let all = Payload::Peers(vec![testing::info(9, 0)]).encode();
    /// assert_eq!(node.reply_at_most(&bits, now, 1, draw)?, Some(all));
    /// assert_eq!(node.reply_at_most(&bits, now, 0, draw)?, Some(vec![3, 0]));
    /// # Ok::<(), OutOfMemory>(())
    /// ```
    pub fn reply_at_most(
        &self,
        bits: &BitVec,
        now: Moment,
        count: usize,
        draw: u64,
    ) -> Result<Option<Vec<u8>>, OutOfMemory> {
        self.expect_own_directory();
        let Some(mut infos) = self.directory.infos(bits, now)? else {
            return Ok(None);
        };
        if count < infos.len() {
            let first = draw % infos.len() as u64;
            infos.rotate_left(first as usize);
            infos.truncate(count);
        }
        Ok(Some(reply_of(&infos)?))
    }

    /// Processes a frame that was received at the time `now`, and returns the result.
    ///
    /// It isn't known who sent the frame: [`Received::Greeted`] has the key that the host must
    /// compare.
    ///
    /// `verify` returns whether the signature of a question is valid. It is called for each info, in
    /// the order of the frame and before anything changes, up to the first info that is refused. It
    /// isn't called for an info that is refused for another reason than its signature, nor if there
    /// are too many infos. To verify signatures while the node does something else, use
    /// [`Node::check`] and [`Node::receive_judged`].
    ///
    /// # Panics
    ///
    /// Panics if `verify` panics; then nothing has changed. Panics if another directory was put in
    /// the place of the node's own.
    ///
    /// # Examples
    ///
    /// ```
    /// # use p2p_directory::*;
    /// # use p2p_directory::{Error, Node, Payload, Received};
    /// # let mut node = Node::new(&testing::setup(9)).unwrap();
    /// let greeting = Payload::Greeting(testing::info(1, 1000)).encode();
    /// let now = Moment::from_secs(1);
    /// assert_eq!(node.receive(&greeting, now, testing::verify), Received::Greeted(testing::key(1)));
    /// assert_eq!(
    ///     node.receive(&greeting, now, |_| false),
    ///     Received::Invalid(Error::InvalidSignature)
    /// );
    /// ```
    pub fn receive(
        &mut self,
        frame: &[u8],
        now: Moment,
        verify: impl FnMut(Question<'_, P>) -> bool,
    ) -> Received<P> {
        self.expect_own_directory();
        let received = self.try_receive(frame, now, verify);
        give_back_large(&mut self.verdicts);
        received.unwrap_or(Received::Memory)
    }

    // Frames are decoded under the limits that the directory was created with, and these can't be
    // given to another one. Hosts may pass `&mut Directory` on, so a replacement can't be prevented
    // there and is refused here.
    fn expect_own_directory(&self) {
        assert_eq!(
            self.directory.id(),
            self.id,
            "another directory is in the place of the node's own"
        );
    }

    fn try_receive(
        &mut self,
        frame: &[u8],
        now: Moment,
        verify: impl FnMut(Question<'_, P>) -> bool,
    ) -> Result<Received<P>, OutOfMemory> {
        let Node {
            directory,
            verdicts,
            answer,
            ..
        } = self;
        let namespace = directory.namespace();
        told(directory, frame, now, |told| {
            judge(told, namespace, verify, verdicts)
        })?;
        received(directory, answer, frame, now, verdicts)
    }

    /// Returns the signatures that have to be verified of a frame that was received at the time
    /// `now`.
    ///
    /// Pass their verification results to [`Node::receive_judged`]. The two calls together do what
    /// [`Node::receive`] does, but signatures may be verified on other threads, without the node.
    /// Nothing changes. The node keeps the frame that was checked last decoded, so that it isn't
    /// decoded again if it is the next one to be received; it may as well be dropped.
    ///
    /// # Errors
    ///
    /// [`OutOfMemory`] if an allocation fails.
    ///
    /// # Panics
    ///
    /// Panics if another directory was put in the place of the node's own.
    ///
    /// # Examples
    ///
    /// ```
    /// # use p2p_directory::*;
    /// # let mut node = Node::new(&testing::setup(9)).unwrap();
    /// let frame = Payload::Peers(vec![testing::info(1, 0), testing::info(2, 0)]).encode();
    /// let questions = node.check(&frame, Moment::from_secs(1))?;
    /// let verdicts: Vec<bool> = questions.iter().map(testing::verify).collect();
    /// let judged = questions.judged(verdicts)?;
    /// assert_eq!(node.receive_judged(judged).unwrap(), Received::Applied(2));
    /// # Ok::<(), Box<dyn std::error::Error>>(())
    /// ```
    pub fn check<'f>(&self, frame: &'f [u8], now: Moment) -> Result<Questions<'f, P>, OutOfMemory> {
        self.expect_own_directory();
        let Node { directory, id, .. } = self;
        told(directory, frame, now, |told| {
            Questions::new(frame, now, *id, directory.namespace(), told)
        })
    }

    /// Processes a frame whose signatures were verified, at the time of [`Node::check`], and
    /// returns what [`Node::receive`] returns. An info about which [`Node::check`] had no question
    /// is never applied.
    ///
    /// # Errors
    ///
    /// [`ReceiveError`] if another node checked the frame, which gives it back; then nothing has
    /// changed.
    ///
    /// # Panics
    ///
    /// Panics if another directory was put in the place of the node's own.
    ///
    /// # Examples
    ///
    /// ```
    /// # use p2p_directory::*;
    /// # let mut node = Node::new(&testing::setup(9)).unwrap();
    /// let frame = Payload::Greeting(testing::info(1, 1000)).encode();
    /// let judged = node.check(&frame, Moment::from_secs(1))?.judged([true])?;
    /// assert_eq!(node.receive_judged(judged).unwrap(), Received::Greeted(testing::key(1)));
    /// # Ok::<(), Box<dyn std::error::Error>>(())
    /// ```
    pub fn receive_judged<'f>(
        &mut self,
        judged: Judged<'f, P>,
    ) -> Result<Received<P>, ReceiveError<'f, P>> {
        self.expect_own_directory();
        if judged.node != self.id {
            return Err(ReceiveError { judged });
        }
        let Node {
            directory, answer, ..
        } = self;
        let Judged {
            frame,
            now,
            verdicts,
            ..
        } = judged;
        let received = received(directory, answer, frame, now, &verdicts);
        Ok(received.unwrap_or(Received::Memory))
    }
}

// Reads the questions of the library about a frame. There are none if the frame can have no infos,
// since only these are signed.
fn told<T, P: Pair>(
    directory: &Directory<P>,
    frame: &[u8],
    now: Moment,
    read: impl FnOnce(&[u8]) -> Result<T, ReadError>,
) -> Result<T, OutOfMemory> {
    if !Payload::<P>::is_signed(frame) {
        return own(read(&NOTHING_TOLD));
    }
    let (seconds, nanos) = now.parts();
    let told = directory.question_in(
        Kind::Frame,
        Payload::<P>::room_to_check(frame),
        |session, out| session.check(frame, seconds, nanos, out),
        read,
    )?;
    Ok(told.expect(OWN))
}

// The result of the library for a frame with these verification results. The result of a call that
// changes something fits the initial buffer, so nothing is allocated afterwards. A reply that fits
// the buffer is computed once.
fn received<P: Pair>(
    directory: &Directory<P>,
    answer: &mut Room,
    frame: &[u8],
    now: Moment,
    verdicts: &[u8],
) -> Result<Received<P>, OutOfMemory> {
    let (seconds, nanos) = now.parts();
    let session = directory.session();
    let received = answer.asked(
        Kind::Frame,
        directory.room_for_infos(Payload::<P>::most_bits(frame)),
        |out| session.receive(frame, seconds, nanos, verdicts, out),
        |bytes| read_received(bytes, frame.len()),
    )?;
    Ok(received.expect(OWN))
}

// Writes the verification result of each info, up to the first false one. It is false for the
// others, and for an info without a question.
fn judge<P: Pair>(
    told: &[u8],
    namespace: &[u8],
    verify: impl FnMut(Question<'_, P>) -> bool,
    verdicts: &mut Vec<u8>,
) -> Result<(), ReadError> {
    let (infos, questions) = read_told(namespace, told)?;
    verdicts.clear();
    lengthen(verdicts, infos)?;
    write_verdicts(verdicts, questions, verify);
    Ok(())
}

// Reads the result for a frame of this length.
fn read_received<P: Pair>(bytes: &[u8], frame: usize) -> Result<Received<P>, ReadError> {
    let mut reader = Reader::new(bytes);
    Ok(match reader.byte()? {
        0 => Received::Data {
            channel: reader.number()?,
            message: frame - reader.number()? as usize..frame,
        },
        1 => Received::Greeted(P::Key::of_library(reader.take(P::KEY_SIZE)?)),
        2 => Received::Reply(copied(reader.rest())?),
        3 => Received::Applied(reader.number()? as usize),
        4 => Received::Codec(read_fault(&mut reader)?),
        5 => Received::Malformed,
        6 => Received::Invalid(read_error(&mut reader)?),
        other => unknown(other.into()),
    })
}

fn read_fault(reader: &mut Reader<'_>) -> Result<CodecError, CodecError> {
    Ok(match reader.byte()? {
        0 => CodecError::EndOfBuffer,
        1 => CodecError::ExtraData(reader.number()?),
        2 => CodecError::InvalidLength(reader.number()?),
        3 => CodecError::InvalidVarint(reader.number()?),
        4 => CodecError::InvalidEnum(reader.number()? as u8),
        5 => CodecError::Invalid(What::Hostname),
        6 => CodecError::Invalid(What::Padding),
        7 => CodecError::Invalid(What::Key),
        8 => CodecError::Invalid(What::Signature),
        other => unknown(other.into()),
    })
}

fn read_error(reader: &mut Reader<'_>) -> Result<Error, CodecError> {
    Ok(match reader.byte()? {
        0 => Error::TooManyPeers(reader.number()?),
        1 => Error::ReceivedSelf,
        2 => Error::InvalidSignature,
        3 => Error::SynchronyBound,
        other => unknown(other.into()),
    })
}
