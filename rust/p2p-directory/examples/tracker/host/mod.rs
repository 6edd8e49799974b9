//! A host of a node over TCP: it dials, listens, greets, asks, replies, blocks and ends.

mod clock;
mod connection;
mod inbound;
mod rounds;
pub mod shared;
pub mod turns;
pub mod wire;

use clock::Clock;
use p2p_directory::testing::{NAMESPACE, sign};
use p2p_directory::{
    Config, Data, Directory, Info, Ingress, Key, Moment, Node, PayloadConfig, Setup, TrackError,
    Tracked, TrackedPeers,
};
use shared::{Outgoing, Shared, State};
use std::error::Error;
use std::fmt;
use std::net::{SocketAddr, TcpListener, TcpStream};
use std::num::NonZeroUsize;
use std::sync::Arc;
use std::sync::mpsc::{Receiver, SyncSender, channel, sync_channel};
use std::time::{Duration, SystemTime};
use wire::FrameLimits;

/// The reason why something failed, as text.
pub type Failure = Box<dyn Error + Send + Sync>;

/// The settings of a host.
#[derive(Clone, Debug)]
pub struct Settings {
    /// The local key. In the scheme of `testing` it also signs. A real scheme has a secret key in
    /// addition.
    pub own: Key,
    /// The address at which it listens. The address that is bound is the one in its info.
    pub listen_at: SocketAddr,
    /// The peers that are dialled before any info is known.
    pub bootstrappers: Vec<(Key, Ingress)>,
    /// The settings of its directory.
    pub cfg: Config,
    /// The limits under which frames are decoded.
    pub payload: PayloadConfig,
    /// How far ahead the timestamp of an info may be.
    pub synchrony_bound: Duration,
    /// The interval at which each connected peer is asked for infos.
    pub gossip: Duration,
    /// The maximum duration of a dial, and then of its handshake.
    pub handshake: Duration,
    /// How long a connected peer may send nothing, or read nothing.
    pub silence: Duration,
    /// The maximum number of inbound handshakes at a time.
    pub handshakes: usize,
    /// The wall clock.
    pub wall: fn() -> SystemTime,
}

impl Settings {
    /// Settings to start with, if no set has more primary peers than this. `docs/GUIDE.md` has the
    /// reasons.
    pub fn recommended(own: Key, listen_at: SocketAddr, largest_set: usize) -> Settings {
        Settings {
            own,
            listen_at,
            bootstrappers: Vec::new(),
            cfg: Config {
                allow_private_ips: false,
                allow_dns: false,
                max_sets: NonZeroUsize::MIN.saturating_add(3),
                dial_fail_limit: 2,
                peer_connection_cooldown: Duration::from_secs(60),
                block_duration: Duration::from_secs(4 * 3600),
            },
            payload: PayloadConfig {
                max_bit_vec: largest_set as u64,
                max_peers: largest_set,
                max_data_length: 1 << 20,
            },
            synchrony_bound: Duration::from_secs(5),
            gossip: Duration::from_secs(30),
            handshake: Duration::from_secs(5),
            silence: Duration::from_secs(120),
            handshakes: 64,
            wall: SystemTime::now,
        }
    }

    /// The setup of a node at this address, whose info has the timestamp `now`.
    fn setup(&self, address: SocketAddr, now: Moment) -> Result<Setup, Failure> {
        let timestamp = u64::try_from(now.as_duration().as_millis())?;
        let sign = |namespace: &[u8], message: &[u8]| sign(&self.own, namespace, message);
        Ok(Setup {
            bootstrappers: self.bootstrappers.clone(),
            myself: Info::sign(self.own, NAMESPACE, address, timestamp, sign),
            cfg: self.cfg,
            payload: self.payload,
            peer_gossip_max_count: self.payload.max_peers,
            synchrony_bound: self.synchrony_bound,
            namespace: NAMESPACE.to_vec(),
        })
    }
}

/// An event of a host.
#[derive(Debug)]
pub enum Event {
    /// A peer was connected.
    Connected(Key),
    /// A connection ended.
    Ended(Key, String),
    /// A dial led to no connection.
    DialFailed(Key, String),
    /// An inbound connection was refused.
    Refused(String),
    /// A peer was blocked.
    Blocked(Key),
    /// A block ended.
    Unblocked,
    /// A frame was ignored, since the peer sends too many.
    Ignored(Key),
    /// A message was received.
    Message(Key, Data),
}

impl fmt::Display for Event {
    fn fmt(&self, f: &mut fmt::Formatter<'_>) -> fmt::Result {
        match self {
            Event::Connected(peer) => write!(f, "{peer} is connected"),
            Event::Ended(peer, why) => write!(f, "{peer} is disconnected: {why}"),
            Event::DialFailed(peer, why) => write!(f, "{peer} was dialled in vain: {why}"),
            Event::Refused(why) => write!(f, "a dialer was refused: {why}"),
            Event::Blocked(peer) => write!(f, "{peer} is blocked"),
            Event::Unblocked => f.write_str("a block ended"),
            Event::Ignored(peer) => write!(f, "{peer} sends too many frames"),
            Event::Message(peer, data) => {
                let size = data.message.len();
                write!(f, "{peer} sent {size} bytes on channel {}", data.channel)
            }
        }
    }
}

/// A host that runs on its own threads until it is ended.
pub struct Host {
    shared: Arc<Shared>,
    address: SocketAddr,
    ended: Receiver<()>,
}

impl Host {
    /// Starts a host with a new node, which sends its events to this channel. Receive them until
    /// the channel ends. If it is full, the threads of the host wait, and so do the peers whose
    /// messages they carry.
    ///
    /// # Errors
    ///
    /// Fails if the settings are refused, the address can't be bound, an allocation fails or no
    /// thread can be started.
    pub fn start(settings: Settings, events: SyncSender<Event>) -> Result<Host, Failure> {
        let listener = TcpListener::bind(settings.listen_at)?;
        let address = listener.local_addr()?;
        let limits = FrameLimits::new(&settings.payload).ok_or("limits too large")?;
        let clock = Clock::new(settings.wall);
        let node = Node::new(&settings.setup(address, clock.wall())?)?;
        let (alive, ended) = channel();
        let (wakes, woken) = sync_channel(1);
        let state = State::new(node, settings.own, clock, alive);
        let shared = Arc::new(Shared::new(settings, limits, state, events, wakes));
        shared.spawn(move |shared| rounds::run(shared, &woken))?;
        let host = Host {
            shared,
            address,
            ended,
        };
        let listens = host
            .shared
            .spawn(move |shared| inbound::run(shared, &listener));
        match listens {
            Ok(()) => Ok(host),
            Err(why) => {
                host.end();
                Err(why.into())
            }
        }
    }

    /// The address at which it listens.
    pub fn address(&self) -> SocketAddr {
        self.address
    }

    /// Registers a set, and ends the connections of peers that must be disconnected. Returns false
    /// if its index isn't above that of each set before.
    ///
    /// # Errors
    ///
    /// [`TrackError`] if the set is larger than the limits of the node, or an allocation fails; then
    /// nothing has changed.
    pub fn track(&self, index: u64, peers: &TrackedPeers) -> Result<bool, TrackError> {
        let mut state = self.shared.lock();
        let Tracked::Accepted(to_disconnect) = state.node.track(index, peers)? else {
            return Ok(false);
        };
        state.disconnect(&to_disconnect);
        drop(state);
        self.shared.wake();
        Ok(true)
    }

    /// Calls the closure with the directory and the time, and returns its result. The node is
    /// locked meanwhile, so it should be short.
    pub fn ask<T>(&self, question: impl FnOnce(&Directory, Moment) -> T) -> T {
        let state = self.shared.lock();
        let now = state.now();
        question(state.node.directory(), now)
    }

    /// Sends a message on a channel. Returns false if the peer isn't connected, its queue is full,
    /// or the message is longer than peers accept.
    pub fn send(&self, peer: &Key, channel: u64, message: Vec<u8>) -> bool {
        let most = self.shared.settings.payload.max_data_length;
        if message.len() > most {
            return false;
        }
        let state = self.shared.lock();
        let outbox = state.outbox(peer);
        outbox.is_some_and(|outbox| {
            let message = Outgoing::Message(channel, message);
            outbox.try_send(message).is_ok()
        })
    }

    /// Ends all connections, and returns when all threads have ended. This takes at most as long as
    /// a dial and a handshake.
    pub fn end(self) {
        self.shared.lock().end();
        self.shared.wake();
        // The listener waits for a stream: with this one it sees that the host is ending.
        let _ = TcpStream::connect(self.address);
        // Nothing is sent: `recv` fails once the last thread has dropped its sender.
        while self.ended.recv().is_ok() {}
    }
}
