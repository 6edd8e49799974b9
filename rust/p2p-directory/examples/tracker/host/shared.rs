//! What the threads of a host share: one lock around the node and the list of its streams.

use super::clock::Clock;
use super::turns::Turns;
use super::wire::FrameLimits;
use super::{Event, Settings};
use p2p_directory::{Key, Moment, Node};
use std::collections::HashMap;
use std::hash::{BuildHasher, RandomState};
use std::io::{self, ErrorKind};
use std::net::{Shutdown, TcpStream};
use std::sync::mpsc::{Sender, SyncSender};
use std::sync::{Arc, Mutex, MutexGuard, PoisonError};
use std::thread;
use std::time::Duration;

/// Bits that a peer can't predict, from the hash seeds of the standard library, which has no random
/// generator to call. Keys and challenges of a real scheme need a cryptographic generator.
pub fn random() -> u64 {
    RandomState::new().hash_one(0)
}

/// What is queued for a peer.
pub enum Outgoing {
    /// A whole frame.
    Frame(Vec<u8>),
    /// A message on a channel.
    Message(u64, Vec<u8>),
}

/// The state that the threads share.
pub struct Shared {
    /// The settings of the host.
    pub settings: Settings,
    /// The maximum lengths of frames.
    pub limits: FrameLimits,
    state: Mutex<State>,
    events: SyncSender<Event>,
    // It has a capacity of one: if it is full, the next round has been requested already.
    wakes: SyncSender<()>,
}

/// The state that the lock protects.
pub struct State {
    /// The node.
    pub node: Node,
    /// Whose turn it is to be dialled.
    pub turns: Turns,
    clock: Clock,
    open: HashMap<u64, Open>,
    // Each thread has a clone. After this one is dropped, the channel ends with the last thread.
    alive: Option<Sender<()>>,
}

/// An open stream.
struct Open {
    stream: TcpStream,
    peer: Option<Key>,
    outbox: Option<SyncSender<Outgoing>>,
}

impl State {
    /// The state of a host with this key that starts. All its threads have ended when `alive` has no
    /// clone left.
    pub fn new(node: Node, own: Key, clock: Clock, alive: Sender<()>) -> State {
        State {
            node,
            turns: Turns::new(own),
            clock,
            open: HashMap::new(),
            alive: Some(alive),
        }
    }

    /// The present time for cooldowns, blocks and dials. It never goes backwards.
    pub fn now(&self) -> Moment {
        self.clock.now()
    }

    /// The present time for frames and infos, which is that of the wall clock.
    pub fn wall(&self) -> Moment {
        self.clock.wall()
    }

    /// Whether threads have to end.
    pub fn is_ending(&self) -> bool {
        self.alive.is_none()
    }

    /// Ends the streams of these peers. Their threads then end, and release their reservations.
    pub fn disconnect(&self, peers: &[Key]) {
        let of_them = |open: &&Open| open.peer.is_some_and(|peer| peers.contains(&peer));
        self.open.values().filter(of_them).for_each(Open::end);
    }

    /// Ends all streams. No thread starts from now on.
    pub fn end(&mut self) {
        self.alive = None;
        self.open.values().for_each(Open::end);
    }

    /// The queue of frames for a peer, if it is connected.
    pub fn outbox(&self, peer: &Key) -> Option<&SyncSender<Outgoing>> {
        let mut open = self.open.values();
        let open = open.find(|open| open.peer.as_ref() == Some(peer) && open.outbox.is_some());
        open?.outbox.as_ref()
    }

    // How many dialers have not sent their key yet.
    fn unknown(&self) -> usize {
        let open = self.open.values();
        open.filter(|open| open.peer.is_none()).count()
    }
}

impl Open {
    fn end(&self) {
        // The peer may have ended it before.
        let _ = self.stream.shutdown(Shutdown::Both);
    }
}

impl Shared {
    /// The shared state of a host that starts.
    pub fn new(
        settings: Settings,
        limits: FrameLimits,
        state: State,
        events: SyncSender<Event>,
        wakes: SyncSender<()>,
    ) -> Shared {
        let state = Mutex::new(state);
        Shared {
            settings,
            limits,
            state,
            events,
            wakes,
        }
    }

    /// A draw for `dial` and `listen`: how much later than reservable a peer is dialable again. There
    /// is a new one for each grant.
    pub fn draw(&self) -> Duration {
        self.settings.cfg.draw(random())
    }

    /// Locks the node. A thread that panicked while it held the lock left the state consistent.
    pub fn lock(&self) -> MutexGuard<'_, State> {
        self.state.lock().unwrap_or_else(PoisonError::into_inner)
    }

    /// Lets the next round of dials begin at once.
    pub fn wake(&self) {
        let _ = self.wakes.try_send(());
    }

    /// Sends an event, and waits while the channel is full. The lock must not be held meanwhile.
    pub fn tell(&self, event: Event) {
        // If nobody receives events any more, this one is dropped.
        let _ = self.events.send(event);
    }

    /// Runs the closure on a new thread.
    ///
    /// # Errors
    ///
    /// Fails if the host is ending or no thread can be started. The closure is dropped then, with
    /// all that it owns.
    pub fn spawn(
        self: &Arc<Self>,
        work: impl FnOnce(&Arc<Shared>) + Send + 'static,
    ) -> io::Result<()> {
        let alive = self.lock().alive.clone();
        let alive = alive.ok_or_else(|| io::Error::other("the host is ending"))?;
        let shared = Arc::clone(self);
        thread::Builder::new().spawn(move || {
            work(&shared);
            drop(shared);
            drop(alive);
        })?;
        Ok(())
    }
}

/// A stream that is listed while it is open. It must not be dropped while the lock is held.
pub struct Listed {
    /// The stream.
    pub stream: TcpStream,
    shared: Arc<Shared>,
    id: u64,
}

impl Listed {
    /// Lists the stream to a peer, or of a dialer that hasn't sent its key yet. The settings limit
    /// the number of the latter.
    pub fn new(shared: &Arc<Shared>, stream: TcpStream, peer: Option<Key>) -> io::Result<Listed> {
        stream.set_nodelay(true)?;
        stream.set_write_timeout(Some(shared.settings.silence))?;
        let mut state = shared.lock();
        if state.is_ending() || peer.is_none() && state.unknown() >= shared.settings.handshakes {
            return Err(ErrorKind::ConnectionRefused.into());
        }
        let open = Open {
            stream: stream.try_clone()?,
            peer,
            outbox: None,
        };
        let id = random();
        state.open.insert(id, open);
        let shared = Arc::clone(shared);
        Ok(Listed { stream, shared, id })
    }

    /// Records the peer of the stream, and the queue of frames for it.
    pub fn connect(&self, state: &mut State, peer: Key, outbox: SyncSender<Outgoing>) {
        if let Some(open) = state.open.get_mut(&self.id) {
            open.peer = Some(peer);
            open.outbox = Some(outbox);
        }
    }
}

impl Drop for Listed {
    fn drop(&mut self) {
        let open = self.shared.lock().open.remove(&self.id);
        open.iter().for_each(Open::end);
    }
}
