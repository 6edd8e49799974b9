//! What the threads of a node share: one lock around the directory and the list of open streams.

use super::clock::Clock;
use super::turns::Turns;
use crate::broken::Rule;
use crate::counts::{Counts, Event};
use crate::identity::Identity;
use crate::ledger::{Entry, Ledger};
use crate::limits::{Arrivals, Cooldowns, Slot, Slots};
use crate::settings::Settings;
use crate::sodium::Sodium;
use crate::writer::Writer;
use p2p_directory::{Key, Moment, Node};
use std::collections::HashMap;
use std::io::{self, ErrorKind};
use std::net::{Shutdown, TcpStream};
use std::sync::atomic::{AtomicBool, Ordering};
use std::sync::mpsc::SyncSender;
use std::sync::{Arc, Mutex, MutexGuard, PoisonError};
use std::thread;
use std::time::{Duration, Instant};

/// The stack of each thread, in bytes. Calls of the directory need 32 KiB of it.
const STACK: usize = 256 << 10;

/// How many inbound handshakes one address may have at a time.
const HANDSHAKES_OF_ADDRESS: usize = 8;

/// The state that the threads share.
pub struct Shared {
    /// The settings of the node.
    pub settings: Settings,
    /// The source of random numbers.
    pub sodium: Sodium,
    /// The keys of the node.
    pub identity: Identity,
    /// The maximum length of a frame, in bytes.
    pub frame_limit: u32,
    /// What the node counts.
    pub counts: Arc<Counts>,
    /// The slots of connections, and of dials that are under way.
    pub connections: Arc<Slots>,
    /// The inbound streams whose dialer has proved no key.
    pub handshakes: Arc<Arrivals<TcpStream>>,
    /// Whether the node has to end.
    pub stop: &'static AtomicBool,
    threads: Arc<Slots>,
    ledger: Option<Ledger>,
    record: Option<Writer>,
    state: Mutex<State>,
    // It has a capacity of one: if it is full, the next round has been requested already.
    wakes: SyncSender<()>,
    // For the rule that leaks.
    kept: Mutex<Vec<Vec<u8>>>,
}

/// The state that the lock protects.
pub struct State {
    /// The node.
    pub node: Node,
    /// Whose turn it is to be dialled.
    pub turns: Turns,
    /// The cooldowns of peers, by which a handshake is refused before anything is signed.
    pub cooldowns: Cooldowns,
    clock: Clock,
    // How far ahead of time grants are asked for, by the rule that grants early.
    ahead: Duration,
    open: HashMap<u64, Open>,
    next: u64,
    is_ending: bool,
}

/// An open stream.
struct Open {
    stream: Arc<TcpStream>,
    peer: Option<Key>,
    is_connected: bool,
}

impl Open {
    fn end(&self) {
        // The peer may have ended it before.
        let _ = self.stream.shutdown(Shutdown::Both);
    }
}

impl State {
    /// The state of a node with this key that starts, and whose peers have this cooldown.
    pub fn new(node: Node, own: Key, cooldown: Duration, clock: Clock) -> State {
        State {
            node,
            turns: Turns::new(own),
            cooldowns: Cooldowns::new(cooldown),
            clock,
            ahead: Duration::ZERO,
            open: HashMap::new(),
            next: 0,
            is_ending: false,
        }
    }

    /// The present time for cooldowns, blocks and dials. It never goes backwards.
    pub fn now(&self) -> Moment {
        self.clock.now()
    }

    /// The present time for frames and infos, which is that of the wall clock.
    pub fn wall(&self) -> Moment {
        self.clock.wall()
    }

    /// The time at which it is asked who may be granted a connection.
    pub fn time_to_look(&mut self, settings: &Settings) -> Moment {
        let now = self.now();
        match settings.breaks(Rule::GrantsEarly) {
            true => now.saturating_add(self.ahead + 2 * settings.cooldown),
            false => now,
        }
    }

    /// The time at which a connection is granted. By the rule that grants early each one is later
    /// by two cooldowns than the one before, so no cooldown is left.
    pub fn time_to_grant(&mut self, settings: &Settings) -> Moment {
        let time = self.time_to_look(settings);
        if settings.breaks(Rule::GrantsEarly) {
            self.ahead += 2 * settings.cooldown;
        }
        time
    }

    /// Ends the streams of these peers. Their threads then end, and release their reservations.
    pub fn disconnect(&self, peers: &[Key]) {
        let of_them = |open: &&Open| open.peer.is_some_and(|peer| peers.contains(&peer));
        self.open.values().filter(of_them).for_each(Open::end);
    }

    /// Ends all streams. No stream is listed from now on.
    pub fn end(&mut self) {
        self.is_ending = true;
        self.open.values().for_each(Open::end);
    }

    /// The peers that are connected.
    pub fn connected(&self) -> impl Iterator<Item = Key> {
        let open = self.open.values().filter(|open| open.is_connected);
        open.filter_map(|open| open.peer)
    }
}

/// Adds a stream to the list of those that are open.
fn listed(state: &mut State, stream: &Arc<TcpStream>, peer: Option<Key>) -> io::Result<u64> {
    if state.is_ending {
        return Err(io::Error::other("this node is ending"));
    }
    let reserved = state.open.try_reserve(1);
    reserved.map_err(|_| io::Error::from(ErrorKind::OutOfMemory))?;
    let id = state.next;
    state.next += 1;
    let open = Open {
        stream: Arc::clone(stream),
        peer,
        is_connected: false,
    };
    state.open.insert(id, open);
    Ok(id)
}

/// The parts of a [`Shared`] that the start of a node creates.
pub struct Parts {
    /// The settings of the node.
    pub settings: Settings,
    /// The source of random numbers.
    pub sodium: Sodium,
    /// The keys of the node.
    pub identity: Identity,
    /// The maximum length of a frame, in bytes.
    pub frame_limit: u32,
    /// What the node counts.
    pub counts: Arc<Counts>,
    /// The ledger, if there is one.
    pub ledger: Option<Ledger>,
    /// What writes the record of calls, if there is one.
    pub record: Option<Writer>,
    /// Whether the node has to end.
    pub stop: &'static AtomicBool,
    /// The clock.
    pub clock: Clock,
}

impl Shared {
    /// The shared state of a node that starts. A message on `wakes` begins a round.
    pub fn new(parts: Parts, node: Node, wakes: SyncSender<()>) -> Shared {
        let limit = |most| match parts.settings.breaks(Rule::NoLimit) {
            true => usize::MAX,
            false => most,
        };
        let (own, cooldown) = (parts.identity.public_key(), parts.settings.cooldown);
        Shared {
            connections: Slots::new(limit(parts.settings.max_connections)),
            handshakes: Arrivals::new(
                limit(parts.settings.max_handshakes),
                limit(HANDSHAKES_OF_ADDRESS),
            ),
            frame_limit: match parts.settings.breaks(Rule::NoLimit) {
                true => u32::MAX,
                false => parts.frame_limit,
            },
            settings: parts.settings,
            sodium: parts.sodium,
            identity: parts.identity,
            counts: parts.counts,
            stop: parts.stop,
            threads: Slots::new(usize::MAX),
            ledger: parts.ledger,
            record: parts.record,
            state: Mutex::new(State::new(node, own, cooldown, parts.clock)),
            wakes,
            kept: Mutex::new(Vec::new()),
        }
    }

    /// Locks the node. A thread that panicked while it held the lock left the state consistent.
    pub fn lock(&self) -> MutexGuard<'_, State> {
        self.state.lock().unwrap_or_else(PoisonError::into_inner)
    }

    /// Whether the node has to end.
    pub fn is_stopping(&self) -> bool {
        self.stop.load(Ordering::Relaxed)
    }

    /// Lets the next round of dials begin at once.
    pub fn wake(&self) {
        let _ = self.wakes.try_send(());
    }

    /// How many threads of connections and dials run.
    pub fn threads(&self) -> usize {
        self.threads.taken()
    }

    /// A deadline, unless the node breaks the rule that there are any.
    pub fn within(&self, duration: Duration) -> Option<Duration> {
        (!self.settings.breaks(Rule::NoLimit)).then_some(duration)
    }

    /// A draw for `dial` and `listen`, uniform over the range that they document.
    pub fn draw(&self) -> Duration {
        self.settings.directory().draw(self.sodium.number())
    }

    /// Queues an event for the ledger, if there is one. What finds no room there is counted.
    pub fn record(&self, at: Moment, entry: &Entry<'_>) {
        if let Some(ledger) = &self.ledger
            && ledger.write(at, entry).is_err()
        {
            self.counts.event(Event::LedgerLost);
        }
    }

    /// Waits until ledger and record are written, at most so long. Returns the names of those that
    /// are not.
    pub fn finish_files(&self, within: Duration) -> Vec<&'static str> {
        let begin = Instant::now();
        let left = || within.saturating_sub(begin.elapsed());
        let ledger = self.ledger.iter();
        let ledger = ledger.filter(|ledger| !ledger.finish(left()));
        let record = self.record.iter().filter(|record| !record.finish(left()));
        let names = ledger.map(|_| "ledger").chain(record.map(|_| "record"));
        names.collect()
    }

    /// Keeps a frame for ever, by the rule that leaks.
    pub fn leak(&self, frame: &[u8]) {
        if self.settings.breaks(Rule::Leaks) {
            let mut kept = self.kept.lock().unwrap_or_else(PoisonError::into_inner);
            kept.push(frame.to_vec());
        }
    }

    /// Runs the closure on a new thread.
    ///
    /// # Errors
    ///
    /// That of the system if there is no thread, which is counted. The closure is dropped then,
    /// with all that it owns.
    pub fn spawn(
        self: &Arc<Self>,
        work: impl FnOnce(&Arc<Shared>) + Send + 'static,
    ) -> io::Result<()> {
        let slot: Option<Slot> = self.threads.take();
        let shared = Arc::clone(self);
        let started = thread::Builder::new().stack_size(STACK).spawn(move || {
            work(&shared);
            drop(shared);
            drop(slot);
        });
        match started {
            Ok(_) => Ok(()),
            Err(error) => {
                self.counts.event(Event::NoThread);
                Err(error)
            }
        }
    }
}

/// A stream that is listed while it is open. It must not be dropped while the lock is held.
pub struct Listed {
    /// The stream.
    pub stream: Arc<TcpStream>,
    shared: Arc<Shared>,
    id: u64,
}

impl Listed {
    /// Lists the stream to a peer, or of a dialer whose key isn't proved.
    ///
    /// # Errors
    ///
    /// Says if the node is ending, or there is no memory.
    pub fn new(
        shared: &Arc<Shared>,
        stream: impl Into<Arc<TcpStream>>,
        peer: Option<Key>,
    ) -> io::Result<Listed> {
        let stream = stream.into();
        stream.set_nodelay(true)?;
        let id = listed(&mut shared.lock(), &stream, peer)?;
        let shared = Arc::clone(shared);
        Ok(Listed { stream, shared, id })
    }

    /// Records the peer of the stream, which from now on ends with others of the peer.
    pub fn identify(&self, state: &mut State, peer: Key) {
        if let Some(open) = state.open.get_mut(&self.id) {
            open.peer = Some(peer);
        }
    }

    /// Records that the peer is connected.
    pub fn connect(&self, state: &mut State) {
        if let Some(open) = state.open.get_mut(&self.id) {
            open.is_connected = true;
        }
    }
}

impl Drop for Listed {
    fn drop(&mut self) {
        let open = self.shared.lock().open.remove(&self.id);
        open.iter().for_each(Open::end);
    }
}
