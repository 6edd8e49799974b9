//! A node that runs: its start, its ticks and its end.

mod clock;
mod connection;
mod dialer;
mod listener;
mod received;
mod shared;
mod status;
#[cfg(test)]
mod tests;
mod tracking;
mod turns;

use crate::broken::Rule;
use crate::counts::{Counts, Event, Refusal};
use crate::handshake::HandshakeError;
use crate::identity::{Identity, verify};
use crate::ledger::{Entry, Ledger};
use crate::sets::SetFiles;
use crate::settings::Settings;
use crate::sodium::{Sodium, stop_on_signals};
use crate::writer::{Queued, Writer};
use clock::Clock;
use p2p_directory::record::Recorder;
use p2p_directory::{Info, Ingress, Moment, Node, Setup};
use shared::{Parts, Shared};
use std::fmt::Display;
use std::fs::OpenOptions;
use std::io::{self, BufWriter, Write};
use std::mem;
use std::net::TcpListener;
use std::os::unix::fs::OpenOptionsExt;
use std::sync::Arc;
use std::sync::mpsc::{Receiver, sync_channel};
use std::thread;
use std::time::{Duration, Instant, SystemTime};

/// How long the main thread waits before it looks whether the node has to end.
const POLL: Duration = Duration::from_millis(50);

/// How long the end waits for threads.
const PATIENCE: Duration = Duration::from_millis(1400);

/// How much longer it waits at most until the ledger and the record are written.
const OF_FILES: Duration = Duration::from_millis(300);

/// Of so many ticks, a peer is blocked in one, by the rule that blocks at random.
const TICKS_TO_BLOCK: u64 = 4;

/// How many bytes of recorded calls are queued at once.
const RECORD_BUFFER: usize = 64 << 10;

/// How many bytes of them wait at most until they are written. If there are more, the record ends.
const RECORD_ROOM: usize = 8 << 20;

/// Runs a node until a signal ends it.
///
/// # Errors
///
/// Says which setting the node can't start with, and why.
pub fn run(settings: Settings) -> Result<(), String> {
    let sodium = Sodium::new().map_err(|error| error.to_string())?;
    let identity = Identity::read(sodium, &settings.key)?;
    let listener = listen(&settings)?;
    let address = own_address(&settings, &listener)?;
    let counts = Arc::new(Counts::default());
    let ledger = ledger(&settings, &counts)?;
    let record = record(&settings)?;
    let myself = own_info(&settings, &identity, address.clone())?;
    let setup = setup(&settings, myself.clone());
    let node = match &record {
        Some(record) => Node::new_recorded(&setup, recorder(&settings, record)),
        None => Node::new(&setup),
    };
    let node = node.map_err(|error| format!("settings: {error}"))?;
    let mut files = SetFiles::new(settings.sets.clone());
    let stop = stop_on_signals().map_err(|error| format!("signals: {error}"))?;
    let parts = Parts {
        frame_limit: settings.frame_limit().ok_or("settings: frames too long")?,
        counts,
        ledger,
        record,
        settings,
        sodium,
        identity,
        stop,
        clock: Clock::new(SystemTime::now),
    };
    let (wakes, woken) = sync_channel(1);
    let shared = Arc::new(Shared::new(parts, node, wakes));
    let now = shared.lock().now();
    shared.record(now, &Entry::Started(&myself));
    tracking::update(&shared, &mut files);
    start_threads(&shared, listener, address)?;
    tick(&shared, &mut files, &woken);
    end(&shared);
    Ok(())
}

/// The ledger, if there is to be one. What can't be written is counted, and said once.
fn ledger(settings: &Settings, counts: &Arc<Counts>) -> Result<Option<Ledger>, String> {
    let Some(path) = &settings.ledger else {
        return Ok(None);
    };
    let (counts, mut is_said) = (Arc::clone(counts), false);
    let lost = move |error: &io::Error| {
        counts.event(Event::LedgerLost);
        if !mem::replace(&mut is_said, true) {
            warn(&format_args!("ledger: {error}"));
        }
    };
    let ledger = Ledger::open(path, lost);
    let said = |error: io::Error| format!("ledger {}: {error}", path.display());
    ledger.map(Some).map_err(said)
}

/// What writes the record of the directory's calls, if they are to be recorded.
fn record(settings: &Settings) -> Result<Option<Writer>, String> {
    let Some(path) = &settings.record else {
        return Ok(None);
    };
    let mut options = OpenOptions::new();
    let file = options.write(true).create(true).truncate(true).mode(0o600);
    let file = file.open(path);
    // After an error no later part of the record may stand in the file.
    let writer = file.and_then(|file| Writer::start(file, RECORD_ROOM, |_| false));
    let said = |error: io::Error| format!("record {}: {error}", path.display());
    writer.map(Some).map_err(said)
}

/// The recorder of the directory's calls, which ends if they can't be written in time.
fn recorder(settings: &Settings, record: &Writer) -> Recorder {
    let sink = BufWriter::with_capacity(RECORD_BUFFER, Queued(record.clone()));
    Recorder::new(sink, settings.record_limit)
}

fn listen(settings: &Settings) -> Result<TcpListener, String> {
    let address = settings.listen;
    let listener = TcpListener::bind(address).and_then(|listener| {
        listener.set_nonblocking(true)?;
        Ok(listener)
    });
    listener.map_err(|error| format!("can't listen at {address}: {error}"))
}

fn own_address(settings: &Settings, listener: &TcpListener) -> Result<Ingress, String> {
    let bound = listener.local_addr().map_err(|error| error.to_string())?;
    let address = settings.address.clone();
    let address = address.unwrap_or_else(|| Ingress::from(bound));
    if let Some(advice) = settings.advice(&address) {
        warn(&advice);
    }
    // Nobody may read it.
    let _ = writeln!(io::stdout(), "listening {bound}");
    Ok(address)
}

fn own_info(settings: &Settings, identity: &Identity, address: Ingress) -> Result<Info, String> {
    let now = Moment::try_from(SystemTime::now()).map_err(|error| error.to_string())?;
    let timestamp = u64::try_from(now.as_duration().as_millis());
    let timestamp = timestamp.map_err(|error| format!("the time: {error}"))?;
    let namespace = settings.namespace.as_bytes();
    let sign = |namespace: &[u8], message: &[u8]| identity.sign(namespace, message);
    let info = Info::sign(identity.public_key(), namespace, address, timestamp, sign);
    match info.verify(namespace, verify) {
        true => Ok(info),
        false => Err("the own signature is wrong".to_owned()),
    }
}

fn setup(settings: &Settings, myself: Info) -> Setup {
    Setup {
        bootstrappers: settings.bootstrappers.clone(),
        myself,
        cfg: settings.directory(),
        payload: settings.payload(),
        peer_gossip_max_count: settings.gossip_count(),
        synchrony_bound: settings.synchrony,
        namespace: settings.namespace.clone().into_bytes(),
    }
}

/// Starts the threads of the listener and of the status line.
fn start_threads(
    shared: &Arc<Shared>,
    listener: TcpListener,
    address: Ingress,
) -> Result<(), String> {
    let said = |error: &dyn Display| format!("no thread: {error}");
    let of_listener = Arc::clone(shared);
    let started = thread::Builder::new().spawn(move || listener::run(&of_listener, &listener));
    started.map_err(|error| said(&error))?;
    let of_status = Arc::clone(shared);
    let started = thread::Builder::new().spawn(move || status::run(&of_status, &address));
    started.map_err(|error| said(&error))?;
    Ok(())
}

/// Reads sets in each tick, and makes a round whenever one is due, until the node has to end.
fn tick(shared: &Arc<Shared>, files: &mut SetFiles, woken: &Receiver<()>) {
    let mut next_tick = Instant::now() + shared.settings.tick;
    let mut next_round = Instant::now();
    while !shared.is_stopping() {
        let now = Instant::now();
        if now >= next_tick {
            next_tick = now + shared.settings.tick;
            tracking::update(shared, files);
            block_at_random(shared);
            shared.lock().node.directory().flush_record();
        }
        if now >= next_round {
            next_round = now + woken_round(woken, || dialer::round(shared));
        }
        let next = next_tick.min(next_round);
        let wait = next.saturating_duration_since(Instant::now()).min(POLL);
        if woken.recv_timeout(wait).is_ok() {
            next_round = next_round.min(now + dialer::WAITS.0);
        }
    }
}

/// Makes a round, and returns how long to wait for the next one. What woke this round is done; what
/// wakes the node meanwhile may have come too late for this round, and begins the next one.
fn woken_round(woken: &Receiver<()>, round: impl FnOnce() -> Duration) -> Duration {
    let _ = woken.try_recv();
    round()
}

/// Blocks a peer that broke no rule, if the node breaks the rule that it doesn't.
fn block_at_random(shared: &Shared) {
    if !shared.settings.breaks(Rule::BlocksAtRandom) {
        return;
    }
    let draw = shared.sodium.number();
    let mut state = shared.lock();
    let now = state.now();
    let peer = state.connected().next();
    if let Some(peer) = peer.filter(|_| draw.is_multiple_of(TICKS_TO_BLOCK)) {
        if state.node.directory_mut().block(&peer, now) == Ok(true) {
            shared.counts.event(Event::Blocked);
            shared.record(now, &Entry::Block(&peer, &"at random"));
        }
        state.disconnect(&[peer]);
    }
}

/// Ends all connections, and waits for their threads, which release their reservations, and then for
/// the files.
fn end(shared: &Shared) {
    let begin = Instant::now();
    shared.lock().end();
    while shared.threads() > 0 && begin.elapsed() < PATIENCE {
        thread::sleep(Duration::from_millis(5));
    }
    let held = shared.connections.taken();
    if held > 0 {
        warn(&format_args!("{held} connections had not ended"));
    }
    let state = shared.lock();
    let now = state.now();
    shared.record(now, &Entry::Stopped(held));
    state.node.directory().end_record();
    drop(state);
    let left = (PATIENCE + OF_FILES).saturating_sub(begin.elapsed());
    for name in shared.finish_files(left) {
        warn(&format_args!("{name}: not written to its end"));
    }
}

/// Says something on the standard error output. Nobody may read it.
fn warn(message: &dyn Display) {
    let _ = writeln!(io::stderr(), "p2p-node: {message}");
}

/// How a failed handshake is counted.
fn refused_handshake(error: &HandshakeError) -> Refusal {
    match error {
        HandshakeError::Stream(_) => Refusal::HandshakeStream,
        HandshakeError::NotAcceptable(_) => Refusal::NotAcceptable,
        HandshakeError::WrongKey(_) => Refusal::WrongKey,
        HandshakeError::Reflected => Refusal::Reflected,
        HandshakeError::Signature(_) => Refusal::HandshakeSignature,
    }
}
