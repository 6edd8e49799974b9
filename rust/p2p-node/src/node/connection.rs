//! A connection: the greeting, questions and replies, and the end.

use super::received;
use super::shared::{Listed, Shared};
use crate::broken::Rule;
use crate::counts::{Event, Refusal};
use crate::ledger::{Direction, Entry};
use crate::limits::{Slot, TokenBucket};
use crate::wire::{FrameError, Timed, read_frame, write_frame};
use p2p_directory::{CodecError, Error, Key, Metadata, OutOfMemory, Reservation};
use std::convert::Infallible;
use std::fmt;
use std::io::{self, BufReader, ErrorKind};
use std::net::{Shutdown, TcpStream};
use std::sync::Arc;
use std::sync::mpsc::{Receiver, RecvTimeoutError, SyncSender, sync_channel};
use std::time::Instant;

/// The first byte of a greeting: see `docs/FORMATS.md`.
const GREETING: u8 = 1;

/// A frame with an empty list of infos, which is sent when there is nothing to ask.
const NOTHING: [u8; 2] = [3, 0];

/// How many frames are queued for a peer that is slow to read.
const QUEUE: usize = 16;

/// What a peer sent that no correct peer sends.
#[derive(Debug)]
pub enum Breach {
    /// The first frame isn't a greeting.
    NoGreeting,
    /// The greeting is of another key.
    OtherGreeting(Key),
    /// A later frame is a greeting.
    SecondGreeting,
    /// A frame is longer than frames may be: its length in bytes.
    FrameLength(u32),
    /// A frame encodes no payload.
    Codec(CodecError),
    /// A question has another number of bits than its set has peers.
    Malformed,
    /// An info, or their number, is invalid.
    Invalid(Error),
    /// A refusal of a kind that this version doesn't know.
    Other,
}

impl Breach {
    fn refusal(&self) -> Refusal {
        match self {
            Breach::NoGreeting | Breach::OtherGreeting(_) | Breach::SecondGreeting => {
                Refusal::Greeting
            }
            Breach::FrameLength(_) => Refusal::FrameLength,
            Breach::Codec(_) => Refusal::Codec,
            Breach::Malformed => Refusal::Malformed,
            Breach::Invalid(Error::TooManyPeers(_)) => Refusal::TooManyPeers,
            Breach::Invalid(Error::ReceivedSelf) => Refusal::ReceivedSelf,
            Breach::Invalid(Error::InvalidSignature) => Refusal::InvalidSignature,
            Breach::Invalid(Error::SynchronyBound) => Refusal::SynchronyBound,
            Breach::Invalid(_) | Breach::Other => Refusal::Other,
        }
    }
}

impl fmt::Display for Breach {
    fn fmt(&self, f: &mut fmt::Formatter<'_>) -> fmt::Result {
        match self {
            Breach::NoGreeting => f.write_str("the first frame doesn't greet"),
            Breach::OtherGreeting(key) => write!(f, "a greeting of {key}"),
            Breach::SecondGreeting => f.write_str("a second greeting"),
            Breach::FrameLength(length) => write!(f, "a frame of {length} bytes"),
            Breach::Codec(fault) => write!(f, "no payload: {fault}"),
            Breach::Malformed => f.write_str("a wrong number of bits"),
            Breach::Invalid(error) => error.fmt(f),
            Breach::Other => f.write_str("a frame that was refused"),
        }
    }
}

/// The reason why a connection ended.
#[derive(Debug)]
pub enum End {
    /// The stream was closed by either side, or the peer was silent.
    Closed(io::Error),
    /// The peer broke a rule, and is blocked.
    Broken(Breach),
    /// This side ended it.
    Left(&'static str),
}

impl fmt::Display for End {
    fn fmt(&self, f: &mut fmt::Formatter<'_>) -> fmt::Result {
        match self {
            End::Closed(error) if error.kind() == ErrorKind::UnexpectedEof => f.write_str("closed"),
            End::Closed(error) if error.kind() == ErrorKind::TimedOut => f.write_str("silent"),
            End::Closed(error) => error.fmt(f),
            End::Broken(breach) => breach.fmt(f),
            End::Left(why) => f.write_str(why),
        }
    }
}

impl From<io::Error> for End {
    fn from(error: io::Error) -> End {
        End::Closed(error)
    }
}

impl From<OutOfMemory> for End {
    fn from(_: OutOfMemory) -> End {
        End::Left("no memory")
    }
}

impl From<FrameError> for End {
    fn from(error: FrameError) -> End {
        match error {
            FrameError::Stream(error) => End::Closed(error),
            FrameError::TooLong(length) => End::Broken(Breach::FrameLength(length)),
            FrameError::OutOfMemory => OutOfMemory.into(),
        }
    }
}

/// Serves the connection of a reservation until it ends, and then releases the reservation.
pub fn run(shared: &Arc<Shared>, listed: Listed, reservation: Reservation, slot: Slot) {
    let slot = Arc::new(slot);
    match connect(shared, &listed, &reservation) {
        Ok(greeting) => {
            let peer = *reservation.public_key();
            let Err(end) = serve(shared, &listed, peer, &greeting, &slot);
            drop(listed);
            close(shared, reservation, &end);
        }
        Err(why) => {
            drop(listed);
            let mut state = shared.lock();
            let now = state.now();
            shared.record(now, &Entry::NotConnected(reservation.public_key(), &why));
            // A reservation of this directory is always released.
            let _ = state.node.directory_mut().release(reservation);
        }
    }
    drop(slot);
    shared.wake();
}

/// Blocks the peer if it broke a rule, and releases the reservation.
fn close(shared: &Shared, reservation: Reservation, end: &End) {
    let peer = *reservation.public_key();
    let mut state = shared.lock();
    let now = state.now();
    let directory = state.node.directory_mut();
    if let End::Broken(breach) = end {
        shared.counts.refusal(breach.refusal());
        match directory.block(&peer, now) {
            Ok(true) => {
                shared.counts.event(Event::Blocked);
                shared.record(now, &Entry::Block(&peer, breach));
            }
            Ok(false) => {}
            // The peer is disconnected all the same, and its cooldown applies.
            Err(OutOfMemory) => shared.counts.event(Event::OutOfMemory),
        }
    }
    // A reservation of this directory is always released.
    let _ = directory.release(reservation);
    shared.record(now, &Entry::Disconnected(&peer, end));
}

/// Greets the peer, starts the thread that writes, and reads until the connection ends.
fn serve(
    shared: &Arc<Shared>,
    listed: &Listed,
    peer: Key,
    greeting: &[u8],
    slot: &Arc<Slot>,
) -> Result<Infallible, End> {
    let mut stream = Timed::new(&listed.stream, shared.stop)?;
    stream.set_deadline(shared.within(shared.settings.silence()));
    write_frame(&mut stream, greeting)?;
    shared.counts.event(Event::FrameOut);
    let (outbox, outgoing) = sync_channel(QUEUE);
    let (stream, slot) = (Arc::clone(&listed.stream), Arc::clone(slot));
    shared.spawn(move |shared| {
        // A stream that can't be written to isn't read any longer, either.
        let _ = write(shared, &stream, &outgoing);
        let _ = stream.shutdown(Shutdown::Both);
        drop(slot);
    })?;
    read(shared, listed, peer, &outbox)
}

/// Marks the peer as connected, and returns the greeting. If the peer was blocked or left the sets
/// during the handshake, no connection was there to be ended.
fn connect(
    shared: &Shared,
    listed: &Listed,
    reservation: &Reservation,
) -> Result<Vec<u8>, &'static str> {
    let peer = reservation.public_key();
    let mut state = shared.lock();
    let now = state.now();
    if !state.node.directory().eligible(peer, now) {
        return Err("in no set any more");
    }
    let connected = state.node.directory_mut().connect_reserved(reservation);
    connected.map_err(|_| "not reserved")?;
    listed.connect(&mut state);
    let direction = match reservation.metadata() {
        Metadata::Dialer(..) => Direction::Dial,
        _ => Direction::Listen,
    };
    shared.record(now, &Entry::Connected(peer, direction));
    Ok(state.node.greeting().to_vec())
}

/// Writes the queued frames, and asks in each tick, until no sender is left.
fn write(shared: &Shared, stream: &TcpStream, outgoing: &Receiver<Vec<u8>>) -> io::Result<()> {
    let mut stream = Timed::new(stream, shared.stop)?;
    let mut ask_at = Instant::now();
    loop {
        let now = Instant::now();
        let frame = if now >= ask_at {
            ask_at = now + shared.settings.tick;
            question(shared)
        } else {
            match outgoing.recv_timeout(ask_at.saturating_duration_since(now)) {
                Ok(frame) => frame,
                Err(RecvTimeoutError::Timeout) => continue,
                Err(RecvTimeoutError::Disconnected) => return Ok(()),
            }
        };
        stream.set_deadline(shared.within(shared.settings.silence()));
        write_frame(&mut stream, &frame)?;
        shared.counts.event(Event::FrameOut);
        shared.leak(&frame);
    }
}

/// The question for the wanted infos of a random set. If there is none, the frame only shows that
/// this node isn't silent.
fn question(shared: &Shared) -> Vec<u8> {
    let question = {
        let state = shared.lock();
        let count = state.node.directory().retained().max(1) as u64;
        let place = shared.sodium.number() % count;
        state.node.ask(place as usize)
    };
    match question {
        Ok(Some(question)) if !shared.settings.breaks(Rule::NoRepair) => question,
        Ok(_) => NOTHING.to_vec(),
        Err(OutOfMemory) => {
            shared.counts.event(Event::OutOfMemory);
            NOTHING.to_vec()
        }
    }
}

/// Reads and processes frames until the connection ends.
fn read(
    shared: &Shared,
    listed: &Listed,
    peer: Key,
    outbox: &SyncSender<Vec<u8>>,
) -> Result<Infallible, End> {
    let mut reader = BufReader::new(Timed::new(&listed.stream, shared.stop)?);
    let greeting = next_frame(shared, &mut reader)?;
    if greeting.first() != Some(&GREETING) {
        return Err(End::Broken(Breach::NoGreeting));
    }
    match received::process(shared, peer, outbox, &greeting)? {
        Some(greeter) if greeter == peer => {}
        Some(other) => return Err(End::Broken(Breach::OtherGreeting(other))),
        None => return Err(OutOfMemory.into()),
    }
    let settings = &shared.settings;
    let begin = Instant::now();
    let mut bucket = TokenBucket::new(settings.burst, settings.refill, settings.tick, begin);
    loop {
        let frame = next_frame(shared, &mut reader)?;
        if frame.first() == Some(&GREETING) {
            return Err(End::Broken(Breach::SecondGreeting));
        }
        let wait = bucket.take(Instant::now());
        if !wait.is_zero() && !settings.breaks(Rule::NoLimit) {
            // What else the peer sends stays in the stream, until it can't send any more.
            shared.counts.event(Event::Delayed);
            reader.get_mut().pause(wait)?;
        }
        received::process(shared, peer, outbox, &frame)?;
    }
}

/// Reads a frame, which has to arrive whole before the peer counts as silent.
fn next_frame(shared: &Shared, reader: &mut BufReader<Timed<'_>>) -> Result<Vec<u8>, End> {
    let silence = shared.within(shared.settings.silence());
    reader.get_mut().set_deadline(silence);
    let frame = read_frame(reader, shared.frame_limit).inspect_err(|error| {
        if let FrameError::OutOfMemory = error {
            shared.counts.event(Event::OutOfMemory);
        }
    })?;
    shared.counts.event(Event::FrameIn);
    shared.leak(&frame);
    Ok(frame)
}
