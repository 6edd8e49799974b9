//! A connection: the greeting, questions, replies and messages, and the end.

use super::Event;
use super::shared::{Listed, Outgoing, Shared, random};
use super::wire::{DATA, GREETING, Until, read_frame, write_frame};
use p2p_directory::testing::verify;
use p2p_directory::{Data, EncodedData, Error, Key, OutOfMemory, Payload, Received, Reservation};
use std::convert::Infallible;
use std::fmt;
use std::io::{self, BufReader, ErrorKind};
use std::net::{Shutdown, TcpStream};
use std::sync::Arc;
use std::sync::mpsc::{Receiver, RecvTimeoutError, SyncSender, sync_channel};
use std::time::{Duration, Instant};

/// How many frames of gossip a peer may send in the interval in which it asks once: a question and
/// a reply, four times, since frames may be delayed and arrive together.
const GOSSIP_FRAMES: u32 = 8;

/// How many frames are queued for a peer that is slow to read.
const QUEUE: usize = 64;

/// The reason why a connection ended.
enum End {
    /// The stream was closed, by either side.
    Closed(io::Error),
    /// The peer sent what a correct peer doesn't send.
    Broken(String),
    /// This side ended it.
    Left(&'static str),
}

impl End {
    fn is_broken(&self) -> bool {
        matches!(self, End::Broken(_))
    }
}

impl fmt::Display for End {
    fn fmt(&self, f: &mut fmt::Formatter<'_>) -> fmt::Result {
        match self {
            End::Closed(why) if why.kind() == ErrorKind::UnexpectedEof => f.write_str("closed"),
            End::Closed(why) => why.fmt(f),
            End::Broken(why) => f.write_str(why),
            End::Left(why) => f.write_str(why),
        }
    }
}

impl From<io::Error> for End {
    fn from(error: io::Error) -> End {
        match error.kind() {
            ErrorKind::InvalidData => End::Broken(error.to_string()),
            _ => End::Closed(error),
        }
    }
}

impl From<OutOfMemory> for End {
    fn from(_: OutOfMemory) -> End {
        End::Left("out of memory")
    }
}

/// Serves the connection of a reservation until it ends, and then releases the reservation.
pub fn run(shared: &Arc<Shared>, listed: Listed, reservation: Reservation) {
    let peer = *reservation.public_key();
    let Err(end) = serve(shared, &listed, &reservation);
    drop(listed);
    let is_blocked = {
        let mut state = shared.lock();
        let now = state.now();
        let directory = state.node.directory_mut();
        // If an allocation for the block fails, the peer is disconnected all the same, and its
        // cooldown applies.
        let is_blocked = end.is_broken() && directory.block(&peer, now) == Ok(true);
        let released = directory.release(reservation);
        released.expect("this directory granted it");
        is_blocked
    };
    if is_blocked {
        shared.tell(Event::Blocked(peer));
    }
    shared.tell(Event::Ended(peer, end.to_string()));
    shared.wake();
}

fn serve(
    shared: &Arc<Shared>,
    listed: &Listed,
    reservation: &Reservation,
) -> Result<Infallible, End> {
    let outbox = connect(shared, listed, reservation)?;
    read(shared, &listed.stream, *reservation.public_key(), &outbox)
}

/// Connects the peer, greets it, and starts the thread that writes.
fn connect(
    shared: &Arc<Shared>,
    listed: &Listed,
    reservation: &Reservation,
) -> Result<SyncSender<Outgoing>, End> {
    let peer = *reservation.public_key();
    let (outbox, outgoing) = sync_channel(QUEUE);
    let greeting = {
        let mut state = shared.lock();
        let now = state.now();
        // If the peer was blocked or left the sets during the handshake, no connection was there to
        // be ended.
        if !state.node.directory().eligible(&peer, now) {
            return Err(End::Left("the peer is in no set any more"));
        }
        let connected = state.node.directory_mut().connect_reserved(reservation);
        connected.expect("this directory granted it, and it is connected once");
        listed.connect(&mut state, peer, outbox.clone());
        state.node.greeting().to_vec()
    };
    let timed = Until::new(&listed.stream, shared.settings.silence);
    write_frame(timed, &[&greeting])?;
    shared.tell(Event::Connected(peer));
    let stream = listed.stream.try_clone()?;
    shared.spawn(move |shared| {
        // A stream that can't be written to isn't read any longer, either.
        let _ = write(shared, &stream, &outgoing);
        let _ = stream.shutdown(Shutdown::Both);
    })?;
    Ok(outbox)
}

/// Writes the queued frames, and asks at regular intervals, until no sender is left.
fn write(shared: &Shared, stream: &TcpStream, outgoing: &Receiver<Outgoing>) -> io::Result<()> {
    // A frame has to be read whole before the peer counts as silent.
    let timed = || Until::new(stream, shared.settings.silence);
    let mut ask_at = Instant::now();
    loop {
        if Instant::now() >= ask_at {
            ask(shared, timed())?;
            ask_at = Instant::now() + shared.settings.gossip;
        }
        let wait = ask_at.saturating_duration_since(Instant::now());
        match outgoing.recv_timeout(wait) {
            Ok(Outgoing::Frame(frame)) => write_frame(timed(), &[&frame])?,
            Ok(Outgoing::Message(channel, message)) => {
                let size = u32::try_from(message.len()).map_err(|_| ErrorKind::InvalidInput)?;
                let header = EncodedData::new(channel, size);
                write_frame(timed(), &[header.as_bytes(), &message])?;
            }
            Err(RecvTimeoutError::Timeout) => {}
            Err(RecvTimeoutError::Disconnected) => return Ok(()),
        }
    }
}

/// Asks for the wanted infos of a random set.
fn ask(shared: &Shared, stream: Until<'_>) -> io::Result<()> {
    let question = {
        let state = shared.lock();
        let place = random() as usize % state.node.directory().retained().max(1);
        state.node.ask(place)
    };
    match question {
        Ok(Some(question)) => write_frame(stream, &[&question]),
        // There is no set yet, or an allocation failed: the next question may succeed.
        Ok(None) | Err(OutOfMemory) => Ok(()),
    }
}

/// How many frames of gossip a peer may still send in this interval.
struct Allowance {
    left: u32,
    since: Instant,
}

impl Allowance {
    fn new() -> Allowance {
        Allowance {
            left: GOSSIP_FRAMES,
            since: Instant::now(),
        }
    }

    fn admits(&mut self, gossip: Duration) -> bool {
        if self.since.elapsed() >= gossip {
            *self = Allowance::new();
        }
        let is_left = self.left > 0;
        self.left = self.left.saturating_sub(1);
        is_left
    }
}

/// Reads and processes frames until the connection ends.
fn read(
    shared: &Shared,
    stream: &TcpStream,
    peer: Key,
    outbox: &SyncSender<Outgoing>,
) -> Result<Infallible, End> {
    let silence = shared.settings.silence;
    let mut reader = BufReader::new(Until::new(stream, silence));
    let greeting = read_frame(&mut reader, shared.limits)?;
    let greets = greeting.first() == Some(&GREETING);
    if !greets || take(shared, peer, outbox, &greeting)? != Some(peer) {
        return Err(End::Broken("the first frame doesn't greet".to_owned()));
    }
    let mut allowance = Allowance::new();
    loop {
        // A frame has to arrive whole before the peer counts as silent.
        reader.get_mut().renew(silence);
        let frame = read_frame(&mut reader, shared.limits)?;
        match frame.first() {
            Some(&GREETING) => return Err(End::Broken("a second greeting".to_owned())),
            Some(&DATA) => {}
            _ if allowance.admits(shared.settings.gossip) => {}
            _ => {
                shared.tell(Event::Ignored(peer));
                continue;
            }
        }
        take(shared, peer, outbox, &frame)?;
    }
}

/// Passes a frame to the node, and acts on the result. Returns the key of the greeter if it is a
/// greeting.
fn take(
    shared: &Shared,
    peer: Key,
    outbox: &SyncSender<Outgoing>,
    frame: &[u8],
) -> Result<Option<Key>, End> {
    match receive(shared, frame)? {
        Received::Data { channel, message } => {
            let message = frame[message].to_vec();
            shared.tell(Event::Message(peer, Data { channel, message }));
        }
        // An address that can be dialled may be new.
        Received::Greeted(greeter) => {
            learn(shared, frame);
            return Ok(Some(greeter));
        }
        Received::Applied(_) => learn(shared, frame),
        // A peer that doesn't read its replies misses them: it asks again.
        Received::Reply(reply) => {
            let _ = outbox.try_send(Outgoing::Frame(reply));
        }
        Received::Memory => return Err(OutOfMemory.into()),
        // The local clock may be the wrong one.
        Received::Invalid(Error::SynchronyBound) => return Err(End::Left("an info of the future")),
        refused => return Err(End::Broken(format!("{refused:?}"))),
    }
    Ok(None)
}

/// Ends the rests of peers of which the infos of this frame have another address.
fn learn(shared: &Shared, frame: &[u8]) {
    let infos = match Payload::decode(frame, &shared.settings.payload) {
        Ok(Payload::Greeting(info)) => vec![info],
        Ok(Payload::Peers(infos)) => infos,
        _ => return,
    };
    let mut state = shared.lock();
    infos.iter().for_each(|info| state.turns.learn(info));
    drop(state);
    shared.wake();
}

/// The result of the node for a frame. Signatures are verified while it isn't locked.
fn receive(shared: &Shared, frame: &[u8]) -> Result<Received, End> {
    let questions = {
        let state = shared.lock();
        state.node.check(frame, state.wall())?
    };
    let judged = questions.judged_by(verify);
    let received = shared.lock().node.receive_judged(judged);
    Ok(received.expect("this node checked the frame"))
}
