//! Attackers: members of the sets that break rules under their own keys.

use crate::clock::milliseconds;
use crate::process::NAMESPACE;
use p2p_directory::{BitVec, Data, Info, Ingress, Key, Payload};
use p2p_node::handshake::{HandshakeError, Own};
use p2p_node::identity::Identity;
use p2p_node::sodium::Sodium;
use p2p_node::wire::{Timed, read_frame, write_frame};
use std::fmt;
use std::io::{self, ErrorKind, Write};
use std::net::{Ipv4Addr, SocketAddr, TcpStream};
use std::sync::atomic::AtomicBool;
use std::thread;
use std::time::{Duration, Instant};

/// How long an attacker waits before it dials again.
const PAUSE: Duration = Duration::from_millis(50);

/// How long a read or write of an attacker may take.
const PATIENCE: Duration = Duration::from_secs(2);

/// How many questions are asked, with a short pause between two.
const QUESTIONS: usize = 500;

/// How many streams a flood opens.
const STREAMS: usize = 150;

/// How many messages of a MiB a flood has.
const MESSAGES: usize = 64;

/// The length that a long frame announces, in bytes.
const LONG: u32 = 128 << 20;

/// How far ahead an info of the future is, in milliseconds.
const HOUR: u64 = 3_600_000;

/// No frame that an attacker reads is longer.
const READ: u32 = 4 << 20;

static NEVER: AtomicBool = AtomicBool::new(false);

/// What an attacker does.
#[derive(Clone, Copy, Debug, PartialEq, Eq)]
pub enum Attack {
    /// It sends an info of an honest key that it signed itself.
    Signature,
    /// It greets with the info of another.
    OtherGreeting,
    /// It greets twice.
    SecondGreeting,
    /// It sends more infos than a list may have.
    LongList,
    /// It asks without end.
    Questions,
    /// It sends an info of the future.
    Future,
    /// It sends infos that their owners have replaced.
    Replay,
    /// It opens many streams, and says nothing.
    Streams,
    /// It sends questions with another number of bits.
    Bits,
    /// It sends a frame of 128 MiB.
    LongFrame,
    /// It sends bytes that are no payload.
    Garbage,
    /// It sends many messages of a MiB.
    Messages,
    /// It leaves, and comes back at once, again and again.
    Return,
    /// It sends an info of an honest key, whose secret it has.
    StolenKey,
}

impl Attack {
    /// What attackers do that have no secret but their own.
    pub const ALL: [Attack; 13] = [
        Attack::Signature,
        Attack::OtherGreeting,
        Attack::SecondGreeting,
        Attack::LongList,
        Attack::Questions,
        Attack::Future,
        Attack::Replay,
        Attack::Streams,
        Attack::Bits,
        Attack::LongFrame,
        Attack::Garbage,
        Attack::Messages,
        Attack::Return,
    ];
}

impl fmt::Display for Attack {
    fn fmt(&self, f: &mut fmt::Formatter<'_>) -> fmt::Result {
        f.write_str(match self {
            Attack::Signature => "wrong signature",
            Attack::OtherGreeting => "greeting of another",
            Attack::SecondGreeting => "second greeting",
            Attack::LongList => "long list",
            Attack::Questions => "endless questions",
            Attack::Future => "info of the future",
            Attack::Replay => "replayed infos",
            Attack::Streams => "flood of streams",
            Attack::Bits => "other number of bits",
            Attack::LongFrame => "long frame",
            Attack::Garbage => "no payload",
            Attack::Messages => "flood of messages",
            Attack::Return => "comes back at once",
            Attack::StolenKey => "stolen key",
        })
    }
}

/// What an attacker knows of the network.
#[derive(Clone, Copy)]
pub struct Knowledge<'k> {
    /// The source of its nonces.
    pub sodium: Sodium,
    /// Whom it attacks, and where.
    pub target: (Key, SocketAddr),
    /// The key of another honest node, or of the one whose keys were stolen, and then those.
    pub other: (Key, Option<&'k Identity>),
    /// The index of the latest set, and its number of peers.
    pub set: (u64, usize),
    /// Infos of honest nodes that were replaced.
    pub old: &'k [Info],
}

/// The info of a key that this identity signs.
fn signed(identity: &Identity, key: Key, timestamp: u64) -> Info {
    let ingress = Ingress::from(SocketAddr::from((Ipv4Addr::LOCALHOST, 9)));
    let sign = |namespace: &[u8], message: &[u8]| identity.sign(namespace, message);
    Info::sign(key, NAMESPACE.as_bytes(), ingress, timestamp, sign)
}

/// Dials the target until it grants a connection, at most so long.
fn dial(identity: &Identity, known: &Knowledge<'_>, within: Duration) -> io::Result<TcpStream> {
    let begin = Instant::now();
    let (key, address) = known.target;
    let own = Own {
        identity,
        namespace: NAMESPACE.as_bytes(),
        sodium: known.sodium,
    };
    loop {
        let dialled = || -> Result<TcpStream, HandshakeError> {
            let stream = TcpStream::connect_timeout(&address, PATIENCE)?;
            stream.set_nodelay(true)?;
            own.dial(&mut timed(&stream)?, &key)?;
            // A node that doesn't grant the connection closes it without a greeting.
            let greeting = read_frame(&mut timed(&stream)?, READ);
            greeting.map_err(|error| io::Error::other(error.to_string()))?;
            Ok(stream)
        };
        match dialled() {
            Ok(stream) => return Ok(stream),
            Err(error) if begin.elapsed() > within => {
                return Err(io::Error::new(ErrorKind::TimedOut, error.to_string()));
            }
            Err(_) => thread::sleep(PAUSE),
        }
    }
}

fn timed(stream: &TcpStream) -> io::Result<Timed<'_>> {
    let mut timed = Timed::new(stream, &NEVER)?;
    timed.set_deadline(Some(PATIENCE));
    Ok(timed)
}

fn send(stream: &TcpStream, payload: &Payload) -> io::Result<()> {
    write_frame(&mut timed(stream)?, &payload.encode())
}

/// Reads for some time, or until the stream ends.
fn listen(stream: &TcpStream, time: Duration) -> io::Result<()> {
    let mut timed = Timed::new(stream, &NEVER)?;
    timed.set_deadline(Some(time));
    while read_frame(&mut timed, READ).is_ok() {}
    Ok(())
}

/// Makes an attack on the target. Returns once it was made, whatever it led to.
///
/// # Errors
///
/// Says why it could not be made: the target granted no connection in time.
pub fn make(
    attack: Attack,
    identity: &Identity,
    known: &Knowledge<'_>,
    within: Duration,
) -> io::Result<()> {
    if attack == Attack::Streams {
        return flood_streams(known);
    }
    if attack == Attack::Return {
        return come_back(identity, known, within);
    }
    let stream = dial(identity, known, within)?;
    // From here on the target may end the connection at any byte.
    let _ = act(attack, identity, known, &stream);
    listen(&stream, Duration::from_millis(300))
}

fn act(
    attack: Attack,
    identity: &Identity,
    known: &Knowledge<'_>,
    stream: &TcpStream,
) -> io::Result<()> {
    let another;
    let greeter = match attack {
        Attack::OtherGreeting => {
            another = Identity::from_seed(known.sodium, &known.sodium.bytes());
            &another
        }
        _ => identity,
    };
    let info = signed(greeter, greeter.public_key(), milliseconds());
    send(stream, &Payload::Greeting(info.clone()))?;
    match attack {
        Attack::Questions => ask(stream, known),
        Attack::LongFrame => flood_frame(stream),
        Attack::Garbage => write_frame(&mut timed(stream)?, &[9, 9, 9]),
        Attack::Messages => flood_messages(stream),
        _ => match wrong_payload(attack, identity, known, info) {
            Some(payload) => send(stream, &payload),
            None => Ok(()),
        },
    }
}

/// What an attacker sends after its greeting with this info, if that is one payload.
fn wrong_payload(
    attack: Attack,
    identity: &Identity,
    known: &Knowledge<'_>,
    own: Info,
) -> Option<Payload> {
    let now = milliseconds();
    let (index, count) = known.set;
    let (other, stolen) = known.other;
    let infos = match attack {
        Attack::SecondGreeting => return Some(Payload::Greeting(own)),
        Attack::Bits => return Some(question(index, count.saturating_sub(1))),
        Attack::Signature => vec![signed(identity, other, now)],
        Attack::LongList => vec![own; count + 1],
        Attack::Future => vec![signed(identity, own.public_key, now + HOUR)],
        Attack::Replay => {
            let old = known.old.iter();
            let old = old.filter(|info| info.public_key != known.target.0);
            old.take(count).cloned().collect()
        }
        Attack::StolenKey => vec![signed(stolen?, other, now)],
        Attack::OtherGreeting
        | Attack::Questions
        | Attack::LongFrame
        | Attack::Garbage
        | Attack::Messages
        | Attack::Streams
        | Attack::Return => return None,
    };
    Some(Payload::Peers(infos))
}

fn question(index: u64, count: usize) -> Payload {
    let bits = vec![false; count];
    Payload::BitVec(BitVec { index, bits })
}

/// Asks for all infos again and again, so slowly that replies have room, and then reads them.
fn ask(stream: &TcpStream, known: &Knowledge<'_>) -> io::Result<()> {
    let (index, count) = known.set;
    let frame = question(index, count).encode();
    for _ in 0..QUESTIONS {
        write_frame(&mut timed(stream)?, &frame)?;
        thread::sleep(Duration::from_millis(2));
    }
    listen(stream, PATIENCE)
}

/// Dials until the node has granted three connections. It doesn't greet, so the node doesn't dial.
fn come_back(identity: &Identity, known: &Knowledge<'_>, within: Duration) -> io::Result<()> {
    for _ in 0..3 {
        drop(dial(identity, known, within)?);
    }
    Ok(())
}

fn flood_streams(known: &Knowledge<'_>) -> io::Result<()> {
    let (_, address) = known.target;
    let streams: Vec<TcpStream> = (0..STREAMS)
        .map(|_| {
            // The proxy connects to the node before it waits for what the dialer says.
            TcpStream::connect_timeout(&address, PATIENCE)
        })
        .collect::<io::Result<_>>()?;
    thread::sleep(Duration::from_secs(1));
    drop(streams);
    Ok(())
}

fn flood_frame(stream: &TcpStream) -> io::Result<()> {
    let piece = vec![0; 1 << 20];
    let mut timed = timed(stream)?;
    timed.set_deadline(Some(5 * PATIENCE));
    timed.write_all(&LONG.to_be_bytes())?;
    for _ in 0..LONG >> 20 {
        timed.write_all(&piece)?;
    }
    Ok(())
}

fn flood_messages(stream: &TcpStream) -> io::Result<()> {
    let message = vec![7; (1 << 20) - 16];
    let frame = Payload::Data(Data {
        channel: 0,
        message,
    })
    .encode();
    let mut timed = timed(stream)?;
    timed.set_deadline(Some(10 * PATIENCE));
    for _ in 0..MESSAGES {
        write_frame(&mut timed, &frame)?;
    }
    Ok(())
}
