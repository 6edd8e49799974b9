//! Rounds: whom to dial, and which blocks and cooldowns have ended.

use super::connection;
use super::refused_handshake;
use super::shared::{Listed, Shared, State};
use crate::counts::Event;
use crate::handshake::{HandshakeError, Own};
use crate::ledger::{Direction, Entry};
use crate::limits::Slot;
use crate::wire::Timed;
use p2p_directory::{Ingress, Key, Metadata, Moment, OutOfMemory, Reservation};
use std::io::{self, ErrorKind};
use std::net::{SocketAddr, TcpStream};
use std::sync::Arc;
use std::time::{Duration, Instant};

/// The maximum number of dials that a round starts.
const DIALS: usize = 16;

/// For so many cooldowns a peer isn't dialled after nobody answered at its address. Each dial begins
/// a cooldown in which the peer would be refused, and it may be at another address now.
const REST_OF_PEER: u32 = 4;

/// The minimum and the maximum time from one round to the next, unless it is woken.
pub const WAITS: (Duration, Duration) = (Duration::from_millis(20), Duration::from_secs(10));

/// The time to the next round if there is no memory, or no slot of a connection.
const REST: Duration = Duration::from_millis(250);

/// How long one attempt to connect lasts, so that the end of the node is noticed.
const ATTEMPT: Duration = Duration::from_secs(1);

/// A dial that was granted.
struct Dial {
    reservation: Reservation,
    address: SocketAddr,
    slot: Slot,
}

/// Makes a round, and returns how long to wait for the next one.
pub fn round(shared: &Arc<Shared>) -> Duration {
    expire(shared, &mut shared.lock());
    let (granted, wait) = match grant(shared) {
        Ok(granted) => granted,
        Err(OutOfMemory) => {
            shared.counts.event(Event::OutOfMemory);
            return REST;
        }
    };
    for dial in granted {
        let peer = *dial.reservation.public_key();
        let started = shared.spawn(move |shared| perform(shared, dial));
        if let Err(error) = started {
            // The reservation was dropped with the closure, and is released by the next call.
            let mut state = shared.lock();
            state.turns.end(&peer);
            let now = state.now();
            shared.record(now, &Entry::NotConnected(&peer, &error));
        }
    }
    wait
}

/// Ends blocks, cooldowns and rests that are over.
fn expire(shared: &Shared, state: &mut State) {
    let now = state.now();
    state.turns.expire(now);
    let directory = state.node.directory_mut();
    let is_over = |end: Option<Moment>| end.is_some_and(|end| end <= now);
    if is_over(directory.next_cooled()) {
        directory.forget_cooled(now);
    }
    if is_over(directory.next_unblock()) && directory.unblock_expired(now) {
        shared.record(now, &Entry::Unblock);
    }
}

/// The dials of this round, and how long to wait for the next one.
fn grant(shared: &Shared) -> Result<(Vec<Dial>, Duration), OutOfMemory> {
    let mut granted = Vec::new();
    let mut state = shared.lock();
    let look = state.time_to_look(&shared.settings);
    let mut dialable = state.node.directory().dialable(look)?;
    state.turns.order(&mut dialable.peers);
    for peer in dialable.peers.iter().take(DIALS) {
        let Some(slot) = shared.connections.take() else {
            return Ok((granted, REST));
        };
        match grant_one(shared, &mut state, peer, slot) {
            Ok(dial) => granted.extend(dial),
            // The dials that were granted before are made all the same.
            Err(OutOfMemory) => {
                shared.counts.event(Event::OutOfMemory);
                return Ok((granted, REST));
            }
        }
    }
    let directory = state.node.directory();
    let times = [
        dialable.next_query_at,
        directory.next_unblock(),
        directory.next_cooled(),
        state.turns.next_end(),
    ];
    let wait = match times.into_iter().flatten().min() {
        _ if dialable.peers.len() > DIALS => WAITS.0,
        Some(at) => at.duration_since(look).clamp(WAITS.0, WAITS.1),
        None => WAITS.1,
    };
    Ok((granted, wait))
}

fn grant_one(
    shared: &Shared,
    state: &mut State,
    peer: &Key,
    slot: Slot,
) -> Result<Option<Dial>, OutOfMemory> {
    let now = state.now();
    let time = state.time_to_grant(&shared.settings);
    let directory = state.node.directory_mut();
    let Some(reservation) = directory.dial(peer, time, shared.draw())? else {
        return Ok(None);
    };
    state.cooldowns.begin(peer, time);
    // A dropped reservation is released. There are no names, since they aren't allowed.
    let Metadata::Dialer(_, Ingress::Socket(address)) = *reservation.metadata() else {
        return Ok(None);
    };
    state.turns.dial(*peer, address);
    shared.record(now, &Entry::Grant(peer, Direction::Dial));
    Ok(Some(Dial {
        reservation,
        address,
        slot,
    }))
}

/// Dials, and returns when the connection has ended.
fn perform(shared: &Arc<Shared>, dial: Dial) {
    let Dial {
        reservation,
        address,
        slot,
    } = dial;
    let peer = *reservation.public_key();
    let begin = Instant::now();
    let connected = connect(shared, address, shared.settings.handshake);
    answered(shared, &peer, address, connected.is_ok());
    let listed = connected
        .map_err(HandshakeError::Stream)
        .and_then(|stream| authenticate(shared, &peer, stream, begin));
    match listed {
        Ok(listed) => connection::run(shared, listed, reservation, slot),
        Err(error) => {
            // A peer that can't be reached breaks no rule, and one that isn't the peer isn't known.
            shared.counts.event(Event::DialFailed);
            if !matches!(error, HandshakeError::Stream(_)) {
                shared.counts.refusal(refused_handshake(&error));
            }
            let state = shared.lock();
            drop(reservation);
            let now = state.now();
            shared.record(now, &Entry::NotConnected(&peer, &error));
        }
    }
    shared.wake();
}

/// Lets the peer rest if nobody answered at its address. A bootstrapper that starts again may know
/// nobody, so it is looked for where it is configured to be.
pub fn answered(shared: &Shared, peer: &Key, address: SocketAddr, is_answered: bool) {
    let bootstrapper = (*peer, Ingress::Socket(address));
    let mut state = shared.lock();
    if is_answered || shared.settings.bootstrappers.contains(&bootstrapper) {
        return state.turns.end(peer);
    }
    let rest = shared.settings.cooldown.saturating_mul(REST_OF_PEER);
    let until = state.now().saturating_add(rest);
    state.turns.rest(peer, until);
}

/// Makes sure that the peer is at the other end of a stream.
fn authenticate(
    shared: &Arc<Shared>,
    peer: &Key,
    stream: TcpStream,
    begin: Instant,
) -> Result<Listed, HandshakeError> {
    let within = shared.settings.handshake;
    let listed = Listed::new(shared, stream, Some(*peer))?;
    let own = Own {
        identity: &shared.identity,
        namespace: shared.settings.namespace.as_bytes(),
        sodium: shared.sodium,
    };
    let mut stream = Timed::new(&listed.stream, shared.stop)?;
    stream.set_deadline(shared.within(within.saturating_sub(begin.elapsed())));
    own.dial(&mut stream, peer)?;
    Ok(listed)
}

fn connect(shared: &Shared, address: SocketAddr, within: Duration) -> io::Result<TcpStream> {
    let begin = Instant::now();
    loop {
        let left = within.saturating_sub(begin.elapsed());
        if shared.is_stopping() || left.is_zero() {
            return Err(ErrorKind::TimedOut.into());
        }
        match TcpStream::connect_timeout(&address, left.min(ATTEMPT)) {
            Err(error) if error.kind() == ErrorKind::TimedOut => {}
            result => return result,
        }
    }
}
