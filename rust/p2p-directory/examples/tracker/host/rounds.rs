//! What happens by time alone: dials, and the ends of blocks and cooldowns.

use super::connection;
use super::shared::{Listed, Shared, State};
use super::wire::handshake_as_dialer;
use super::{Event, Failure};
use p2p_directory::{Dialable, Ingress, Key, Metadata, OutOfMemory, Reservation};
use std::net::{SocketAddr, TcpStream};
use std::sync::Arc;
use std::sync::mpsc::Receiver;
use std::time::Duration;

/// The maximum number of dials that a round starts.
const DIALS: usize = 16;

/// The minimum and the maximum time from one round to the next, unless it is woken.
const WAITS: (Duration, Duration) = (Duration::from_millis(20), Duration::from_secs(10));

/// For so many cooldowns a peer isn't dialled after nobody answered at its address. Each dial begins
/// a cooldown in which the peer would be refused, and it may be at another address now.
const REST: u32 = 4;

/// Makes rounds until the host ends.
pub fn run(shared: &Arc<Shared>, wakes: &Receiver<()>) {
    while !shared.lock().is_ending() {
        let wait = round(shared).unwrap_or(WAITS.1);
        // The next round begins when it is woken or the time has passed.
        let _ = wakes.recv_timeout(wait);
    }
}

fn round(shared: &Arc<Shared>) -> Result<Duration, OutOfMemory> {
    if forget(&mut shared.lock()) {
        shared.tell(Event::Unblocked);
    }
    let (granted, wait) = grant(shared)?;
    for (reservation, address) in granted {
        let peer = *reservation.public_key();
        let started = shared.spawn(move |shared| {
            if let Err(why) = dial(shared, reservation, address) {
                shared.tell(Event::DialFailed(peer, why.to_string()));
            }
            shared.wake();
        });
        if let Err(why) = started {
            shared.lock().turns.end(&peer);
            shared.tell(Event::DialFailed(peer, why.to_string()));
        }
    }
    Ok(wait)
}

/// Ends blocks, cooldowns and rests that are over, and returns whether a block ended.
fn forget(state: &mut State) -> bool {
    let now = state.now();
    state.turns.expire(now);
    let directory = state.node.directory_mut();
    directory.forget_cooled(now);
    directory.unblock_expired(now)
}

/// The reservations of this round with the addresses to dial, and how long to wait for the next
/// round.
fn grant(shared: &Shared) -> Result<(Vec<(Reservation, SocketAddr)>, Duration), OutOfMemory> {
    let mut granted = Vec::new();
    let mut state = shared.lock();
    let now = state.now();
    let State { node, turns, .. } = &mut *state;
    let directory = node.directory_mut();
    let dialable = directory.dialable(now)?;
    let Dialable {
        mut peers,
        next_query_at,
        ..
    } = dialable;
    turns.order(&mut peers);
    for peer in peers.iter().take(DIALS) {
        let Some(reservation) = directory.dial(peer, now, shared.draw())? else {
            continue;
        };
        // A dropped reservation is released. There are no names: `allow_dns` is off.
        if let Metadata::Dialer(_, Ingress::Socket(address)) = *reservation.metadata() {
            turns.dial(*peer, address);
            granted.push((reservation, address));
        }
    }
    let times = [next_query_at, directory.next_unblock(), turns.next_end()];
    let wait = match times.into_iter().flatten().min() {
        _ if peers.len() > DIALS => WAITS.0,
        Some(at) => at.duration_since(now).clamp(WAITS.0, WAITS.1),
        None => WAITS.1,
    };
    Ok((granted, wait))
}

/// Dials, and returns when the connection has ended.
fn dial(
    shared: &Arc<Shared>,
    reservation: Reservation,
    address: SocketAddr,
) -> Result<(), Failure> {
    let (own, time) = (&shared.settings.own, shared.settings.handshake);
    let peer = *reservation.public_key();
    let stream = TcpStream::connect_timeout(&address, time);
    answered(shared, &peer, address, stream.is_ok());
    let stream = stream?;
    let listed = Listed::new(shared, stream, Some(peer))?;
    handshake_as_dialer(&listed.stream, own, &peer, time)?;
    connection::run(shared, listed, reservation);
    Ok(())
}

/// Lets the peer rest if nobody answered at its address. A bootstrapper that starts again may know
/// nobody, so it is looked for where it is configured to be.
fn answered(shared: &Shared, peer: &Key, address: SocketAddr, is_answered: bool) {
    let bootstrapper = (*peer, Ingress::Socket(address));
    let mut state = shared.lock();
    if is_answered || shared.settings.bootstrappers.contains(&bootstrapper) {
        return state.turns.end(peer);
    }
    let cooldown = shared.settings.cfg.peer_connection_cooldown;
    let until = state.now().saturating_add(cooldown.saturating_mul(REST));
    state.turns.rest(peer, until);
}
