//! Inbound connections.

use super::connection;
use super::refused_handshake;
use super::shared::{Listed, Shared};
use crate::counts::{Event, Refusal};
use crate::handshake::{HandshakeError, Own};
use crate::ledger::{Direction, Entry};
use crate::limits::Arrival;
use crate::wire::Timed;
use p2p_directory::{Key, Reservation};
use std::io::ErrorKind;
use std::net::{IpAddr, Shutdown, TcpListener, TcpStream};
use std::sync::Arc;
use std::thread;
use std::time::{Duration, Instant};

/// How long the listener waits if there is no stream to accept.
const IDLE: Duration = Duration::from_millis(10);

/// How long it waits if the system can't accept one.
const REST: Duration = Duration::from_millis(50);

/// How long a dialer may take to claim a key, if a handshake may take longer.
const CLAIM: Duration = Duration::from_secs(1);

/// Accepts streams until the node ends. The listener must not block.
pub fn run(shared: &Arc<Shared>, listener: &TcpListener) {
    while !shared.is_stopping() {
        match listener.accept() {
            Ok((stream, from)) => begin(shared, Arc::new(stream), from.ip()),
            Err(error) if error.kind() == ErrorKind::WouldBlock => thread::sleep(IDLE),
            Err(_) => {
                shared.counts.event(Event::NoStream);
                thread::sleep(REST);
            }
        }
    }
}

/// Starts a thread for a stream, within the bounds on handshakes.
fn begin(shared: &Arc<Shared>, stream: Arc<TcpStream>, from: IpAddr) {
    let Some((arrival, gone)) = shared.handshakes.take(from, &stream) else {
        return shared.counts.refusal(Refusal::AddressLimit);
    };
    if let Some(gone) = gone {
        shared.counts.refusal(Refusal::HandshakeLimit);
        // Its thread ends then. The dialer may have ended it before.
        let _ = gone.shutdown(Shutdown::Both);
    }
    let listed = stream
        .set_nonblocking(false)
        .and_then(|()| Listed::new(shared, stream, None));
    match listed {
        // A thread that can't be started is counted, and the stream is closed.
        Ok(listed) => drop(shared.spawn(move |shared| accept(shared, listed, arrival))),
        Err(error) if error.kind() == ErrorKind::OutOfMemory => {
            shared.counts.event(Event::OutOfMemory);
        }
        Err(_) => shared.counts.event(Event::NoStream),
    }
}

/// Authenticates the dialer, and returns when the connection has ended.
fn accept(shared: &Arc<Shared>, listed: Listed, arrival: Arrival<TcpStream>) {
    let peer = match authenticate(shared, &listed) {
        Ok(peer) => peer,
        Err(error) => return shared.counts.refusal(refused_handshake(&error)),
    };
    let Some(slot) = shared.connections.take() else {
        return shared.counts.refusal(Refusal::ConnectionLimit);
    };
    drop(arrival);
    if let Some(reservation) = grant(shared, &listed, &peer) {
        connection::run(shared, listed, reservation, slot);
    }
}

/// Proves the own key to a dialer that claims an acceptable one in time.
fn authenticate(shared: &Shared, listed: &Listed) -> Result<Key, HandshakeError> {
    let own = Own {
        identity: &shared.identity,
        namespace: shared.settings.namespace.as_bytes(),
        sodium: shared.sodium,
    };
    let (begin, whole) = (Instant::now(), shared.settings.handshake);
    let mut stream = Timed::new(&listed.stream, shared.stop)?;
    stream.set_deadline(shared.within(whole.min(CLAIM)));
    own.listen(&mut stream, |stream, peer| {
        stream.set_deadline(shared.within(whole.saturating_sub(begin.elapsed())));
        let mut state = shared.lock();
        let time = state.time_to_look(&shared.settings);
        state.cooldowns.is_over(peer, time) && state.node.directory().acceptable(peer, time)
    })
}

/// Asks for the reservation. During the handshake the peer may have been dialled, blocked, or
/// accepted on another connection.
fn grant(shared: &Shared, listed: &Listed, peer: &Key) -> Option<Reservation> {
    let draw = shared.draw();
    let mut state = shared.lock();
    let now = state.now();
    let time = state.time_to_grant(&shared.settings);
    match state.node.directory_mut().listen(peer, time, draw) {
        Ok(Some(reservation)) => {
            state.cooldowns.begin(peer, time);
            listed.identify(&mut state, *peer);
            shared.record(now, &Entry::Grant(peer, Direction::Listen));
            Some(reservation)
        }
        Ok(None) => {
            shared.counts.refusal(Refusal::NotGranted);
            None
        }
        Err(_) => {
            shared.counts.event(Event::OutOfMemory);
            None
        }
    }
}
