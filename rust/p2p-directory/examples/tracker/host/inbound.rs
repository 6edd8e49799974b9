//! Inbound connections.

use super::connection;
use super::shared::{Listed, Shared};
use super::wire::handshake_as_listener;
use super::{Event, Failure};
use p2p_directory::Key;
use std::net::TcpListener;
use std::sync::Arc;
use std::thread;
use std::time::Duration;

/// How long the listener waits if the system can't accept a stream.
const REST: Duration = Duration::from_millis(50);

/// Accepts streams until the host ends.
pub fn run(shared: &Arc<Shared>, listener: &TcpListener) {
    for stream in listener.incoming() {
        if shared.lock().is_ending() {
            return;
        }
        let Ok(stream) = stream else {
            thread::sleep(REST);
            continue;
        };
        let started = Listed::new(shared, stream, None).and_then(|listed| {
            shared.spawn(move |shared| {
                if let Err(why) = accept(shared, listed) {
                    shared.tell(Event::Refused(why.to_string()));
                }
            })
        });
        if let Err(why) = started {
            shared.tell(Event::Refused(why.to_string()));
        }
    }
}

/// Authenticates the dialer, and returns when the connection has ended.
fn accept(shared: &Arc<Shared>, listed: Listed) -> Result<(), Failure> {
    let (own, time) = (&shared.settings.own, shared.settings.handshake);
    let is_acceptable = |peer: &Key| {
        let state = shared.lock();
        state.node.directory().acceptable(peer, state.now())
    };
    let peer = handshake_as_listener(&listed.stream, own, time, is_acceptable)?;
    // During the handshake the peer may have been dialled, blocked or accepted on another connection.
    let granted = {
        let mut state = shared.lock();
        let now = state.now();
        let directory = state.node.directory_mut();
        directory.listen(&peer, now, shared.draw())?
    };
    let reservation = granted.ok_or("the peer may not connect now")?;
    connection::run(shared, listed, reservation);
    Ok(())
}
