//! The status line, which is printed each second.

use super::shared::{Shared, State};
use crate::counts::Event;
use crate::json::Object;
use p2p_directory::record::Recording;
use p2p_directory::{Ingress, Key, OutOfMemory};
use std::collections::BTreeSet;
use std::io::{self, Write};
use std::sync::Arc;
use std::thread;
use std::time::Duration;

/// The time from one line to the next.
const INTERVAL: Duration = Duration::from_secs(1);

/// Prints lines until the node ends, or nobody reads them.
pub fn run(shared: &Arc<Shared>, address: &Ingress) {
    while !shared.is_stopping() {
        if writeln!(io::stdout(), "{}", line(shared, address)).is_err() {
            return;
        }
        thread::sleep(INTERVAL);
    }
}

/// The status of the node at present.
fn line(shared: &Shared, address: &Ingress) -> String {
    let line = {
        let state = shared.lock();
        gauges(shared, &state, address)
    };
    let line = line
        .number("handshakes", shared.handshakes.waiting() as u64)
        .number("connections", shared.connections.taken() as u64)
        .number("threads", shared.threads() as u64);
    shared.counts.write(line).end()
}

fn gauges(shared: &Shared, state: &State, address: &Ingress) -> Object {
    let now = state.now();
    let connected = state.connected().count();
    let directory = state.node.directory();
    let blocked = directory.blocked_peers(now).map(|blocked| blocked.len());
    let latest = directory.latest_set_index();
    Object::new()
        .number("at", now.as_duration().as_nanos())
        .text("key", shared.identity.public_key())
        .text("address", address)
        .number("connected", connected as u64)
        .number("tracked", directory.tracked() as u64)
        .count("blocked", known(shared, blocked))
        .number("retained", directory.retained() as u64)
        .count(
            "latest_set",
            latest.and_then(|index| usize::try_from(index).ok()),
        )
        .count("infos_known", known(shared, infos_known(state)))
        .text("recording", recording(state))
}

/// How the recording of calls stands.
fn recording(state: &State) -> String {
    match state.node.directory().recording() {
        None => "none".to_owned(),
        Some(Recording::Going) => "going".to_owned(),
        Some(Recording::Full) => "full".to_owned(),
        Some(Recording::Failed(error)) => format!("failed: {error}"),
        Some(Recording::OutOfMemory) => "out of memory".to_owned(),
        Some(_) => "ended".to_owned(),
    }
}

/// A count, or `None` if there was no memory for it.
fn known(shared: &Shared, count: Result<usize, OutOfMemory>) -> Option<usize> {
    count
        .inspect_err(|_| shared.counts.event(Event::OutOfMemory))
        .ok()
}

/// How many primary peers of the retained sets have an info that is known and not wanted, the own
/// one included.
fn infos_known(state: &State) -> Result<usize, OutOfMemory> {
    let directory = state.node.directory();
    let mut known: BTreeSet<Key> = BTreeSet::new();
    for place in 0..directory.retained() {
        let Some(bits) = directory.get_random_bit_vec(place)? else {
            continue;
        };
        let Some(peers) = directory.get_peer_set(bits.index)? else {
            continue;
        };
        let peers = peers.primary.into_iter().zip(bits.bits);
        known.extend(
            peers
                .filter(|(_, is_known)| *is_known)
                .map(|(peer, _)| peer),
        );
    }
    Ok(known.len())
}
