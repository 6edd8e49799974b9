//! Sets of peers, from files to the directory.

use super::shared::Shared;
use super::warn;
use crate::broken::Rule;
use crate::counts::Event;
use crate::ledger::Entry;
use crate::sets::{Loaded, PeerSet, SetFiles};
use p2p_directory::{OutOfMemory, TrackError, Tracked};

/// Why a set was not registered.
enum Refused {
    /// The set is wrong.
    Wrong(String),
    /// There was no memory for it.
    OutOfMemory,
}

impl From<OutOfMemory> for Refused {
    fn from(_: OutOfMemory) -> Refused {
        Refused::OutOfMemory
    }
}

impl From<TrackError> for Refused {
    fn from(error: TrackError) -> Refused {
        match error {
            TrackError::OutOfMemory => Refused::OutOfMemory,
            error => Refused::Wrong(format!("{error}: see --largest-set")),
        }
    }
}

/// Registers the sets of files that have changed. A file that is refused is named on the standard
/// error output. One for which there is no memory is read again in the next tick.
pub fn update(shared: &Shared, files: &mut SetFiles) {
    for Loaded { path, set } in files.load() {
        match set
            .map_err(Refused::Wrong)
            .and_then(|set| register(shared, &set))
        {
            Ok(()) => {}
            Err(Refused::Wrong(why)) => {
                shared.counts.event(Event::SetRefused);
                warn(&format_args!("set {}: {why}", path.display()));
            }
            Err(Refused::OutOfMemory) => {
                shared.counts.event(Event::OutOfMemory);
                files.forget(&path);
            }
        }
    }
}

/// Registers a set, and ends the connections of peers that no set names any more. A set that was
/// registered before is left as it is.
fn register(shared: &Shared, set: &PeerSet) -> Result<(), Refused> {
    let PeerSet { index, peers } = set;
    let mut state = shared.lock();
    let now = state.now();
    match state.node.directory().get_peer_set(*index)? {
        Some(retained) if retained == *peers => return Ok(()),
        Some(_) => {
            let why = format!("the set {index} has other peers already, and keeps them");
            return Err(Refused::Wrong(why));
        }
        None => {}
    }
    let Tracked::Accepted(to_disconnect) = state.node.track(*index, peers)? else {
        let latest = state.node.directory().latest_set_index().unwrap_or(0);
        let why = format!("the index {index} isn't above the latest one, {latest}");
        return Err(Refused::Wrong(why));
    };
    let entry = Entry::Set(*index, peers.primary.len(), peers.secondary.len());
    shared.record(now, &entry);
    for peer in &to_disconnect {
        shared.record(now, &Entry::Teardown(peer, *index));
    }
    if !shared.settings.breaks(Rule::KeepsDropped) {
        state.disconnect(&to_disconnect);
    }
    drop(state);
    shared.wake();
    Ok(())
}
