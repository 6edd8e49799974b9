//! What a frame of a peer leads to.

use super::connection::{Breach, End};
use super::shared::Shared;
use crate::counts::{Event, Refusal};
use crate::identity::verify;
use crate::ledger::Entry;
use p2p_directory::{Error, Key, Moment, OutOfMemory, Payload, Received};
use std::slice;
use std::sync::mpsc::{SyncSender, TrySendError};

/// Passes a frame to the node, and acts on the result. Returns the key of the greeter if it is a
/// greeting. A frame for which there is no memory is dropped.
pub fn process(
    shared: &Shared,
    peer: Key,
    outbox: &SyncSender<Vec<u8>>,
    frame: &[u8],
) -> Result<Option<Key>, End> {
    let (received, wall) = match receive(shared, frame) {
        Ok(received) => received,
        Err(OutOfMemory) => (Received::Memory, Moment::EPOCH),
    };
    match received {
        Received::Data { .. } => shared.counts.event(Event::Message),
        // An address that can be dialled may be new.
        Received::Greeted(greeter) => {
            learn(shared, peer, frame);
            shared.wake();
            return Ok(Some(greeter));
        }
        Received::Applied(count) => {
            if count > 0 {
                learn(shared, peer, frame);
                shared.wake();
            }
        }
        Received::Reply(reply) => send(shared, outbox, cut(shared, wall, frame, reply)),
        Received::Codec(fault) => return Err(End::Broken(Breach::Codec(fault))),
        Received::Malformed => return Err(End::Broken(Breach::Malformed)),
        // The local clock may be the wrong one.
        Received::Invalid(Error::SynchronyBound) => {
            shared.counts.refusal(Refusal::SynchronyBound);
            return Err(End::Left("an info of the future"));
        }
        Received::Invalid(error) => return Err(End::Broken(Breach::Invalid(error))),
        Received::Memory => shared.counts.event(Event::OutOfMemory),
        _ => return Err(End::Broken(Breach::Other)),
    }
    Ok(None)
}

/// The result of the node for a frame, and its time by the wall clock. Signatures are verified while
/// the node isn't locked.
fn receive(shared: &Shared, frame: &[u8]) -> Result<(Received, Moment), OutOfMemory> {
    let (questions, wall) = {
        let state = shared.lock();
        let wall = state.wall();
        (state.node.check(frame, wall)?, wall)
    };
    let judged = questions.judged_by(verify);
    match shared.lock().node.receive_judged(judged) {
        Ok(received) => Ok((received, wall)),
        // It can't be that another node checked the frame. If it were, the frame would be dropped.
        Err(_) => Err(OutOfMemory),
    }
}

/// Queues a reply. A peer that doesn't read its replies misses them: it asks again.
fn send(shared: &Shared, outbox: &SyncSender<Vec<u8>>, reply: Option<Vec<u8>>) {
    let Some(reply) = reply else {
        return shared.counts.event(Event::OutOfMemory);
    };
    if let Err(TrySendError::Full(_)) = outbox.try_send(reply) {
        shared.counts.event(Event::ReplyDropped);
    }
}

/// The reply itself, or one with fewer infos if peers don't accept so many, or `None` if there is
/// no memory.
fn cut(shared: &Shared, wall: Moment, frame: &[u8], reply: Vec<u8>) -> Option<Vec<u8>> {
    let most = shared.settings.gossip_count();
    if count_of_infos(&reply) <= most as u64 {
        return Some(reply);
    }
    shared.counts.event(Event::ReplyCut);
    let Ok(Payload::BitVec(bits)) = Payload::decode(frame, &shared.settings.payload()) else {
        return None;
    };
    let draw = shared.sodium.number();
    let state = shared.lock();
    let reply = state.node.reply_at_most(&bits, wall, most, draw);
    // The set may have gone since.
    reply.ok().flatten()
}

/// How many infos a reply has: the varint after its prefix.
fn count_of_infos(reply: &[u8]) -> u64 {
    let mut count = 0;
    for (place, byte) in reply.iter().skip(1).take(5).enumerate() {
        count |= u64::from(byte & 0x7f) << (7 * place);
        if byte & 0x80 == 0 {
            break;
        }
    }
    count
}

/// Tells the infos of a frame that was accepted to the dialer and the ledger.
fn learn(shared: &Shared, peer: Key, frame: &[u8]) {
    let payload = Payload::decode(frame, &shared.settings.payload());
    let infos = match &payload {
        Ok(Payload::Greeting(info)) => slice::from_ref(info),
        Ok(Payload::Peers(infos)) => infos,
        _ => return,
    };
    let now = {
        let mut state = shared.lock();
        infos.iter().for_each(|info| state.turns.learn(info));
        state.now()
    };
    for info in infos {
        shared.record(now, &Entry::Info(&peer, info));
    }
}

#[cfg(test)]
mod tests {
    use super::*;
    use p2p_directory::testing::info;

    #[test]
    fn counts_the_infos_of_a_reply() {
        for count in [0, 1, 127, 128, 300] {
            let infos = (0..count).map(|_| info(1, 0)).collect();
            let reply = Payload::Peers(infos).encode();
            assert_eq!(count_of_infos(&reply), count);
        }
        assert_eq!(count_of_infos(&[]), 0);
    }
}
