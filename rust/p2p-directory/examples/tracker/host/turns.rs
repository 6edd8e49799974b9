//! Whose turn it is to be dialled.

use p2p_directory::{Info, Ingress, Key, Moment};
use std::collections::HashMap;
use std::net::SocketAddr;

/// The last peer that was dialled, and the peers at whose addresses nobody answered.
#[derive(Debug)]
pub struct Turns {
    last: Key,
    // The address of each peer that is dialled or rests, and until when it rests.
    dialled: HashMap<Key, (SocketAddr, Option<Moment>)>,
}

impl Turns {
    /// Nobody was dialled yet. The first to be dialled is the next one behind the own key.
    pub fn new(own: Key) -> Turns {
        Turns {
            last: own,
            dialled: HashMap::new(),
        }
    }

    /// Puts a sorted list of peers into the order in which they are dialled, without those that
    /// rest.
    pub fn order(&self, peers: &mut Vec<Key>) {
        peers.retain(|peer| !self.dialled.contains_key(peer));
        go_round(peers, &self.last);
    }

    /// The peer is dialled at this address.
    pub fn dial(&mut self, peer: Key, address: SocketAddr) {
        self.last = peer;
        if self.dialled.try_reserve(1).is_ok() {
            self.dialled.insert(peer, (address, None));
        }
    }

    /// The dial of the peer has ended, and it doesn't rest.
    pub fn end(&mut self, peer: &Key) {
        self.dialled.remove(peer);
    }

    /// Nobody answered at the address of the peer, which rests until this time, unless another
    /// address of it has been learnt meanwhile.
    pub fn rest(&mut self, peer: &Key, until: Moment) {
        if let Some((_, rests_until)) = self.dialled.get_mut(peer) {
            *rests_until = Some(until);
        }
    }

    /// An info was accepted. If it has another address, its peer doesn't rest.
    pub fn learn(&mut self, info: &Info) {
        if let Some((address, _)) = self.dialled.get(&info.public_key)
            && info.ingress != Ingress::Socket(*address)
        {
            self.end(&info.public_key);
        }
    }

    /// Ends the rests that are over.
    pub fn expire(&mut self, now: Moment) {
        self.dialled
            .retain(|_, (_, rests_until)| rests_until.is_none_or(|end| end > now));
    }

    /// When the next rest ends.
    pub fn next_end(&self) -> Option<Moment> {
        let ends = self.dialled.values();
        ends.filter_map(|(_, rests_until)| *rests_until).min()
    }
}

/// Begins a sorted list behind this key, and goes round.
fn go_round(peers: &mut [Key], last: &Key) {
    let behind = peers.partition_point(|peer| peer <= last);
    peers.rotate_left(behind);
}
