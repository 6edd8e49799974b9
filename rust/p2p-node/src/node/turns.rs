//! Whose turn it is to be dialled.

use p2p_directory::{Info, Ingress, Key, Moment};
use std::collections::HashMap;
use std::net::SocketAddr;

/// The last peer that was dialled, and the peers at whose addresses nobody answered.
#[derive(Debug)]
pub struct Turns {
    last: Key,
    // The address of each peer that is dialled or rests, and until when it rests.
    dialled: HashMap<Key, (SocketAddr, Option<Moment>)>,
}

impl Turns {
    /// Nobody was dialled yet. The first to be dialled is the next one behind the own key.
    pub fn new(own: Key) -> Turns {
        Turns {
            last: own,
            dialled: HashMap::new(),
        }
    }

    /// Puts a sorted list of peers into the order in which they are dialled, without those that
    /// rest.
    pub fn order(&self, peers: &mut Vec<Key>) {
        peers.retain(|peer| !self.dialled.contains_key(peer));
        go_round(peers, &self.last);
    }

    /// The peer is dialled at this address.
    pub fn dial(&mut self, peer: Key, address: SocketAddr) {
        self.last = peer;
        if self.dialled.try_reserve(1).is_ok() {
            self.dialled.insert(peer, (address, None));
        }
    }

    /// The dial of the peer has ended, and it doesn't rest.
    pub fn end(&mut self, peer: &Key) {
        self.dialled.remove(peer);
    }

    /// Nobody answered at the address of the peer, which rests until this time, unless another
    /// address of it has been learnt meanwhile.
    pub fn rest(&mut self, peer: &Key, until: Moment) {
        if let Some((_, rests_until)) = self.dialled.get_mut(peer) {
            *rests_until = Some(until);
        }
    }

    /// An info was accepted. If it has another address, its peer doesn't rest.
    pub fn learn(&mut self, info: &Info) {
        if let Some((address, _)) = self.dialled.get(&info.public_key)
            && info.ingress != Ingress::Socket(*address)
        {
            self.end(&info.public_key);
        }
    }

    /// Ends the rests that are over.
    pub fn expire(&mut self, now: Moment) {
        self.dialled
            .retain(|_, (_, rests_until)| rests_until.is_none_or(|end| end > now));
    }

    /// When the next rest ends.
    pub fn next_end(&self) -> Option<Moment> {
        let ends = self.dialled.values();
        ends.filter_map(|(_, rests_until)| *rests_until).min()
    }
}

/// Begins a sorted list behind this key, and goes round.
fn go_round(peers: &mut [Key], last: &Key) {
    let behind = peers.partition_point(|peer| peer <= last);
    peers.rotate_left(behind);
}

#[cfg(test)]
mod tests {
    use super::*;
    use p2p_directory::testing::{info_at, key};
    use std::time::Duration;

    /// The dials of a round.
    const DIALS: usize = 16;

    fn address(port: u16) -> SocketAddr {
        SocketAddr::from(([1, 2, 3, 4], port))
    }

    fn after(seconds: u64) -> Moment {
        Moment::EPOCH.saturating_add(Duration::from_secs(seconds))
    }

    /// The peers that are dialled in each of these rounds, in which the same ones may be dialled.
    fn dialled(turns: &mut Turns, peers: &[Key], rounds: usize) -> Vec<Vec<Key>> {
        let mut dialled = Vec::new();
        for _ in 0..rounds {
            let mut peers = peers.to_vec();
            turns.order(&mut peers);
            peers.truncate(DIALS);
            for peer in &peers {
                turns.dial(*peer, address(1));
                turns.end(peer);
            }
            dialled.push(peers);
        }
        dialled
    }

    #[test]
    fn forty_that_do_not_answer_leave_one_behind_them_its_turn() {
        let mut peers: Vec<Key> = (1..=41).map(key).collect();
        peers.sort();
        let mut turns = Turns::new(key(0));
        let rounds = dialled(&mut turns, &peers, 3);
        let answers = peers.last().expect("41 peers");
        assert!(rounds.concat().contains(answers), "it gets no turn");
        // The third round goes on at the front.
        assert_eq!(rounds.concat()[..41], peers);
        assert_eq!(rounds[2][9..], peers[..7]);
    }

    #[test]
    fn the_first_round_begins_behind_the_own_key() {
        let mut peers: Vec<Key> = (1..=5).map(key).collect();
        peers.sort();
        for (place, own) in peers.iter().enumerate() {
            let mut others = peers.clone();
            others.remove(place);
            let mut turns = Turns::new(*own);
            let round = &dialled(&mut turns, &others, 1)[0];
            let expected = [&others[place..], &others[..place]].concat();
            assert_eq!(*round, expected);
        }
    }

    #[test]
    fn who_does_not_answer_rests_until_a_time_or_another_address() {
        let mut turns = Turns::new(key(1));
        let may_dial = |turns: &Turns| {
            let mut peers = vec![key(2)];
            turns.order(&mut peers);
            !peers.is_empty()
        };
        let info = info_at(2, 5, 7);
        let Ingress::Socket(address) = info.ingress else {
            panic!("a socket")
        };
        turns.dial(key(2), address);
        turns.rest(&key(2), after(8));
        turns.learn(&info);
        turns.learn(&info_at(3, 5, 8));
        turns.expire(after(7));
        assert!(!may_dial(&turns));
        assert_eq!(turns.next_end(), Some(after(8)));
        turns.expire(after(8));
        assert!(may_dial(&turns));
        assert_eq!(turns.next_end(), None);

        turns.dial(key(2), address);
        turns.rest(&key(2), after(8));
        turns.learn(&info_at(2, 6, 8));
        assert!(may_dial(&turns));

        // The other address comes while the dial is under way.
        turns.dial(key(2), address);
        turns.learn(&info_at(2, 6, 8));
        turns.rest(&key(2), after(8));
        assert!(may_dial(&turns));
    }
}
