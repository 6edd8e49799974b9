//! What the proxies saw: which connections carried which frames, and when.

use crate::clock::now;
use crate::weather::Side;
use p2p_directory::{Info, Key, Payload, PayloadConfig};
use std::collections::{BTreeMap, BTreeSet, HashMap, HashSet};
use std::time::Duration;

/// The first byte of a list of infos: see `docs/FORMATS.md`.
pub const INFOS: u8 = 3;

/// Under these limits each frame is decoded that has the form of one.
const NO_LIMITS: PayloadConfig = PayloadConfig {
    max_bit_vec: u32::MAX as u64,
    max_peers: u32::MAX as usize,
    max_data_length: u32::MAX as usize,
};

/// What one side sent on a connection, and the proxy delivered.
#[derive(Clone, Debug, Default)]
pub struct Sent {
    /// When its last byte of the handshake was about to be delivered.
    pub signed: Option<Duration>,
    /// When each frame was delivered, in milliseconds since the connection began.
    pub frames: Vec<u32>,
    /// When the first bytes after its handshake arrived at the proxy.
    pub first: Option<Duration>,
    /// How many lists of infos it sent.
    pub lists: u64,
}

/// A connection through a proxy, of which the dialer claimed a key.
#[derive(Clone, Debug)]
pub struct Connection {
    /// When it began.
    pub begun: Duration,
    /// The key that the dialer claimed, and the number of its life.
    pub dialer: (Key, usize),
    /// The key of the listener, and the number of its life.
    pub listener: (Key, usize),
    /// What the dialer sent.
    pub from_dialer: Sent,
    /// What the listener sent.
    pub from_listener: Sent,
}

impl Connection {
    /// The sender and the receiver of what a side sends.
    pub fn ends(&self, side: Side) -> [(Key, usize); 2] {
        match side {
            Side::Dialer => [self.dialer, self.listener],
            Side::Listener => [self.listener, self.dialer],
        }
    }

    /// When each frame of both sides was delivered.
    pub fn times(&self) -> impl Iterator<Item = Duration> {
        let both = self.from_dialer.frames.iter();
        let both = both.chain(&self.from_listener.frames);
        both.map(|passed| self.begun + Duration::from_millis(u64::from(*passed)))
    }
}

/// What a node was sent in one of its lives.
#[derive(Clone, Debug, Default)]
pub struct Received {
    /// The latest timestamp of each key that honest nodes sent.
    pub known: HashMap<Key, u64>,
    /// The frames with infos that honest nodes sent.
    pub honest: HashSet<Vec<u8>>,
    /// The frames that attackers sent.
    pub hostile: HashSet<Vec<u8>>,
    /// The infos in those that are newer than what honest nodes had sent before.
    pub newer: Vec<Info>,
}

/// All that the proxies of a network saw.
#[derive(Debug, Default)]
pub struct Traffic {
    /// The connections on which a key was claimed.
    pub connections: Vec<Connection>,
    /// What each node was sent, by its key and the number of its life.
    pub received: HashMap<(Key, usize), Received>,
    /// The encoded infos that honest nodes sent.
    pub shared: BTreeSet<Vec<u8>>,
    /// How many frames were delivered.
    pub frames: u64,
    lives: BTreeMap<Key, usize>,
    attackers: HashSet<Key>,
}

impl Traffic {
    /// What was seen of a network with these attackers, before it began.
    pub fn new(attackers: impl IntoIterator<Item = Key>) -> Traffic {
        Traffic {
            attackers: attackers.into_iter().collect(),
            ..Traffic::default()
        }
    }

    /// A new life of a node begins: what it was sent before counts no more.
    pub fn begin_life(&mut self, node: Key, life: usize) {
        self.lives.insert(node, life);
    }

    /// The present life of a node.
    fn life(&self, node: &Key) -> usize {
        self.lives.get(node).copied().unwrap_or(0)
    }

    /// Adds a connection, and returns its place.
    pub fn begin(&mut self, begun: Duration, dialer: Key, listener: (Key, usize)) -> usize {
        let dialer = (dialer, self.life(&dialer));
        self.connections.push(Connection {
            begun,
            dialer,
            listener,
            from_dialer: Sent::default(),
            from_listener: Sent::default(),
        });
        self.connections.len() - 1
    }

    /// A side has sent its handshake, which is about to be delivered.
    pub fn sign(&mut self, place: usize, side: Side, at: Duration) {
        if let Some(sent) = self.sent(place, side) {
            sent.signed = Some(at);
        }
    }

    /// The first bytes of a side after its handshake have arrived.
    pub fn begin_frames(&mut self, place: usize, side: Side, at: Duration) {
        if let Some(sent) = self.sent(place, side) {
            sent.first.get_or_insert(at);
        }
    }

    fn sent(&mut self, place: usize, side: Side) -> Option<&mut Sent> {
        let connection = self.connections.get_mut(place)?;
        Some(match side {
            Side::Dialer => &mut connection.from_dialer,
            Side::Listener => &mut connection.from_listener,
        })
    }

    /// A frame of a side was delivered.
    pub fn deliver(&mut self, place: usize, side: Side, frame: Vec<u8>) {
        let Some(connection) = self.connections.get(place) else {
            return;
        };
        let [(sender, _), receiver] = connection.ends(side);
        let passed = now().saturating_sub(connection.begun).as_millis();
        let is_list = frame.first() == Some(&INFOS);
        if let Some(sent) = self.sent(place, side) {
            sent.frames.push(u32::try_from(passed).unwrap_or(u32::MAX));
            sent.lists += u64::from(is_list);
        }
        self.frames += 1;
        self.keep(&sender, receiver, frame);
    }

    /// Keeps what a frame tells its receiver.
    fn keep(&mut self, sender: &Key, receiver: (Key, usize), frame: Vec<u8>) {
        let is_hostile = self.attackers.contains(sender);
        let infos = infos_of(&frame);
        if infos.is_empty() && !is_hostile {
            return;
        }
        let received = self.received.entry(receiver).or_default();
        if is_hostile {
            let known = &received.known;
            let is_newer = |info: &Info| {
                let known = known.get(&info.public_key);
                known.is_none_or(|known| info.timestamp > *known)
            };
            let newer = infos.into_iter().filter(is_newer);
            received.newer.extend(newer);
            received.hostile.insert(frame);
        } else {
            for info in &infos {
                let known = received.known.entry(info.public_key).or_default();
                *known = info.timestamp.max(*known);
            }
            self.shared.extend(infos.iter().map(Info::encode));
            received.honest.insert(frame);
        }
    }

    /// The latest timestamp of a key that honest nodes sent to a node in a life.
    pub fn known(&self, receiver: (Key, usize), key: &Key) -> Option<u64> {
        self.received.get(&receiver)?.known.get(key).copied()
    }
}

/// The infos of a frame, if it has any.
fn infos_of(frame: &[u8]) -> Vec<Info> {
    // The empty list is the most frequent frame.
    if !matches!(frame.first(), Some(1 | 3)) || frame.len() <= 2 {
        return Vec::new();
    }
    match Payload::decode(frame, &NO_LIMITS) {
        Ok(Payload::Greeting(info)) => vec![info],
        Ok(Payload::Peers(infos)) => infos,
        _ => Vec::new(),
    }
}

#[cfg(test)]
mod tests {
    use super::*;
    use p2p_directory::testing::{info, key};

    #[test]
    fn what_was_delivered_is_known_in_that_life_alone() {
        let mut traffic = Traffic::new([key(9)]);
        traffic.begin_life(key(2), 3);
        let place = traffic.begin(now(), key(1), (key(2), 3));
        let frame = Payload::Peers(vec![info(5, 70), info(6, 80)]).encode();
        traffic.deliver(place, Side::Dialer, frame.clone());
        assert_eq!(traffic.known((key(2), 3), &key(5)), Some(70));
        assert_eq!(traffic.known((key(2), 3), &key(7)), None);
        assert_eq!(traffic.known((key(2), 4), &key(5)), None);
        assert_eq!(traffic.known((key(1), 0), &key(5)), None);
        assert!(traffic.received[&(key(2), 3)].honest.contains(&frame));
        assert_eq!(traffic.connections[place].from_dialer.lists, 1);
        // The other direction.
        traffic.deliver(place, Side::Listener, frame);
        assert_eq!(traffic.known((key(1), 0), &key(6)), Some(80));
    }

    #[test]
    fn frames_of_attackers_are_kept_apart() {
        let mut traffic = Traffic::new([key(9)]);
        let place = traffic.begin(now(), key(9), (key(2), 0));
        traffic.deliver(place, Side::Dialer, vec![9, 9]);
        traffic.deliver(place, Side::Listener, vec![3, 0]);
        let received = &traffic.received[&(key(2), 0)];
        assert!(received.hostile.contains([9, 9].as_slice()));
        assert!(traffic.shared.is_empty() && received.honest.is_empty());
        // What an attacker repeats is not newer than what honest nodes sent.
        let honest = traffic.begin(now(), key(1), (key(2), 0));
        traffic.deliver(
            honest,
            Side::Dialer,
            Payload::Peers(vec![info(5, 70)]).encode(),
        );
        let infos = vec![info(5, 60), info(5, 80), info(6, 10)];
        traffic.deliver(place, Side::Dialer, Payload::Peers(infos).encode());
        let received = &traffic.received[&(key(2), 0)];
        let newer: Vec<u64> = received.newer.iter().map(|info| info.timestamp).collect();
        assert_eq!(newer, [80, 10]);
        assert_eq!(traffic.known((key(2), 0), &key(5)), Some(70));
    }
}
