//! A frame, as the library and this crate's own decoder read it: both return the same value, or the
//! same error.

use p2p_directory::sized::testing::{info, key, setup};
use p2p_directory::sized::{
    Info, Node, OrderedSet, Pair, Payload, Received, Reservation, Setup, TrackedPeers,
};
use p2p_directory::{BitVec, EncodedData, Error, Moment, PayloadConfig};
use std::collections::BTreeMap;
use std::slice;
use std::time::Duration;

/// The index of the retained set, and how many peers it has: the keys from 1.
pub const INDEX: u64 = 300;
pub const PEERS: u16 = 19;

/// The number of the local key.
const OWN: u16 = 9;

/// The peers whose infos may be shared: the local key, and the connected peers.
const SHARED: [u16; 4] = [2, OWN, 11, 19];

/// When frames are received, and the latest timestamp that is accepted, in milliseconds: that time
/// plus the bound.
const NOW: Moment = Moment::from_secs(1);
const LATEST: u64 = 31_000;

/// How many infos a node accepts at a time: fewer than the wider limits allow in a frame.
const MOST_INFOS: usize = 3;

/// Wide and narrow limits.
pub const LIMITS: [PayloadConfig; 2] = [
    PayloadConfig {
        max_bit_vec: 64,
        max_peers: 4,
        max_data_length: 32,
    },
    PayloadConfig {
        max_bit_vec: 9,
        max_peers: 1,
        max_data_length: 4,
    },
];

const MEMORY: &str = "there is memory";

/// A node that has a set, and infos of its peers with timestamp 7. No frame changes it, since no
/// signature is valid.
struct Informed<P: Pair> {
    limits: PayloadConfig,
    node: Node<P>,
    // One that is dropped is released.
    _held: Vec<Reservation<P>>,
}

/// Nodes with wide and with narrow limits.
pub struct Frames<P: Pair>([Informed<P>; 2]);

impl<P: Pair> Frames<P> {
    pub fn new() -> Frames<P> {
        Frames(LIMITS.map(Informed::new))
    }

    /// Passes in the frame under wide and narrow limits, with invalid and with valid signatures, and
    /// returns its payload under the wide ones. Panics if the library reads it differently from this
    /// crate.
    pub fn compare(&mut self, frame: &[u8]) -> Option<Payload<P>> {
        let [wide, narrow] = &mut self.0;
        narrow.compare(frame);
        let read = wide.compare(frame);
        if let Some(payload) = &read {
            compare_changes(frame, payload);
        }
        read
    }
}

impl<P: Pair> Informed<P> {
    fn new(limits: PayloadConfig) -> Informed<P> {
        let mut node = new_node(limits);
        let held = meet(&mut node, (1..=PEERS).map(key::<P>), SHARED.map(key::<P>));
        let infos: Vec<Info<P>> = (1..=PEERS).map(|number| info(number, 7)).collect();
        node.directory_mut().update_peers(&infos).expect(MEMORY);
        Informed {
            limits,
            node,
            _held: held,
        }
    }

    fn compare(&mut self, frame: &[u8]) -> Option<Payload<P>> {
        let read = Payload::decode(frame, &self.limits);
        let (asked, wanted) = match &read {
            Ok(payload) => (questions(payload), answer(payload, |_| false)),
            Err(fault) => (&[][..], Received::Codec(*fault)),
        };
        let judged = {
            let told = self.node.check(frame, NOW).expect(MEMORY);
            assert_eq!(told.len(), asked.len());
            for (question, info) in told.iter().zip(asked) {
                assert_eq!(question.public_key, info.public_key);
                assert_eq!(question.message, info.signed_bytes());
                assert_eq!(question.signature, info.signature);
            }
            told.judged(asked.first().map(|_| false)).expect("verdicts")
        };
        let received = self.node.receive_judged(judged).expect("its own frame");
        assert_eq!(received, wanted);
        let mut signatures = Vec::new();
        let received = self.node.receive(frame, NOW, |question| {
            signatures.push(question.signature);
            false
        });
        assert_eq!(received, wanted);
        let first: Vec<P::Signature> = asked.iter().take(1).map(|info| info.signature).collect();
        assert_eq!(signatures, first);
        self.is_unchanged();
        let payload = read.ok()?;
        assert_eq!(payload.encode(), frame);
        Some(payload)
    }

    fn is_unchanged(&self) {
        let nothing = BitVec {
            index: INDEX,
            bits: vec![false; usize::from(PEERS)],
        };
        let told = self.node.directory().infos(&nothing, NOW);
        assert_eq!(told, Ok(Some(shared(&nothing))));
    }
}

// Passes the frame to a new node that is connected with all peers whose infos are in it, and
// compares what it stores afterwards.
fn compare_changes<P: Pair>(frame: &[u8], payload: &Payload<P>) {
    let infos = infos_of(payload);
    if infos.is_empty() {
        return;
    }
    let keys = || infos.iter().map(|info| info.public_key);
    let mut node = new_node(LIMITS[0]);
    let _held = meet(&mut node, keys(), keys());
    let received = node.receive(frame, NOW, |asked| is_right::<P>(&asked.signature));
    assert_eq!(received, answer(payload, is_right::<P>));
    let mut newest: BTreeMap<P::Key, &Info<P>> = BTreeMap::new();
    if matches!(received, Received::Greeted(_) | Received::Applied(_)) {
        for info in infos {
            let known = newest.entry(info.public_key).or_insert(info);
            if info.timestamp > known.timestamp {
                *known = info;
            }
        }
    }
    for peer in keys().filter(|peer| *peer != key::<P>(OWN)) {
        let held = node.directory().info(&peer).expect(MEMORY);
        assert_eq!(held.as_ref(), newest.get(&peer).copied());
    }
}

// Accepts half of all signatures, whatever they are, so that many are valid.
fn is_right<P: Pair>(signature: &P::Signature) -> bool {
    signature.as_ref()[0].is_multiple_of(2)
}

fn new_node<P: Pair>(payload: PayloadConfig) -> Node<P> {
    let setup = Setup {
        payload,
        peer_gossip_max_count: MOST_INFOS,
        ..setup(OWN)
    };
    Node::new(&setup).expect(MEMORY)
}

// Tracks these peers, and connects those.
fn meet<P: Pair>(
    node: &mut Node<P>,
    peers: impl Iterator<Item = P::Key>,
    connected: impl IntoIterator<Item = P::Key>,
) -> Vec<Reservation<P>> {
    let directory = node.directory_mut();
    let peers = TrackedPeers::from(OrderedSet::from_iter_dedup(peers));
    let _ = directory.track(INDEX, &peers).expect(MEMORY);
    let mut held = Vec::new();
    for peer in connected {
        let granted = directory.listen(&peer, NOW, Duration::ZERO).expect(MEMORY);
        if let Some(reservation) = granted {
            directory.connect_reserved(&reservation).expect("reserved");
            held.push(reservation);
        }
    }
    held
}

fn infos_of<P: Pair>(payload: &Payload<P>) -> &[Info<P>] {
    match payload {
        Payload::Greeting(info) => slice::from_ref(info),
        Payload::Peers(infos) => infos,
        Payload::Data(_) | Payload::BitVec(_) => &[],
    }
}

// The infos that have to be verified: up to the first that is refused for another reason, and none
// if there are too many.
fn questions<P: Pair>(payload: &Payload<P>) -> &[Info<P>] {
    let infos = infos_of(payload);
    if infos.len() > MOST_INFOS {
        return &[];
    }
    let refused = infos.iter().position(|info| refusal(info, true).is_some());
    &infos[..refused.unwrap_or(infos.len())]
}

fn refusal<P: Pair>(info: &Info<P>, is_right: bool) -> Option<Error> {
    match info.public_key {
        own if own == key::<P>(OWN) => Some(Error::ReceivedSelf),
        _ if info.timestamp > LATEST => Some(Error::SynchronyBound),
        _ if !is_right => Some(Error::InvalidSignature),
        _ => None,
    }
}

// The result of a node that has the set, if these signatures are valid.
fn answer<P: Pair>(payload: &Payload<P>, is_right: impl Fn(&P::Signature) -> bool) -> Received<P> {
    let infos = infos_of(payload);
    if infos.len() > MOST_INFOS {
        return Received::Invalid(Error::TooManyPeers(infos.len() as u64));
    }
    let mut judged = infos.iter();
    if let Some(error) = judged.find_map(|info| refusal(info, is_right(&info.signature))) {
        return Received::Invalid(error);
    }
    match payload {
        Payload::Data(data) => {
            let header = EncodedData::new(data.channel, data.message.len() as u32);
            let begin = header.as_bytes().len();
            Received::Data {
                channel: data.channel,
                message: begin..begin + data.message.len(),
            }
        }
        Payload::Greeting(info) => Received::Greeted(info.public_key),
        Payload::Peers(infos) => Received::Applied(infos.len()),
        Payload::BitVec(bits) if bits.index != INDEX => {
            Received::Reply(Payload::<P>::Peers(Vec::new()).encode())
        }
        Payload::BitVec(bits) if bits.bits.len() != usize::from(PEERS) => Received::Malformed,
        Payload::BitVec(bits) => Received::Reply(Payload::Peers(shared::<P>(bits)).encode()),
    }
}

// The infos that are sent to a peer that sent these bits of the set.
fn shared<P: Pair>(bits: &BitVec) -> Vec<Info<P>> {
    let unknown = SHARED
        .into_iter()
        .filter(|number| !bits.bits[usize::from(*number) - 1]);
    let timestamp = |number| if number == OWN { 0 } else { 7 };
    unknown
        .map(|number| info(number, timestamp(number)))
        .collect()
}
