//! The arguments of measured calls: keys in no order, infos, sets, directories.

use crate::Outcome;
use p2p_directory::sized::{
    Bytes, Directory, Info, Node, OrderedSet, Pair, Payload, Question, Setup, TrackedPeers,
};
use p2p_directory::{BitVec, Config, Ingress, PayloadConfig};
use std::net::SocketAddr;
use std::num::NonZeroUsize;
use std::time::Duration;

/// How many sets are retained unless said otherwise.
pub(crate) const SETS: usize = 4;

// With how many bytes of the key a signature begins.
const fn compared<P: Pair>() -> usize {
    if P::KEY_SIZE < P::SIGNATURE_SIZE {
        P::KEY_SIZE
    } else {
        P::SIGNATURE_SIZE
    }
}

const NAMESPACE: &[u8] = b"rows";

// A number whose bits depend on all bits of another, so that keys are in no order.
fn mixed(number: u64) -> u64 {
    let z = number
        .wrapping_add(1)
        .wrapping_mul(0x9e37_79b9_7f4a_7c15)
        .wrapping_add(7);
    let z = (z ^ (z >> 30)).wrapping_mul(0xbf58_476d_1ce4_e5b9);
    let z = (z ^ (z >> 27)).wrapping_mul(0x94d0_49bb_1331_11eb);
    z ^ (z >> 31)
}

fn key<P: Pair>(number: u64) -> P::Key {
    // A key of a pair with certain first bytes may begin with 2.
    let front = usize::from(P::Key::of_bytes(&vec![0; P::KEY_SIZE]).is_none());
    let mut bytes = vec![0; P::KEY_SIZE];
    bytes[0] = 2;
    bytes[front..front + 8].copy_from_slice(&number.to_be_bytes());
    P::Key::of_bytes(&bytes).expect("a key")
}

/// So many keys, from a number on.
pub(crate) fn keys<P: Pair>(from: usize, count: usize) -> Vec<P::Key> {
    let numbers = from..from + count;
    numbers
        .map(|number| key::<P>(mixed(number as u64)))
        .collect()
}

/// The address of a peer.
pub(crate) fn ingress<P: Pair>(key: &P::Key) -> Ingress {
    Ingress::from(SocketAddr::from(([1, 2, 3, key.as_ref()[7]], 8000)))
}

fn signed<P: Pair>(key: P::Key, ingress: Ingress, timestamp: u64) -> Info<P> {
    Info::<P>::sign(key, NAMESPACE, ingress, timestamp, |_, _| {
        let compared = compared::<P>();
        let mut bytes = vec![0; P::SIGNATURE_SIZE];
        bytes[..compared].copy_from_slice(&key.as_ref()[..compared]);
        P::Signature::of_bytes(&bytes).expect("a signature")
    })
}

/// Whether a signature is valid: it begins with the key.
pub(crate) fn verify<P: Pair>(question: Question<'_, P>) -> bool {
    let compared = compared::<P>();
    question.signature.as_ref()[..compared] == question.public_key.as_ref()[..compared]
}

/// The info of a peer.
pub(crate) fn info<P: Pair>(key: &P::Key, timestamp: u64) -> Info<P> {
    signed::<P>(*key, ingress::<P>(key), timestamp)
}

/// The infos of these peers.
pub(crate) fn infos<P: Pair>(keys: &[P::Key], timestamp: u64) -> Vec<Info<P>> {
    keys.iter().map(|key| info::<P>(key, timestamp)).collect()
}

/// The info of the local node.
pub(crate) fn own_info<P: Pair>() -> Info<P> {
    signed::<P>(
        key::<P>(9),
        Ingress::from(SocketAddr::from(([8, 8, 8, 8], 9000))),
        0,
    )
}

/// A configuration that retains so many sets.
pub(crate) fn config(sets: usize) -> Config {
    Config {
        allow_private_ips: true,
        allow_dns: true,
        max_sets: NonZeroUsize::new(sets).unwrap_or(NonZeroUsize::MIN),
        dial_fail_limit: 1,
        peer_connection_cooldown: Duration::from_secs(10),
        block_duration: Duration::from_secs(60),
    }
}

/// A set of primary peers alone.
pub(crate) fn tracked<P: Pair>(keys: &[P::Key]) -> TrackedPeers<P> {
    OrderedSet::<P>::from_iter_dedup(keys.iter().copied()).into()
}

/// A directory without a set, which retains so many.
pub(crate) fn directory<P: Pair>(sets: usize) -> Outcome<Directory<P>> {
    Ok(Directory::<P>::init(&[], &own_info::<P>(), config(sets))?)
}

// Registers sets of all these peers, as many as are retained.
fn fill<P: Pair>(directory: &mut Directory<P>, keys: &[P::Key]) -> Outcome<()> {
    for index in 0..SETS as u64 {
        let tracked = directory.track(index, &tracked::<P>(keys))?;
        tracked.accepted().ok_or("the index is above")?;
    }
    Ok(())
}

/// A directory whose sets all name these peers.
pub(crate) fn full<P: Pair>(keys: &[P::Key]) -> Outcome<Directory<P>> {
    let mut directory = directory::<P>(SETS)?;
    fill::<P>(&mut directory, keys)?;
    Ok(directory)
}

/// A directory whose sets all name these peers, and that knows their infos.
pub(crate) fn known<P: Pair>(keys: &[P::Key]) -> Outcome<Directory<P>> {
    let mut directory = full::<P>(keys)?;
    directory.update_peers(&infos::<P>(keys, 1000))?;
    Ok(directory)
}

/// A node without a set, which accepts so many infos at a time.
pub(crate) fn node_of<P: Pair>(count: usize) -> Outcome<Node<P>> {
    Ok(Node::<P>::new(&Setup {
        bootstrappers: Vec::new(),
        myself: own_info::<P>(),
        cfg: config(SETS),
        payload: PayloadConfig {
            max_bit_vec: 1_000_000,
            max_peers: 1_000_000,
            max_data_length: 1_000_000,
        },
        peer_gossip_max_count: count,
        synchrony_bound: Duration::from_secs(30),
        namespace: NAMESPACE.to_vec(),
    })?)
}

/// A node whose sets all name these peers.
pub(crate) fn node<P: Pair>(keys: &[P::Key]) -> Outcome<Node<P>> {
    let mut node = node_of::<P>(keys.len())?;
    fill::<P>(node.directory_mut(), keys)?;
    Ok(node)
}

/// A frame with the infos of these peers.
pub(crate) fn frame<P: Pair>(keys: &[P::Key], timestamp: u64) -> Vec<u8> {
    Payload::Peers(infos::<P>(keys, timestamp)).encode()
}

/// Bits of the last set, none of which is set.
pub(crate) fn no_bits(count: usize) -> BitVec {
    BitVec {
        index: SETS as u64 - 1,
        bits: vec![false; count],
    }
}
