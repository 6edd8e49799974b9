//! The nodes of a network before it starts: their keys, addresses, sets and bootstrappers.

use super::behaviour::Lie;
use super::parameters::Parameters;
use super::random::Random;
use p2p_directory::testing::{self, NAMESPACE};
use p2p_directory::{
    Config, Info, Ingress, KEY_SIZE, Key, Node, OrderedSet, PayloadConfig, Setup, TrackedPeers,
};
use std::net::{Ipv4Addr, SocketAddr};
use std::num::NonZeroUsize;
use std::rc::Rc;
use std::time::Duration;

/// A peer set of a group of nodes.
#[derive(Debug)]
pub struct Group {
    /// The index of the set. Each group has its own.
    pub index: u64,
    /// The nodes of the group, in ascending order.
    pub nodes: Vec<usize>,
    /// The set that names them.
    pub peers: TrackedPeers,
}

/// What a node is before it starts, and again when it comes back.
#[derive(Debug)]
pub struct Member {
    /// How it lies, if it does.
    pub lie: Option<Lie>,
    /// The groups that it is in, with rising indices.
    pub groups: Vec<Rc<Group>>,
    /// The nodes whose address it knows when it starts.
    pub bootstrappers: Vec<usize>,
}

/// The key of a node. Keys are ordered as the nodes. They differ in their first bytes, as random
/// keys do, so that comparing them doesn't take longer than in a real network.
#[must_use]
pub fn key_of(node: usize) -> Key {
    let mut bytes = [0; KEY_SIZE];
    let [high, low] = number_of(node);
    bytes[..2].copy_from_slice(&[high, low]);
    Key(bytes)
}

/// The node of a key.
#[must_use]
pub fn node_of(key: &Key) -> usize {
    let [high, low, ..] = *key.as_bytes();
    usize::from(u16::from_be_bytes([high, low]))
}

// There are at most 20,000 nodes.
fn number_of(node: usize) -> [u8; 2] {
    u16::try_from(node).unwrap_or(u16::MAX).to_be_bytes()
}

/// The address of a node that has come back so many times. No two are the same, up to 60,000 times.
#[must_use]
pub fn address_of(node: usize, returns: usize) -> Ingress {
    let [high, low] = number_of(node);
    let port = 1024 + (returns % 60_000) as u16;
    Ingress::from(SocketAddr::from((Ipv4Addr::new(1, 0, high, low), port)))
}

/// Draws who lies, the groups and the bootstrappers of all nodes.
pub fn draw_members(parameters: &Parameters, random: &mut Random) -> Vec<Member> {
    let lies = draw_lies(parameters, random);
    let groups = draw_groups(parameters, random);
    let mut members: Vec<Member> = lies
        .into_iter()
        .map(|lie| Member {
            lie,
            groups: Vec::new(),
            bootstrappers: Vec::new(),
        })
        .collect();
    for group in groups {
        for node in &group.nodes {
            members[*node].groups.push(Rc::clone(&group));
        }
    }
    for (node, member) in members.iter_mut().enumerate() {
        let mut peers = member.peers_of(node);
        let chosen = random.choose(&mut peers, parameters.bootstrappers);
        member.bootstrappers = chosen.to_vec();
    }
    members
}

fn draw_lies(parameters: &Parameters, random: &mut Random) -> Vec<Option<Lie>> {
    let mut lies: Vec<Option<Lie>> = Vec::with_capacity(parameters.nodes);
    for (lie, share) in Lie::ALL.iter().zip(parameters.liars) {
        let count = (share * parameters.nodes as f64).round() as usize;
        lies.extend(vec![Some(*lie); count]);
    }
    lies.resize(parameters.nodes, None);
    random.shuffle(&mut lies);
    lies
}

// In each round the nodes are divided at random into groups whose sizes differ by at most one.
fn draw_groups(parameters: &Parameters, random: &mut Random) -> Vec<Rc<Group>> {
    let count = parameters.groups();
    let mut nodes: Vec<usize> = (0..parameters.nodes).collect();
    let mut groups = Vec::with_capacity(parameters.sets * count);
    for _ in 0..parameters.sets {
        random.shuffle(&mut nodes);
        for group in 0..count {
            let (first, end) = (
                group * nodes.len() / count,
                (group + 1) * nodes.len() / count,
            );
            let mut nodes = nodes[first..end].to_vec();
            nodes.sort_unstable();
            let peers: OrderedSet = nodes.iter().map(|node| key_of(*node)).collect();
            groups.push(Rc::new(Group {
                index: groups.len() as u64,
                nodes,
                peers: TrackedPeers::from(peers),
            }));
        }
    }
    groups
}

impl Member {
    /// The peers of its sets without itself, in ascending order.
    #[must_use]
    pub fn peers_of(&self, own: usize) -> Vec<usize> {
        let mut peers: Vec<usize> = self
            .groups
            .iter()
            .flat_map(|group| group.nodes.iter().copied())
            .filter(|peer| *peer != own)
            .collect();
        peers.sort_unstable();
        peers.dedup();
        peers
    }

    /// Creates its node, which knows the addresses of its bootstrappers and retains its sets.
    ///
    /// # Errors
    ///
    /// Says that there is no memory for a node.
    pub fn start(
        &self,
        myself: Info,
        bootstrappers: Vec<(Key, Ingress)>,
        parameters: &Parameters,
    ) -> Result<Node, String> {
        let payload = limits(parameters);
        let setup = Setup {
            bootstrappers,
            myself,
            cfg: Config {
                allow_private_ips: false,
                allow_dns: false,
                max_sets: NonZeroUsize::new(self.groups.len()).unwrap_or(NonZeroUsize::MIN),
                dial_fail_limit: parameters.dial_fail_limit,
                peer_connection_cooldown: parameters.cooldown,
                block_duration: BLOCK,
            },
            payload,
            peer_gossip_max_count: payload.max_peers,
            synchrony_bound: SYNCHRONY_BOUND,
            namespace: NAMESPACE.to_vec(),
        };
        let mut node = Node::new(&setup).map_err(|error| error.to_string())?;
        for group in &self.groups {
            // Nobody is connected yet, so nobody has to be disconnected.
            let _ = node
                .track(group.index, &group.peers)
                .map_err(|error| error.to_string())?;
        }
        Ok(node)
    }
}

/// The limits under which each node decodes frames: those of the largest set of the network.
#[must_use]
pub fn limits(parameters: &Parameters) -> PayloadConfig {
    let largest = parameters.nodes.div_ceil(parameters.groups());
    PayloadConfig {
        max_bit_vec: largest as u64,
        max_peers: largest,
        max_data_length: 0,
    }
}

/// How long a block lasts, as in the guide.
const BLOCK: Duration = Duration::from_secs(4 * 3600);

/// How far ahead the timestamp of an info may be, as in the guide.
const SYNCHRONY_BOUND: Duration = Duration::from_secs(5);

/// The info of a node that has come back so many times, with a timestamp in milliseconds.
#[must_use]
pub fn info_of(node: usize, returns: usize, timestamp: u64) -> Info {
    let key = key_of(node);
    let sign = |namespace: &[u8], message: &[u8]| testing::sign(&key, namespace, message);
    Info::sign(key, NAMESPACE, address_of(node, returns), timestamp, sign)
}
