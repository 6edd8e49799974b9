//! What a page shows of a run: the state of each tick, and the events between.

use super::members::node_of;
use super::network::Network;
use std::fmt::{self, Write};
use std::time::Duration;

/// A reservation that a node granted.
#[derive(Clone, Copy, Debug, PartialEq, Eq)]
pub struct Grant {
    /// The tick, counted from 1.
    pub tick: u64,
    /// The node.
    pub node: usize,
    /// The peer.
    pub peer: usize,
    /// Whether the node dials. Otherwise it was dialled.
    pub is_dial: bool,
    /// The time since the start.
    pub at: Duration,
}

/// The age of an info: how many infos its peer has signed since. It is 0 for the newest.
pub type Age = u8;

/// The greatest age that is told apart. An older info has this age.
pub const OLDEST: usize = 35;

/// What a node is at the end of a tick.
#[derive(Clone, Debug, Default, PartialEq, Eq)]
pub struct NodeState {
    /// Whether it runs.
    pub is_running: bool,
    /// The age of what it knows of each node. `None` if it knows nothing, and of itself.
    pub ages: Vec<Option<Age>>,
    /// The peers with whom it is connected.
    pub connections: Vec<usize>,
    /// The peers that are blocked.
    pub blocked: Vec<usize>,
    /// The index of each set that it retains, the number of its peers, and how many bits are true.
    pub sets: Vec<(u64, usize, usize)>,
}

/// A recorded run.
#[derive(Clone, Debug, Default)]
pub struct Record {
    // The timestamps of each node's infos, in the order in which they were signed.
    signed: Vec<Vec<u64>>,
    /// The grants since the start, in the order of time.
    pub grants: Vec<Grant>,
    /// The state of each node at the end of each tick.
    pub ticks: Vec<Vec<NodeState>>,
}

impl Record {
    /// The record of a run that has not begun.
    #[must_use]
    pub fn new(nodes: usize) -> Record {
        Record {
            signed: vec![Vec::new(); nodes],
            grants: Vec::new(),
            ticks: Vec::new(),
        }
    }

    pub(super) fn signed(&mut self, node: usize, timestamp: u64) {
        self.signed[node].push(timestamp);
    }

    pub(super) fn granted(&mut self, node: usize, peer: usize, is_dial: bool, at: Duration) {
        self.grants.push(Grant {
            tick: self.ticks.len() as u64 + 1,
            node,
            peer,
            is_dial,
            at,
        });
    }

    fn age(&self, peer: usize, timestamp: u64) -> Age {
        let signed = self.signed[peer].iter().rev();
        let newer = signed.take_while(|newer| **newer > timestamp).count();
        newer.min(OLDEST) as Age
    }
}

/// Records the state of a network at the end of a tick.
///
/// # Errors
///
/// Says that there is no memory.
pub fn record_tick(network: &mut Network) -> Result<(), String> {
    let Some(mut record) = network.record.take() else {
        return Ok(());
    };
    let nodes = 0..network.places.len();
    let states: Result<Vec<NodeState>, String> =
        nodes.map(|node| state(network, &record, node)).collect();
    record.ticks.push(states?);
    network.record = Some(record);
    Ok(())
}

fn state(network: &Network, record: &Record, node: usize) -> Result<NodeState, String> {
    let ages = (0..network.places.len()).map(|peer| {
        let held = network.ledger.held(node, peer)?;
        Some(record.age(peer, held))
    });
    let ages = ages.collect();
    let Some(running) = &network.places[node].running else {
        return Ok(NodeState {
            ages,
            ..NodeState::default()
        });
    };
    let directory = running.node.directory();
    let blocked = directory.blocked_peers(network.moment());
    let blocked = blocked.map_err(|error| error.to_string())?;
    let mut sets = Vec::new();
    for place in 0..directory.retained() {
        let bits = directory.get_random_bit_vec(place);
        let Some(set) = bits.map_err(|error| error.to_string())? else {
            continue;
        };
        let known = set.bits.iter().filter(|bit| **bit).count();
        sets.push((set.index, set.bits.len(), known));
    }
    Ok(NodeState {
        is_running: true,
        ages,
        connections: running.connections.keys().copied().collect(),
        blocked: blocked.iter().map(node_of).collect(),
        sets,
    })
}

/// The CSV of the cells: for each tick, and each pair of a node and a peer, the age of what the
/// node knows, or `none`.
#[must_use]
pub fn cells_csv(record: &Record) -> String {
    let mut csv = "tick,row,column,age\n".to_owned();
    for (tick, nodes) in (1..).zip(&record.ticks) {
        for (row, node) in nodes.iter().enumerate() {
            for (column, age) in node.ages.iter().enumerate() {
                let age = age_name(*age);
                // Writing to a `String` can't fail.
                let _ = writeln!(csv, "{tick},{row},{column},{age}");
            }
        }
    }
    csv
}

/// The text of an age: its number, or `none`.
#[must_use]
pub fn age_name(age: Option<Age>) -> String {
    age.map_or_else(|| "none".to_owned(), |age| age.to_string())
}

/// The CSV of the nodes' details. At each tick it has their state, their sets with the number of
/// true bits and of peers, their connections and blocks, and the grants since the tick before.
#[must_use]
pub fn details_csv(record: &Record) -> String {
    let mut csv = "tick,node,item,value\n".to_owned();
    for (tick, nodes) in (1..).zip(&record.ticks) {
        for (number, node) in nodes.iter().enumerate() {
            for (item, value) in items(node) {
                let _ = writeln!(csv, "{tick},{number},{item},{value}");
            }
        }
        let grants = record.grants.iter().filter(|grant| grant.tick == tick);
        for grant in grants {
            let _ = writeln!(csv, "{tick},{},grant,{grant}", grant.node);
        }
    }
    csv
}

// The details of a node by name.
fn items(node: &NodeState) -> Vec<(&'static str, String)> {
    let state = if node.is_running { "running" } else { "away" };
    let mut items = vec![("state", state.to_owned())];
    let sets = node.sets.iter();
    items.extend(sets.map(|(index, peers, known)| ("set", format!("{index} {known}/{peers}"))));
    let connections = node.connections.iter();
    items.extend(connections.map(|peer| ("connection", peer.to_string())));
    items.extend(node.blocked.iter().map(|peer| ("block", peer.to_string())));
    items
}

/// Formats what was granted, the peer, and the seconds since the start.
impl fmt::Display for Grant {
    fn fmt(&self, f: &mut fmt::Formatter<'_>) -> fmt::Result {
        let what = if self.is_dial { "dial" } else { "listen" };
        write!(f, "{what} {} at {:.3} s", self.peer, self.at.as_secs_f64())
    }
}
