//! Whether each node knows the newest infos.

use crate::network::Network;
use std::fmt;

/// From what it follows what a node knows.
#[derive(Clone, Copy, Debug, PartialEq, Eq)]
pub enum Evidence {
    /// The infos that its ledger says it accepted.
    Ledger,
    /// The frames that the proxies delivered to it.
    Frames,
}

/// An info that a node doesn't know.
#[derive(Clone, Debug, PartialEq, Eq)]
pub struct Missing {
    /// From what that follows.
    pub evidence: Evidence,
    /// The number of the node.
    pub node: usize,
    /// The number of the peer.
    pub peer: usize,
    /// By how many milliseconds the info that it knows is older, if it knows any.
    pub older: Option<u64>,
}

impl fmt::Display for Missing {
    fn fmt(&self, f: &mut fmt::Formatter<'_>) -> fmt::Result {
        let Missing { node, peer, .. } = self;
        match self.older {
            Some(older) => write!(
                f,
                "node {node} knows an info of {peer} that is {older} ms too old"
            ),
            None => write!(f, "node {node} knows no info of {peer}"),
        }
    }
}

/// What nodes of the latest set don't know of each other. A node that doesn't run knows nothing.
pub fn missing(network: &Network) -> Vec<Missing> {
    let traffic = network.proxies.traffic();
    let latest = network.sets.last().map_or(&[][..], |set| &set.peers);
    let members = network.members.iter().enumerate();
    let members = members.filter(|(_, member)| latest.contains(&member.key));
    let members: Vec<_> = members.collect();
    let mut missing = Vec::new();
    for (node, member) in &members {
        let ledger = member.ledger().filter(|_| member.process.is_some());
        for (peer, other) in &members {
            let newest = other.ledger().and_then(|ledger| Some(ledger.own()?.1));
            if node == peer {
                continue;
            }
            let by_ledger = ledger.and_then(|ledger| ledger.known.get(&other.key).copied());
            let by_frames = traffic.known((member.key, member.life()), &other.key);
            for (evidence, known) in [(Evidence::Ledger, by_ledger), (Evidence::Frames, by_frames)]
            {
                let older = match (known, newest) {
                    (Some(known), Some(newest)) if known >= newest => continue,
                    (Some(known), Some(newest)) => Some(newest - known),
                    _ => None,
                };
                missing.push(Missing {
                    evidence,
                    node: *node,
                    peer: *peer,
                    older,
                });
            }
        }
    }
    missing
}
