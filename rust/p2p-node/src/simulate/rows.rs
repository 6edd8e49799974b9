//! A row of numbers for each tick, and their CSV.

use super::hops::Reach;
use super::network::{Counts, Network, Place};
use super::parameters::Parameters;
use std::fmt;

/// The state of a network at the end of a tick, and what happened in the tick.
#[derive(Clone, Debug, PartialEq)]
pub struct Row {
    /// The number of the tick, from 1.
    pub tick: u64,
    /// The seconds since the start.
    pub seconds: f64,
    /// How many nodes run.
    pub running: usize,
    /// The share of infos known: of all pairs of an honest node that runs and a peer of its sets,
    /// in how many the node knows the newest info of the peer.
    pub newest_known: f64,
    /// The same, for any info of the peer, newest or not.
    pub known: f64,
    /// The share of these pairs in which the peer is within two connections. No node can know
    /// more at a time, except for what it keeps of connections that have ended.
    pub two_hops: f64,
    /// How many honest nodes know the newest info of each peer.
    pub complete: usize,
    /// The mean number of connections of the nodes that run.
    pub connections: f64,
    /// What happened in the tick.
    pub counts: Counts,
    /// The bytes of frames that were sent in the tick, for each of all nodes.
    pub bytes_of_node: f64,
}

/// The names of the columns, which are the first line of the CSV.
pub const COLUMNS: &str = "tick,seconds,running,newest_known,known,two_hops,complete,connections,\
questions,replies,infos,bytes_of_node,dials,failed_dials,lost,blocks";

impl Row {
    /// The row of a network, whose counts begin again.
    #[must_use]
    pub fn take(network: &mut Network, tick: u64) -> Row {
        let counts = std::mem::take(&mut network.counts);
        let (mut pairs, mut newest, mut known, mut complete) = (0, 0, 0, 0);
        let (mut reach, mut near) = (Reach::new(network), 0);
        let mut links = 0;
        for (node, place) in network.places.iter().enumerate() {
            let Some(running) = &place.running else {
                continue;
            };
            links += running.connections.len();
            if place.member.lie.is_none() {
                let peers = network.ledger.peers(node).len();
                pairs += peers;
                newest += network.ledger.newest_known(node);
                known += network.ledger.known(node);
                near += reach.of(node, peers);
                complete += usize::from(network.ledger.newest_known(node) == peers);
            }
        }
        let is_running = |place: &&Place| place.running.is_some();
        let running = network.places.iter().filter(is_running).count();
        Row {
            tick,
            seconds: network.now.as_secs_f64(),
            running,
            newest_known: share(newest, pairs),
            known: share(known, pairs),
            two_hops: share(near, pairs),
            complete,
            connections: share(links, running),
            bytes_of_node: counts.bytes as f64 / network.places.len() as f64,
            counts,
        }
    }
}

fn share(part: usize, whole: usize) -> f64 {
    part as f64 / whole.max(1) as f64
}

/// Formats a line of the CSV.
impl fmt::Display for Row {
    fn fmt(&self, f: &mut fmt::Formatter<'_>) -> fmt::Result {
        let Counts {
            questions,
            replies,
            infos,
            bytes: _,
            dials,
            failed,
            lost,
            blocks,
        } = self.counts;
        write!(f, "{},{:.3},{}", self.tick, self.seconds, self.running)?;
        write!(f, ",{:.6},{:.6}", self.newest_known, self.known)?;
        write!(f, ",{:.6}", self.two_hops)?;
        write!(f, ",{},{:.3}", self.complete, self.connections)?;
        write!(
            f,
            ",{questions},{replies},{infos},{:.1}",
            self.bytes_of_node
        )?;
        write!(f, ",{dials},{failed},{lost},{blocks}")
    }
}

/// The CSV of a run: the parameters as a comment, the columns, and the rows.
#[must_use]
pub fn csv(parameters: &Parameters, rows: &[Row]) -> String {
    let lines = rows.iter().map(|row| format!("{row}\n"));
    let header = format!("# {parameters}\n{COLUMNS}\n");
    std::iter::once(header).chain(lines).collect()
}
