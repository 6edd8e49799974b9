//! Checks of blocks, and of what infos say.

use super::connections::name;
use super::{Check, Verdict};
use crate::network::Network;
use p2p_directory::{Info, Key};
use std::collections::{BTreeSet, HashSet};

/// No honest node blocks an honest key.
pub fn blocks(network: &Network) -> Verdict {
    let honest: HashSet<Key> = network.members.iter().map(|member| member.key).collect();
    let mut faults = Vec::new();
    let mut blocks = 0;
    let mut reasons = BTreeSet::new();
    for (number, member) in network.members.iter().enumerate() {
        for event in member.lives.iter().flat_map(|life| life.ledger.of("block")) {
            blocks += 1;
            let Some(peer) = event.peer else { continue };
            if honest.contains(&peer) {
                let peer = name(network, &peer);
                faults.push(format!("node {number} blocked {peer}: {}", event.reason));
            } else {
                let words = event.reason.split(' ').take(3);
                reasons.insert(words.collect::<Vec<_>>().join(" "));
            }
        }
    }
    let reasons: Vec<_> = reasons.into_iter().collect();
    let honest_blocks = faults.len();
    Verdict {
        check: Check::Blocks,
        evidence: format!(
            "{} blocks of attackers ({})",
            blocks - honest_blocks,
            reasons.join("; ")
        ),
        faults,
    }
}

/// Each info of an honest key that a node accepted, or sent on, is one with which the owner of the
/// key started.
pub fn written(network: &Network) -> Verdict {
    let honest: HashSet<Key> = network.members.iter().map(|member| member.key).collect();
    let lives = network.members.iter().flat_map(|member| &member.lives);
    let own: HashSet<Told> = lives
        .filter_map(|life| life.ledger.own().cloned())
        .collect();
    let is_false = |told: &Told| honest.contains(&told.0) && !own.contains(told);
    let (count, mut faults) = accepted(network, is_false);
    let traffic = network.proxies.traffic();
    let shared = traffic.shared.iter();
    let shared = shared.filter_map(|info| Info::decode(info).ok());
    let shared = shared.map(|info| (info.public_key, info.timestamp, info.ingress.to_string()));
    for (owner, timestamp, _) in shared.filter(is_false) {
        let owner = name(network, &owner);
        faults.push(format!(
            "an honest node sent {timestamp} of {owner}, who never wrote it"
        ));
    }
    let sent = traffic.shared.len();
    Verdict {
        check: Check::Written,
        evidence: format!("{count} infos that were accepted, {sent} that were sent"),
        faults,
    }
}

/// A key with the timestamp and the address of its info.
type Told = (Key, u64, String);

/// How many infos nodes accepted, and which of them are false.
fn accepted(network: &Network, is_false: impl Fn(&Told) -> bool) -> (usize, Vec<String>) {
    let mut count = 0;
    let mut faults = Vec::new();
    for (number, member) in network.members.iter().enumerate() {
        let events = member.lives.iter().flat_map(|life| &life.ledger.events);
        let infos: Vec<&Told> = events.filter_map(|event| event.info.as_ref()).collect();
        count += infos.len();
        for info in infos.into_iter().filter(|info| is_false(info)) {
            let (owner, timestamp, ingress) = info;
            let owner = name(network, owner);
            faults.push(format!(
                "node {number} accepted {timestamp} {ingress} of {owner}, who never wrote it"
            ));
        }
    }
    (count, faults)
}
