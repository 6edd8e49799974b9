//! Runs that break a promise on purpose, to show that each check can fail.

use crate::Flags;
use crate::attack::Attack;
use crate::checks::{self, Check, Verdict};
use crate::ledger::Ledger;
use crate::network::{Network, Options};
use crate::phases::{self, Settled};
use crate::place::Place;
use crate::process::said;
use p2p_node::identity::Identity;
use p2p_node::sodium::Sodium;
use std::fmt;
use std::fs;
use std::time::Duration;

/// The number of nodes of each run.
const NODES: usize = 4;

/// The node that breaks a rule, unless all do.
const BROKEN: usize = 2;

/// A run in which something is broken.
#[derive(Clone, Copy, Debug, PartialEq, Eq)]
pub enum Scenario {
    /// A node grants connections within the cooldown.
    GrantsEarly,
    /// A node keeps the connections of peers that no set names.
    KeepsDropped,
    /// A node blocks peers that broke no rule.
    BlocksAtRandom,
    /// A node has no limits.
    NoLimit,
    /// A node keeps each frame.
    Leaks,
    /// No node asks.
    NoRepair,
    /// The halves are never joined.
    NeverJoined,
    /// Nodes that are killed are not started anew.
    NeverRestarted,
    /// An attacker has the secret of an honest node.
    StolenKey,
    /// A log is damaged.
    DamagedLog,
}

impl Scenario {
    /// Each scenario.
    pub const ALL: [Scenario; 10] = [
        Scenario::GrantsEarly,
        Scenario::KeepsDropped,
        Scenario::BlocksAtRandom,
        Scenario::NoLimit,
        Scenario::Leaks,
        Scenario::NoRepair,
        Scenario::NeverJoined,
        Scenario::NeverRestarted,
        Scenario::StolenKey,
        Scenario::DamagedLog,
    ];

    /// The rule that nodes break, if any does: from which node to which, and its name.
    fn rule(self) -> Option<(usize, usize, &'static str)> {
        let one = |name| Some((BROKEN, BROKEN, name));
        match self {
            Scenario::GrantsEarly => one("grants-early"),
            Scenario::KeepsDropped => one("keeps-dropped"),
            Scenario::BlocksAtRandom => one("blocks-at-random"),
            Scenario::NoLimit => one("no-limit"),
            Scenario::Leaks => one("leaks"),
            Scenario::NoRepair => Some((0, NODES - 1, "no-repair")),
            Scenario::NeverJoined
            | Scenario::NeverRestarted
            | Scenario::StolenKey
            | Scenario::DamagedLog => None,
        }
    }

    /// The checks that have to fail.
    fn checks(self) -> &'static [Check] {
        match self {
            Scenario::GrantsEarly => &[Check::CooldownByLedgers, Check::CooldownByFrames],
            Scenario::KeepsDropped => &[Check::Dropped],
            Scenario::BlocksAtRandom => &[Check::Blocks],
            Scenario::NoLimit => &[Check::Answers, Check::Memory],
            Scenario::Leaks => &[Check::Memory],
            Scenario::NoRepair | Scenario::NeverJoined => {
                &[Check::KnowledgeByLedgers, Check::KnowledgeByFrames]
            }
            Scenario::NeverRestarted => &[Check::Alive, Check::KnowledgeByLedgers],
            Scenario::StolenKey => &[Check::Written, Check::WithoutAttackers],
            Scenario::DamagedLog => &[Check::Replay],
        }
    }
}

impl fmt::Display for Scenario {
    fn fmt(&self, f: &mut fmt::Formatter<'_>) -> fmt::Result {
        f.write_str(match self {
            Scenario::GrantsEarly => "a node that grants within the cooldown",
            Scenario::KeepsDropped => "a node that keeps dropped peers",
            Scenario::BlocksAtRandom => "a node that blocks at random",
            Scenario::NoLimit => "a node without limits",
            Scenario::Leaks => "a node that leaks",
            Scenario::NoRepair => "nodes that don't ask",
            Scenario::NeverJoined => "halves that are never joined",
            Scenario::NeverRestarted => "killed nodes that stay dead",
            Scenario::StolenKey => "an attacker with an honest secret",
            Scenario::DamagedLog => "a damaged log",
        })
    }
}

/// Makes these runs, and says of each whether its checks failed.
///
/// # Errors
///
/// Says which run could not be made.
pub fn all(flags: &Flags, scenarios: &[Scenario]) -> Result<bool, String> {
    let mut all_failed = true;
    for scenario in scenarios {
        println!("broken: {scenario}");
        let expected = scenario.checks();
        for verdict in run(flags, *scenario)? {
            let (has_failed, has_to) = (
                !verdict.faults.is_empty(),
                expected.contains(&verdict.check),
            );
            match (has_failed, has_to) {
                (true, true) => println!("  failed as it must:\n    {verdict}"),
                (true, false) => println!("  failed too:\n    {verdict}"),
                (false, true) => println!("  DID NOT FAIL:\n    {verdict}"),
                (false, false) => {}
            }
            all_failed &= has_failed || !has_to;
        }
    }
    Ok(all_failed)
}

/// Makes a run, and its checks.
fn run(flags: &Flags, scenario: Scenario) -> Result<Vec<Verdict>, String> {
    let sodium = Sodium::new().map_err(|error| error.to_string())?;
    let attacks = attacks(scenario);
    let options = Options {
        folder: flags.folder.join(format!("{scenario:?}")),
        node: flags.broken_node.clone(),
        replay: flags.replay.clone(),
        nodes: NODES,
        attackers: attacks.len(),
        // The bound of a run that has to fail is waited for.
        load: flags.load.min(2.0),
        place: Place::Loopback,
        broken: scenario
            .rule()
            .map(|(first, last, rule)| (first, last, rule.to_owned())),
    };
    let mut network = Network::new(options, sodium)?;
    let settled = act(&mut network, scenario, sodium)?;
    network.end();
    if scenario == Scenario::DamagedLog {
        damage(&network)?;
    }
    checks::all(&network, &settled)
}

/// The attacks of a scenario, each made by one attacker.
fn attacks(scenario: Scenario) -> &'static [Attack] {
    match scenario {
        Scenario::NoLimit => &[Attack::Questions, Attack::LongFrame],
        Scenario::Leaks => &[Attack::Messages],
        Scenario::GrantsEarly => &[Attack::Return],
        Scenario::StolenKey => &[Attack::StolenKey],
        _ => &[],
    }
}

/// What happens in a scenario after all nodes have started.
fn act(network: &mut Network, scenario: Scenario, sodium: Sodium) -> Result<Vec<Settled>, String> {
    let first = phases::start(network)?;
    let attacks = attacks(scenario);
    let second = match scenario {
        Scenario::GrantsEarly => {
            let key = network.members[BROKEN].key;
            for _ in 0..10 {
                network.proxies.disconnect(&key);
                network.wait(Duration::from_millis(500));
            }
            phases::attack(network, attacks, NODES, None)?
        }
        Scenario::KeepsDropped => {
            // Two nodes that dial each other at once meet later: nothing is there to be kept.
            wait_for_connection(network, BROKEN, NODES - 1);
            phases::leave_out(network, &[NODES - 1])?
        }
        Scenario::NoLimit | Scenario::Leaks => phases::attack(network, attacks, NODES, None)?,
        Scenario::StolenKey => {
            // What a node knows of a peer is told while they are connected.
            wait_for_connection(network, 1, 0);
            let stolen = Identity::read(sodium, &network.options.folder.join("key-0"))?;
            phases::attack(network, attacks, 1, Some(&stolen))?
        }
        Scenario::NeverJoined => phases::part(network, Duration::from_secs(1), false)?,
        Scenario::NeverRestarted => phases::restart(network, false)?,
        Scenario::BlocksAtRandom => {
            wait_for(network, BROKEN, |ledger| {
                ledger.of("block").next().is_some()
            });
            return Ok(vec![first]);
        }
        Scenario::NoRepair | Scenario::DamagedLog => return Ok(vec![first]),
    };
    Ok(vec![first, second])
}

/// Waits until something holds of the ledger of a node, at most for the bound on knowledge.
fn wait_for(network: &mut Network, number: usize, holds: impl Fn(&Ledger) -> bool) {
    let within = network.bounds.knowledge;
    network.wait_for(within, |network| {
        network.members[number].ledger().is_some_and(&holds)
    });
}

/// Waits until two nodes have a connection by the ledgers of both, at most for the bound on knowledge.
fn wait_for_connection(network: &mut Network, one: usize, other: usize) {
    let within = network.bounds.knowledge;
    network.wait_for(within, |network| {
        [(one, other), (other, one)]
            .into_iter()
            .all(|(node, peer)| {
                let ledger = network.members[node].ledger();
                ledger.is_some_and(|ledger| ledger.is_connected(&network.members[peer].key))
            })
    });
}

/// Changes the answer of the last call in the log of the first node.
fn damage(network: &Network) -> Result<(), String> {
    let first = network.members.first();
    let life = first.and_then(|member| member.lives.last());
    let life = life.ok_or("no node has a log")?;
    let mut bytes = fs::read(&life.record).map_err(|error| said(&life.record, &error))?;
    let last = bytes.last_mut().ok_or("a log is empty")?;
    *last ^= 1;
    fs::write(&life.record, bytes).map_err(|error| said(&life.record, &error))
}
