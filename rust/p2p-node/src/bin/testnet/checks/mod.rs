//! What is checked of a network. The evidence is what the proxies saw, the ledgers and the recorded
//! calls of the nodes, the sets that were written, and `/proc`: never a status line.

mod connections;
pub mod knowledge;
mod records;
mod truth;

use crate::network::Network;
use crate::phases::Settled;
use knowledge::Evidence;
use std::fmt;

/// A promise.
#[derive(Clone, Copy, Debug, PartialEq, Eq, PartialOrd, Ord)]
pub enum Check {
    /// By their ledgers, nodes know the newest infos within the bound.
    KnowledgeByLedgers,
    /// By the frames that were delivered, nodes know the newest infos within the bound.
    KnowledgeByFrames,
    /// No node ends that wasn't killed, and those that were are back.
    Alive,
    /// No honest node blocks an honest key.
    Blocks,
    /// By their ledgers, nodes grant no peer a connection within the cooldown.
    CooldownByLedgers,
    /// The same by the connections that the proxies saw.
    CooldownByFrames,
    /// No frame passes to or from a peer that is in no set, after a bound.
    Dropped,
    /// No node has more memory than the bound.
    Memory,
    /// Each info of an honest key that was accepted or shared is one that its owner wrote.
    Written,
    /// A peer gets no more lists than it may ask for.
    Answers,
    /// Recorded calls are answered alike when they are made anew.
    Replay,
    /// So are those about honest peers without the frames of attackers.
    WithoutAttackers,
}

impl fmt::Display for Check {
    fn fmt(&self, f: &mut fmt::Formatter<'_>) -> fmt::Result {
        f.write_str(match self {
            Check::KnowledgeByLedgers => "knowledge by ledgers",
            Check::KnowledgeByFrames => "knowledge by frames",
            Check::Alive => "nodes run",
            Check::Blocks => "no honest block",
            Check::CooldownByLedgers => "cooldown by ledgers",
            Check::CooldownByFrames => "cooldown by frames",
            Check::Dropped => "dropped peers",
            Check::Memory => "memory",
            Check::Written => "infos of their owners",
            Check::Answers => "answers",
            Check::Replay => "replay",
            Check::WithoutAttackers => "without attackers",
        })
    }
}

/// What a check says.
#[derive(Clone, Debug)]
pub struct Verdict {
    /// The check.
    pub check: Check,
    /// What was looked at.
    pub evidence: String,
    /// What broke the promise.
    pub faults: Vec<String>,
}

impl fmt::Display for Verdict {
    fn fmt(&self, f: &mut fmt::Formatter<'_>) -> fmt::Result {
        let word = if self.faults.is_empty() {
            "held  "
        } else {
            "FAILED"
        };
        write!(f, "{word} {}: {}", self.check, self.evidence)?;
        for fault in self.faults.iter().take(4) {
            write!(f, "\n         {fault}")?;
        }
        if self.faults.len() > 4 {
            write!(f, "\n         and {} more", self.faults.len() - 4)?;
        }
        Ok(())
    }
}

/// Makes all checks of a network that has ended.
///
/// # Errors
///
/// Says which evidence could not be read.
pub fn all(network: &Network, settled: &[Settled]) -> Result<Vec<Verdict>, String> {
    let mut verdicts = vec![
        known(settled, Evidence::Ledger),
        known(settled, Evidence::Frames),
        alive(network),
        truth::blocks(network),
        connections::cooldown_by_ledgers(network),
        connections::cooldown_by_frames(network),
        connections::dropped(network),
        memory(network),
        truth::written(network),
        connections::answers(network),
    ];
    verdicts.extend(records::replay(network)?);
    Ok(verdicts)
}

fn known(settled: &[Settled], evidence: Evidence) -> Verdict {
    let faults = settled.iter().flat_map(|settled| {
        let missing = settled.missing.iter();
        let missing = missing.filter(move |missing| missing.evidence == evidence);
        missing.map(|missing| format!("{}: {missing}", settled.phase))
    });
    let longest = settled.iter().filter_map(|settled| settled.after).max();
    let longest = longest.unwrap_or_default().as_secs_f64();
    Verdict {
        check: match evidence {
            Evidence::Ledger => Check::KnowledgeByLedgers,
            Evidence::Frames => Check::KnowledgeByFrames,
        },
        evidence: format!("after {} faults, at most {longest:.1} s", settled.len()),
        faults: faults.collect(),
    }
}

fn alive(network: &Network) -> Verdict {
    let lives = network.members.iter().map(|member| member.lives.len());
    let lives: usize = lives.sum();
    Verdict {
        check: Check::Alive,
        evidence: format!("{lives} processes of {} nodes", network.members.len()),
        faults: network.deaths.clone(),
    }
}

fn memory(network: &Network) -> Verdict {
    let bound = network.bounds.memory;
    let mut faults = Vec::new();
    let mut highest = (0, 0);
    for (number, member) in network.members.iter().enumerate() {
        for memory in member.lives.iter().filter_map(|life| life.memory) {
            highest = (
                highest.0.max(memory.resident),
                highest.1.max(memory.highest),
            );
            if memory.highest > bound {
                let highest = memory.highest;
                faults.push(format!("node {number} had {highest} KiB, of {bound}"));
            }
        }
    }
    let (resident, highest) = highest;
    Verdict {
        check: Check::Memory,
        evidence: format!("at most {highest} KiB, in the end {resident} KiB, of {bound}"),
        faults,
    }
}
