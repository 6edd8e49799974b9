//! The parameters of a simulation, read from words.

use super::behaviour::Lie;
use std::fmt;
use std::path::PathBuf;
use std::str::FromStr;
use std::time::Duration;

/// What `p2p-node simulate --help` prints.
pub const HELP: &str = "\
p2p-node simulate: a network of nodes in one process, on virtual time

Each node is a node of the crate p2p-directory. Signatures are those of its module `testing`.
The same parameters give the same output, byte for byte.

  p2p-node simulate FLAGS       runs a network, and prints a row of CSV for each tick
  p2p-node simulate draw FOLDER
                                draws the pictures of the runs in FOLDER/runs

Parameters, with their defaults:
  --nodes 100             nodes, from 2 to 20000
  --seed 1                seed of the random generator
  --ticks 40              ticks that are simulated, from 1 to 100000
  --connections 16        the most connections that a node keeps
  --sets 1                sets that each node retains, from 1 to 16
  --set-size 0            the most peers that a set names; 0: each set names all nodes
  --tick 30               seconds of a tick: a node dials and asks once in each
  --latency 0.05          mean seconds that a frame takes from node to node
  --loss 0                share of dials, questions and replies that get lost
  --churn 0               share of nodes that go in a tick; each is back a tick later, with
                          another address and a newer info, and nothing else
  --lifetime 0            mean ticks after which the dialer ends a connection; 0: never
  --cooldown 60           seconds between two connections with the same peer
  --dial-fail-limit 2     failed dials after which an info is asked for again
  --bootstrappers 3       random peers whose address a node knows when it starts
  --liars-true 0          share of nodes that ask with all bits true
  --liars-empty 0         share of nodes that reply without infos
  --liars-oldest 0        share of nodes that reply with the oldest infos they ever had
  --liars-silent 0        share of nodes that neither ask nor reply
  --liars-forged 0        share of nodes that reply with a wrong signature

Output:
  --csv FILE              a row for each tick, to a file and not to standard output
  --cells FILE            CSV of who knows whose info of which age at each tick
  --details FILE          CSV of each node's sets, connections, grants and blocks at each tick
  --html FILE             a page to look at the run; for up to 100 nodes, as --cells, --details
  --cost                  prints seconds of a processor and the greatest memory, in megabytes, to
                          standard error

In each set index the nodes are divided at random into groups of nearly the same size. The nodes
of a group retain the set that names exactly them, so a node is in one group for each of its
sets. With --set-size 0 each set is one group of all nodes.
";

/// The parameters of a simulation. [`Parameters::default`] has those that `--help` prints.
#[derive(Clone, Debug, PartialEq)]
pub struct Parameters {
    /// How many nodes there are.
    pub nodes: usize,
    /// The seed of the random generator.
    pub seed: u64,
    /// How many ticks are simulated.
    pub ticks: u64,
    /// The most connections that a node keeps.
    pub connections: usize,
    /// How many sets each node retains.
    pub sets: usize,
    /// The most peers that a set names, the node itself included, or 0 for all.
    pub set_size: usize,
    /// The length of a tick.
    pub tick: Duration,
    /// The mean time from node to node. Each connection has its own, within half of it around.
    pub latency: Duration,
    /// The probability that a dial, a question or a reply gets lost.
    pub loss: f64,
    /// The probability that a node goes in a tick.
    pub churn: f64,
    /// How many ticks the dialer keeps a connection in the mean, or 0 if it keeps it forever.
    pub lifetime: u64,
    /// The minimum time between two reservations of one peer.
    pub cooldown: Duration,
    /// After how many failed dials an info is wanted again.
    pub dial_fail_limit: usize,
    /// How many random peers' addresses a node knows when it starts.
    pub bootstrappers: usize,
    /// The share of nodes that lie, for each kind of lie.
    pub liars: [f64; Lie::ALL.len()],
}

/// What a run writes besides standard output.
#[derive(Clone, Debug, Default, PartialEq, Eq)]
pub struct Outputs {
    /// The file for the rows, in place of standard output.
    pub csv: Option<PathBuf>,
    /// The file for the cells.
    pub cells: Option<PathBuf>,
    /// The file for the nodes' details.
    pub details: Option<PathBuf>,
    /// The file for the page.
    pub html: Option<PathBuf>,
    /// Whether processor time and memory are printed.
    pub cost: bool,
}

/// The most peers of all nodes together. With some 900 bytes for each, that is 5.4 GB.
const MOST_RECORDS: usize = 6_000_000;

/// The most nodes of a run whose cells are recorded.
pub const MOST_DRAWN: usize = 100;

/// The longest duration that a flag may have, in seconds: some eleven days.
const LONGEST: f64 = 1e6;

impl Default for Parameters {
    fn default() -> Parameters {
        Parameters {
            nodes: 100,
            seed: 1,
            ticks: 40,
            connections: 16,
            sets: 1,
            set_size: 0,
            tick: Duration::from_secs(30),
            latency: Duration::from_millis(50),
            loss: 0.0,
            churn: 0.0,
            lifetime: 0,
            cooldown: Duration::from_secs(60),
            dial_fail_limit: 2,
            bootstrappers: 3,
            liars: [0.0; Lie::ALL.len()],
        }
    }
}

impl Parameters {
    /// Reads parameters and outputs from words: flags with their values. What is left out has its
    /// default.
    ///
    /// # Errors
    ///
    /// Says which flag is unknown, lacks its value, or has a value out of range.
    pub fn read(words: &[String]) -> Result<(Parameters, Outputs), String> {
        let mut parameters = Parameters::default();
        let mut outputs = Outputs::default();
        let mut words = words.iter();
        while let Some(flag) = words.next() {
            if flag == "--cost" {
                outputs.cost = true;
                continue;
            }
            let name = flag
                .strip_prefix("--")
                .ok_or_else(|| format!("{flag} is no flag: see p2p-node simulate --help"))?;
            let value = words.next().ok_or_else(|| format!("{flag} has no value"))?;
            if !outputs.set(name, value) && !parameters.set(name, value)? {
                return Err(format!("unknown flag {flag}: see p2p-node simulate --help"));
            }
        }
        parameters.check()?;
        if outputs.are_drawn() && parameters.nodes > MOST_DRAWN {
            return Err(format!(
                "--cells, --details and --html are for up to {MOST_DRAWN} nodes, not {}",
                parameters.nodes
            ));
        }
        Ok((parameters, outputs))
    }

    // Returns whether there is a parameter with this name.
    fn set(&mut self, name: &str, value: &str) -> Result<bool, String> {
        match name {
            "nodes" => self.nodes = within(name, value, 2, 20_000)?,
            "seed" => self.seed = within(name, value, 0, u64::MAX)?,
            "ticks" => self.ticks = within(name, value, 1, 100_000)?,
            "connections" => self.connections = within(name, value, 1, 20_000)?,
            "sets" => self.sets = within(name, value, 1, 16)?,
            "set-size" => self.set_size = within(name, value, 0, 20_000)?,
            "tick" => self.tick = seconds(name, value, 0.001)?,
            "latency" => self.latency = seconds(name, value, 0.0)?,
            "loss" => self.loss = within(name, value, 0.0, 1.0)?,
            "churn" => self.churn = within(name, value, 0.0, 1.0)?,
            "lifetime" => self.lifetime = within(name, value, 0, 10_000)?,
            "cooldown" => self.cooldown = seconds(name, value, 0.0)?,
            "dial-fail-limit" => self.dial_fail_limit = within(name, value, 1, 1_000_000)?,
            "bootstrappers" => self.bootstrappers = within(name, value, 1, 1000)?,
            _ => match Lie::ALL.iter().position(|lie| lie.flag() == name) {
                Some(kind) => self.liars[kind] = within(name, value, 0.0, 1.0)?,
                None => return Ok(false),
            },
        }
        Ok(true)
    }

    fn check(&self) -> Result<(), String> {
        if self.liars.iter().sum::<f64>() > 1.0 {
            return Err("the shares of liars are more than 1 together".to_owned());
        }
        if self.set_size == 1 {
            return Err("--set-size is 1: a set needs two peers, or 0 for all".to_owned());
        }
        let records = self.nodes * self.peers();
        if records > MOST_RECORDS {
            return Err(format!(
                "{} nodes with up to {} peers each need memory for {records} records; at most \
                 {MOST_RECORDS} are allowed: choose a smaller --set-size",
                self.nodes,
                self.peers()
            ));
        }
        Ok(())
    }

    /// How many groups each set index divides the nodes into.
    #[must_use]
    pub fn groups(&self) -> usize {
        match self.set_size {
            0 => 1,
            size => self.nodes.div_ceil(size),
        }
    }

    /// The most peers that a node knows of, itself included.
    #[must_use]
    pub fn peers(&self) -> usize {
        match self.groups() {
            1 => self.nodes,
            groups => (self.sets * self.nodes.div_ceil(groups)).min(self.nodes),
        }
    }

    /// The share of nodes that lie, in any way.
    #[must_use]
    pub fn share_of_liars(&self) -> f64 {
        self.liars.iter().sum()
    }
}

/// Formats the parameters as the flags that ask for them.
impl fmt::Display for Parameters {
    fn fmt(&self, f: &mut fmt::Formatter<'_>) -> fmt::Result {
        write!(f, "--nodes {} --seed {}", self.nodes, self.seed)?;
        write!(
            f,
            " --ticks {} --connections {}",
            self.ticks, self.connections
        )?;
        write!(f, " --sets {} --set-size {}", self.sets, self.set_size)?;
        let (tick, latency) = (self.tick.as_secs_f64(), self.latency.as_secs_f64());
        write!(f, " --tick {tick} --latency {latency}")?;
        write!(f, " --loss {} --churn {}", self.loss, self.churn)?;
        write!(f, " --lifetime {}", self.lifetime)?;
        write!(f, " --cooldown {}", self.cooldown.as_secs_f64())?;
        write!(f, " --dial-fail-limit {}", self.dial_fail_limit)?;
        write!(f, " --bootstrappers {}", self.bootstrappers)?;
        for (lie, share) in Lie::ALL.iter().zip(self.liars) {
            write!(f, " --{} {share}", lie.flag())?;
        }
        Ok(())
    }
}

impl Outputs {
    // Returns whether there is an output with this name.
    fn set(&mut self, name: &str, value: &str) -> bool {
        let output = match name {
            "csv" => &mut self.csv,
            "cells" => &mut self.cells,
            "details" => &mut self.details,
            "html" => &mut self.html,
            _ => return false,
        };
        *output = Some(PathBuf::from(value));
        true
    }

    /// Whether the state of each tick has to be recorded.
    #[must_use]
    pub fn are_drawn(&self) -> bool {
        self.cells.is_some() || self.details.is_some() || self.html.is_some()
    }
}

fn within<T: FromStr + PartialOrd + fmt::Display>(
    name: &str,
    value: &str,
    least: T,
    most: T,
) -> Result<T, String> {
    let out_of_range = || format!("--{name} is {value}, and not from {least} to {most}");
    let number: T = value.parse().map_err(|_| out_of_range())?;
    if number < least || number > most || number.partial_cmp(&number).is_none() {
        return Err(out_of_range());
    }
    Ok(number)
}

fn seconds(name: &str, value: &str, least: f64) -> Result<Duration, String> {
    within(name, value, least, LONGEST).map(Duration::from_secs_f64)
}
