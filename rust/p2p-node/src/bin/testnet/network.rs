//! A network of processes: its nodes, their lives, and the sets.

use crate::bounds::Bounds;
use crate::clock::now;
use crate::ledger::Ledger;
use crate::place::Place;
use crate::process::{Memory, Process, Start, said};
use crate::proxy::{Proxies, Proxy};
use crate::traffic::Traffic;
use p2p_directory::Key;
use p2p_node::identity::Identity;
use p2p_node::sodium::{Sodium, stop_on_signals};
use std::fs;
use std::path::PathBuf;
use std::sync::Arc;
use std::sync::atomic::{AtomicBool, Ordering};
use std::thread;
use std::time::{Duration, Instant};

/// How long a loop waits until it looks again.
const POLL: Duration = Duration::from_millis(200);

/// How a network is made.
#[derive(Clone, Debug)]
pub struct Options {
    /// The folder of its files.
    pub folder: PathBuf,
    /// The program of a node.
    pub node: PathBuf,
    /// The program that makes the calls of a log anew.
    pub replay: PathBuf,
    /// The number of honest nodes.
    pub nodes: usize,
    /// The number of attackers.
    pub attackers: usize,
    /// By how much the bounds on times are longer.
    pub load: f64,
    /// Where the nodes run.
    pub place: Place,
    /// The nodes that break a rule, from the first one to the last, and its name.
    pub broken: Option<(usize, usize, String)>,
}

/// The time from the start of a process until its end.
#[derive(Debug)]
pub struct Life {
    /// What the node wrote.
    pub ledger: Ledger,
    /// The calls that it recorded.
    pub record: PathBuf,
    /// The memory that was seen last.
    pub memory: Option<Memory>,
    /// Whether its memory was bounded, so that it may end.
    pub is_limited: bool,
}

/// A node.
#[derive(Debug)]
pub struct Member {
    /// Its key.
    pub key: Key,
    /// Its processes so far.
    pub lives: Vec<Life>,
    /// The one that runs.
    pub process: Option<Process>,
    /// The proxy of the address that it announces.
    pub proxy: Arc<Proxy>,
}

impl Member {
    /// The number of the present life, counted from 0.
    pub fn life(&self) -> usize {
        self.lives.len().saturating_sub(1)
    }

    /// The ledger of the present life.
    pub fn ledger(&self) -> Option<&Ledger> {
        self.lives.last().map(|life| &life.ledger)
    }
}

/// A set of peers, and when it was written.
#[derive(Clone, Debug)]
pub struct SetAt {
    /// When.
    pub at: Duration,
    /// Its peers.
    pub peers: Vec<Key>,
}

/// A network.
pub struct Network {
    /// How it was made.
    pub options: Options,
    /// Its bounds.
    pub bounds: Bounds,
    /// Its proxies.
    pub proxies: Arc<Proxies>,
    /// Its honest nodes.
    pub members: Vec<Member>,
    /// The keys of attackers.
    pub attackers: Vec<Identity>,
    /// The sets that were written.
    pub sets: Vec<SetAt>,
    /// What ended without having been asked to.
    pub deaths: Vec<String>,
    // Each proxy that was started.
    started: Vec<Arc<Proxy>>,
    stop: &'static AtomicBool,
}

impl Network {
    /// Makes keys, proxies and the first set.
    ///
    /// # Errors
    ///
    /// Says what the system refused.
    pub fn new(options: Options, sodium: Sodium) -> Result<Network, String> {
        let folder = &options.folder;
        fs::create_dir_all(folder).map_err(|error| said(folder, &error))?;
        let attackers =
            (0..options.attackers).map(|_| Identity::from_seed(sodium, &sodium.bytes()));
        let attackers: Vec<_> = attackers.collect();
        let traffic = Traffic::new(attackers.iter().map(Identity::public_key));
        let proxies = Proxies::new(traffic, options.place.of_proxies());
        let mut members = Vec::new();
        for number in 0..options.nodes {
            let identity = Identity::create(sodium, &folder.join(format!("key-{number}")))?;
            let key = identity.public_key();
            let proxy = proxies
                .start(key)
                .map_err(|error| format!("a proxy: {error}"))?;
            members.push(Member {
                key,
                lives: Vec::new(),
                process: None,
                proxy,
            });
        }
        let mut network = Network {
            bounds: Bounds::new(options.load, options.nodes + options.attackers),
            started: members
                .iter()
                .map(|member| Arc::clone(&member.proxy))
                .collect(),
            proxies,
            members,
            attackers,
            sets: Vec::new(),
            deaths: Vec::new(),
            stop: stop_on_signals().map_err(|error| format!("signals: {error}"))?,
            options,
        };
        network.write_set(&[])?;
        Ok(network)
    }

    /// Writes a set of all nodes and attackers but these nodes.
    ///
    /// # Errors
    ///
    /// That of the system.
    pub fn write_set(&mut self, without: &[usize]) -> Result<(), String> {
        let members = self.members.iter().enumerate();
        let members = members.filter(|(number, _)| !without.contains(number));
        let attackers = self.attackers.iter().map(Identity::public_key);
        let peers: Vec<Key> = members
            .map(|(_, member)| member.key)
            .chain(attackers)
            .collect();
        let mut text = format!("index {}\n", self.sets.len());
        peers
            .iter()
            .for_each(|key| text += &format!("primary {key}\n"));
        let (new, path) = (self.options.folder.join("set.new"), self.set_file());
        fs::write(&new, text).map_err(|error| said(&new, &error))?;
        // Until the file is renamed nobody can have read it.
        self.sets.push(SetAt { at: now(), peers });
        fs::rename(&new, &path).map_err(|error| said(&path, &error))
    }

    fn set_file(&self) -> PathBuf {
        self.options.folder.join("set")
    }

    /// The index of the latest set.
    pub fn latest_index(&self) -> u64 {
        self.sets.len().saturating_sub(1) as u64
    }

    /// The number of peers of the largest set.
    pub fn largest(&self) -> usize {
        self.members.len() + self.attackers.len()
    }

    fn start_of(&self, number: usize, memory: Option<u64>) -> Option<Start> {
        let member = self.members.get(number)?;
        let life = member.lives.len();
        let file = |name: &str| self.options.folder.join(format!("{name}-{number}-{life}"));
        let known = self.members.iter().take(2);
        let known = known.filter(|known| known.key != member.key);
        let broken = self.options.broken.as_ref();
        let broken = broken.filter(|(first, last, _)| (*first..=*last).contains(&number));
        Some(Start {
            number,
            place: self.options.place.clone(),
            program: self.options.node.clone(),
            key: self.options.folder.join(format!("key-{number}")),
            sets: self.set_file(),
            ledger: file("ledger"),
            record: file("record"),
            output: file("output"),
            address: member.proxy.address,
            bootstrappers: known
                .map(|known| format!("{}@{}", known.key, known.proxy.address))
                .collect(),
            largest: self.largest(),
            broken: broken.map(|(_, _, rule)| rule.clone()),
            memory,
        })
    }

    /// Starts a node, whose memory may be bounded. Returns whether it listens.
    ///
    /// # Errors
    ///
    /// Says why it doesn't, unless its memory is bounded.
    pub fn start(&mut self, number: usize, memory: Option<u64>) -> Result<bool, String> {
        let start = self.start_of(number, memory).ok_or("no such node")?;
        let within = self.bounds.start;
        let member = self.members.get_mut(number).ok_or("no such node")?;
        let life = member.lives.len();
        // The node may dial others before this thread runs again.
        self.proxies.traffic().begin_life(member.key, life);
        let mut process = start.spawn()?;
        member.lives.push(Life {
            ledger: Ledger::new(start.ledger),
            record: start.record,
            memory: None,
            is_limited: memory.is_some(),
        });
        match process.address(within) {
            Ok(address) => {
                member.proxy.lead_to(Some((address, life)));
                member.process = Some(process);
                Ok(true)
            }
            Err(_) if memory.is_some() => Ok(false),
            Err(why) => Err(format!("node {number}: {why}")),
        }
    }

    /// Kills a node with SIGKILL.
    pub fn kill(&mut self, number: usize) {
        self.poll();
        let Some(member) = self.members.get_mut(number) else {
            return;
        };
        member.proxy.lead_to(None);
        if let Some(mut process) = member.process.take() {
            process.kill();
        }
        self.proxies.disconnect(&member.key);
        // A proxy may not have looked yet at what the node dialled last, which is of this life.
        thread::sleep(POLL);
    }

    /// Lets a node that doesn't run announce another address from its next start on.
    ///
    /// # Errors
    ///
    /// That of the system.
    pub fn move_elsewhere(&mut self, number: usize) -> Result<(), String> {
        let member = self.members.get_mut(number).ok_or("no such node")?;
        let proxy = self.proxies.start(member.key);
        member.proxy = proxy.map_err(|error| format!("a proxy: {error}"))?;
        self.started.push(Arc::clone(&member.proxy));
        Ok(())
    }

    /// Reads what the ledgers have new, and looks at memory and whether all nodes run. A signal ends
    /// the nodes and this program.
    pub fn poll(&mut self) {
        if self.stop.load(Ordering::Relaxed) {
            self.members
                .iter_mut()
                .for_each(|member| member.process = None);
            std::process::exit(1);
        }
        for (number, member) in self.members.iter_mut().enumerate() {
            let Some(life) = member.lives.last_mut() else {
                continue;
            };
            life.ledger.update();
            let Some(process) = &mut member.process else {
                continue;
            };
            if let Some(memory) = process.memory() {
                life.memory = Some(memory);
            }
            if let Some(status) = process.status() {
                member.process = None;
                member.proxy.lead_to(None);
                if !life.is_limited {
                    self.deaths
                        .push(format!("node {number} ended, with {status}"));
                }
            }
        }
    }

    /// Lets time pass.
    pub fn wait(&mut self, time: Duration) {
        self.wait_for(time, |_| false);
    }

    /// Waits until something holds, at most so long, and returns how long it took if it did.
    pub fn wait_for(
        &mut self,
        within: Duration,
        mut holds: impl FnMut(&Network) -> bool,
    ) -> Option<Duration> {
        let begin = Instant::now();
        loop {
            self.poll();
            if holds(self) {
                return Some(begin.elapsed());
            }
            let left = within.saturating_sub(begin.elapsed());
            if left.is_zero() {
                return None;
            }
            thread::sleep(left.min(POLL));
        }
    }

    /// Ends all nodes with SIGTERM, and then all proxies.
    pub fn end(&mut self) {
        self.poll();
        for (number, member) in self.members.iter().enumerate() {
            if member.process.is_none() {
                self.deaths
                    .push(format!("node {number} doesn't run in the end"));
            }
        }
        let running = self
            .members
            .iter()
            .filter_map(|member| member.process.as_ref());
        running.for_each(Process::terminate);
        let begin = Instant::now();
        for member in &mut self.members {
            let Some(mut process) = member.process.take() else {
                continue;
            };
            while process.status().is_none() && begin.elapsed() < self.bounds.start {
                thread::sleep(Duration::from_millis(10));
            }
        }
        for member in &mut self.members {
            let last = member.lives.last_mut();
            last.into_iter().for_each(|life| life.ledger.update());
        }
        self.proxies.stop(&self.started);
    }
}
