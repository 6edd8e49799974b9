//! A network on virtual time: its nodes, and their life.

use super::behaviour::{Lie, Oldest};
use super::connections::Connection;
use super::events::{Event, Events, Link};
use super::ledger::Ledger;
use super::members::{Member, address_of, draw_members, info_of, key_of};
use super::parameters::Parameters;
use super::random::Random;
use super::record::Record;
use p2p_directory::{Moment, Node, Reservation};
use std::collections::BTreeMap;
use std::time::Duration;

/// The virtual time at which a network starts, since the Unix epoch. Timestamps are after it.
const START: Duration = Duration::from_secs(1_700_000_000);

/// A node that runs, and its connections by peer.
#[derive(Debug)]
pub struct Running {
    /// The node.
    pub node: Node,
    /// The peers with whom it is connected.
    pub connections: BTreeMap<usize, Connection>,
    /// The peers whom it is dialling.
    pub dialling: BTreeMap<usize, (Link, Reservation)>,
}

/// A node of a network.
#[derive(Debug)]
pub struct Place {
    /// What it is before it starts.
    pub member: Member,
    /// How often it came back.
    pub returns: usize,
    /// `None` while it is away.
    pub running: Option<Running>,
    /// What a liar remembers.
    pub oldest: Oldest,
}

/// What happened since the last row.
#[derive(Clone, Copy, Debug, Default, PartialEq, Eq)]
pub struct Counts {
    /// Questions that were sent.
    pub questions: u64,
    /// Replies that were sent.
    pub replies: u64,
    /// Infos in accepted replies.
    pub infos: u64,
    /// Bytes of all frames that were sent.
    pub bytes: u64,
    /// Dials that were begun.
    pub dials: u64,
    /// Dials that failed.
    pub failed: u64,
    /// Dials, questions and replies that got lost.
    pub lost: u64,
    /// Blocks that began.
    pub blocks: u64,
}

/// A network of nodes on virtual time.
#[derive(Debug)]
pub struct Network {
    pub(super) parameters: Parameters,
    pub(super) random: Random,
    pub(super) places: Vec<Place>,
    pub(super) ledger: Ledger,
    pub(super) counts: Counts,
    /// What happened that the page shows, if it is recorded.
    pub(super) record: Option<Record>,
    /// The present time since the start.
    pub(super) now: Duration,
    pub(super) events: Events,
    pub(super) links: Link,
}

impl Network {
    /// Draws a network whose nodes start within the first tick.
    #[must_use]
    pub fn new(parameters: Parameters) -> Network {
        let mut random = Random::new(parameters.seed);
        let members = draw_members(&parameters, &mut random);
        let peers = members.iter().enumerate();
        let ledger = Ledger::new(peers.map(|(own, member)| member.peers_of(own)).collect());
        let mut events = Events::default();
        for node in 0..members.len() {
            let phase = random.below(parameters.tick.as_nanos() as u64);
            events.schedule(Duration::from_nanos(phase), node, Event::Tick);
        }
        let places = members.into_iter().map(|member| Place {
            member,
            returns: 0,
            running: None,
            oldest: Oldest::new(),
        });
        Network {
            places: places.collect(),
            parameters,
            random,
            ledger,
            counts: Counts::default(),
            record: None,
            now: Duration::ZERO,
            events,
            links: 0,
        }
    }

    /// How each node lies, if it does.
    #[must_use]
    pub fn lies(&self) -> Vec<Option<Lie>> {
        let lies = self.places.iter().map(|place| place.member.lie);
        lies.collect()
    }

    /// The time since the Unix epoch.
    pub(super) fn moment(&self) -> Moment {
        Moment::from(START + self.now)
    }

    /// Lets all happen until a time since the start, that time included.
    ///
    /// # Errors
    ///
    /// Says why a node could not be created or its call failed: there is no memory.
    pub fn run_until(&mut self, end: Duration) -> Result<(), String> {
        while let Some((at, node, event)) = self.events.next_until(end) {
            self.now = at;
            match event {
                Event::Tick => self.tick(node)?,
                Event::Dialled {
                    from,
                    link,
                    ingress,
                    latency,
                } => {
                    let is_here = ingress == address_of(node, self.places[node].returns);
                    self.dialled(node, from, link, latency, is_here)?;
                }
                Event::Accepted {
                    from,
                    link,
                    latency,
                } => self.accepted(node, from, link, latency)?,
                Event::Refused { from, link } => self.refused(node, from, link),
                Event::Frame { from, link, frame } => self.frame(node, from, link, &frame)?,
                Event::Closed { from, link } => self.closed(node, from, link)?,
            }
        }
        self.now = end;
        Ok(())
    }

    fn tick(&mut self, node: usize) -> Result<(), String> {
        let next = self.now + self.parameters.tick;
        self.events.schedule(next, node, Event::Tick);
        if self.places[node].running.is_none() {
            self.start(node)?;
        } else if self.random.happens(self.parameters.churn) {
            self.leave(node);
            return Ok(());
        }
        let now = self.moment();
        if let Some(running) = &mut self.places[node].running {
            running.node.directory_mut().forget_cooled(now);
            running.node.directory_mut().unblock_expired(now);
        }
        self.end_due(node)?;
        self.dial(node)?;
        self.ask(node);
        Ok(())
    }

    // Starts a node for the first time or again, with the present addresses of its bootstrappers.
    fn start(&mut self, node: usize) -> Result<(), String> {
        let timestamp = self.moment().as_duration().as_millis() as u64;
        let place = &self.places[node];
        let known = place.member.bootstrappers.iter();
        let known =
            known.map(|peer| (key_of(*peer), address_of(*peer, self.places[*peer].returns)));
        let myself = info_of(node, place.returns, timestamp);
        let started = place
            .member
            .start(myself, known.collect(), &self.parameters)?;
        self.places[node].running = Some(Running {
            node: started,
            connections: BTreeMap::new(),
            dialling: BTreeMap::new(),
        });
        self.ledger.renew(node, timestamp);
        if let Some(record) = &mut self.record {
            record.signed(node, timestamp);
        }
        Ok(())
    }

    // Ends a node, with all that it knows. It comes back at another address.
    fn leave(&mut self, node: usize) {
        let place = &mut self.places[node];
        place.returns += 1;
        let Some(running) = place.running.take() else {
            return;
        };
        self.ledger.forget(node);
        for (peer, connection) in running.connections {
            self.close(node, peer, connection.link, connection.latency);
        }
        for (peer, (link, _)) in running.dialling {
            self.close(node, peer, link, self.parameters.latency * 2);
        }
    }
}
