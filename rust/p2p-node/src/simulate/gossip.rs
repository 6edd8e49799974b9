//! What connected nodes send to each other: greetings, questions and replies.

use super::behaviour::{Lie, question, remember, reply};
use super::events::{Event, Link};
use super::members::{key_of, limits, node_of};
use super::network::Network;
use p2p_directory::testing::verify;
use p2p_directory::{Question, Received};

/// The first byte of a greeting.
const GREETING: u8 = 1;

impl Network {
    /// Sends a frame on the connection with a peer. The network loses questions and replies, and
    /// never greetings.
    pub(super) fn send(&mut self, node: usize, peer: usize, frame: Vec<u8>) {
        let running = self.places[node].running.as_ref();
        let connection = running.and_then(|running| running.connections.get(&peer));
        let Some((link, latency)) = connection.map(|to| (to.link, to.latency)) else {
            return;
        };
        self.counts.bytes += frame.len() as u64;
        let is_greeting = frame.first() == Some(&GREETING);
        if !is_greeting && self.random.happens(self.parameters.loss) {
            self.counts.lost += 1;
            return;
        }
        let arrives = Event::Frame {
            from: node,
            link,
            frame,
        };
        self.events.schedule(self.now + latency, peer, arrives);
    }

    /// Asks each connected peer once, for the infos of a random set.
    pub(super) fn ask(&mut self, node: usize) {
        let lie = self.places[node].member.lie;
        let sets = self.places[node].member.groups.len();
        let Some(running) = &self.places[node].running else {
            return;
        };
        let peers: Vec<usize> = running.connections.keys().copied().collect();
        for peer in peers {
            let place = self.random.index(sets);
            let running = self.places[node].running.as_ref();
            let asked = running.and_then(|running| question(&running.node, lie, place));
            if let Some(frame) = asked {
                self.counts.questions += 1;
                self.send(node, peer, frame);
            }
        }
    }

    /// A frame arrives. The first frame of a connection has to greet with the key of the peer, and
    /// no other one may greet. A peer that breaks this rule, or sends what the node refuses, is
    /// blocked and disconnected.
    ///
    /// # Errors
    ///
    /// Says that there is no memory.
    pub(super) fn frame(
        &mut self,
        node: usize,
        from: usize,
        link: Link,
        frame: &[u8],
    ) -> Result<(), String> {
        let Some(running) = &mut self.places[node].running else {
            return Ok(());
        };
        let connection = running.connections.get_mut(&from);
        let Some(connection) = connection.filter(|connection| connection.link == link) else {
            return Ok(());
        };
        let greets = frame.first() == Some(&GREETING);
        if greets == connection.is_greeted {
            return self.block(node, from);
        }
        connection.is_greeted = true;
        match self.receive(node, frame) {
            Some(Received::Greeted(key)) if key == key_of(from) => {}
            Some(Received::Applied(infos)) => self.counts.infos += infos as u64,
            Some(Received::Reply(frame)) => self.answer(node, from, frame),
            Some(Received::Memory) => return Err("out of memory".to_owned()),
            _ => return self.block(node, from),
        }
        Ok(())
    }

    // The result of the node for a frame, if it runs. The ledger gets the infos of a frame that was
    // accepted: those whose signatures were verified. The last eight of the signed bytes are the
    // timestamp.
    fn receive(&mut self, node: usize, frame: &[u8]) -> Option<Received> {
        let now = self.moment();
        let running = self.places[node].running.as_mut()?;
        let mut infos: Vec<(usize, u64)> = Vec::new();
        let judge = |question: Question<'_>| {
            if let Some(timestamp) = question.message.last_chunk() {
                let peer = node_of(&question.public_key);
                infos.push((peer, u64::from_be_bytes(*timestamp)));
            }
            verify(question)
        };
        let received = running.node.receive(frame, now, judge);
        if matches!(received, Received::Greeted(_) | Received::Applied(_)) {
            for (peer, timestamp) in infos {
                self.ledger.learn(node, peer, timestamp);
            }
            self.remember(node, frame);
        }
        Some(received)
    }

    fn remember(&mut self, node: usize, frame: &[u8]) {
        let place = &mut self.places[node];
        if place.member.lie == Some(Lie::Oldest) {
            remember(&mut place.oldest, frame, &limits(&self.parameters));
        }
    }

    fn answer(&mut self, node: usize, peer: usize, honest: Vec<u8>) {
        let place = &self.places[node];
        let frame = match place.member.lie {
            Some(lie) => reply(lie, honest, &limits(&self.parameters), &place.oldest),
            None => Some(honest),
        };
        if let Some(frame) = frame {
            self.counts.replies += 1;
            self.send(node, peer, frame);
        }
    }

    fn block(&mut self, node: usize, peer: usize) -> Result<(), String> {
        let now = self.moment();
        let Some(running) = &mut self.places[node].running else {
            return Ok(());
        };
        let directory = running.node.directory_mut();
        let blocked = directory.block(&key_of(peer), now);
        if blocked.map_err(|error| error.to_string())? {
            self.counts.blocks += 1;
        }
        self.end(node, peer)
    }
}
