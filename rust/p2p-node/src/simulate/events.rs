//! What happens in a network, in the order of time.

use p2p_directory::Ingress;
use std::cmp::Ordering;
use std::collections::BinaryHeap;
use std::time::Duration;

/// A connection, or the attempt to make one. Each has its own number.
pub type Link = u64;

/// What happens to a node.
#[derive(Clone, Debug, PartialEq, Eq)]
pub enum Event {
    /// It dials, asks, and does what is due.
    Tick,
    /// A dial arrives from a peer.
    Dialled {
        /// The node that dials.
        from: usize,
        /// The connection that it wants.
        link: Link,
        /// The address that it dialled.
        ingress: Ingress,
        /// The time that each frame of the connection takes.
        latency: Duration,
    },
    /// Its own dial was accepted by the peer.
    Accepted {
        /// The peer.
        from: usize,
        /// The connection.
        link: Link,
        /// The time that each frame of the connection takes.
        latency: Duration,
    },
    /// Its own dial was refused by the peer, or didn't arrive.
    Refused {
        /// The peer.
        from: usize,
        /// The connection that there isn't.
        link: Link,
    },
    /// A frame arrives from a peer.
    Frame {
        /// The peer.
        from: usize,
        /// The connection on which it was sent.
        link: Link,
        /// The frame.
        frame: Vec<u8>,
    },
    /// The peer has closed a connection.
    Closed {
        /// The peer.
        from: usize,
        /// The connection.
        link: Link,
    },
}

/// Events that are to come. Those of the same time come in the order in which they were scheduled.
#[derive(Debug, Default)]
pub struct Events {
    heap: BinaryHeap<Scheduled>,
    count: u64,
}

#[derive(Debug)]
struct Scheduled {
    at: Duration,
    number: u64,
    node: usize,
    event: Event,
}

impl Events {
    /// Schedules what happens to a node, at a time since the start.
    pub fn schedule(&mut self, at: Duration, node: usize, event: Event) {
        self.count += 1;
        self.heap.push(Scheduled {
            at,
            number: self.count,
            node,
            event,
        });
    }

    /// The next event at or before this time, with its time and its node.
    pub fn next_until(&mut self, end: Duration) -> Option<(Duration, usize, Event)> {
        if self.heap.peek()?.at > end {
            return None;
        }
        let next = self.heap.pop()?;
        Some((next.at, next.node, next.event))
    }
}

// The heap has its greatest element on top, so the earliest event is the greatest.
impl Ord for Scheduled {
    fn cmp(&self, other: &Scheduled) -> Ordering {
        (other.at, other.number).cmp(&(self.at, self.number))
    }
}

impl PartialOrd for Scheduled {
    fn partial_cmp(&self, other: &Scheduled) -> Option<Ordering> {
        Some(self.cmp(other))
    }
}

impl PartialEq for Scheduled {
    fn eq(&self, other: &Scheduled) -> bool {
        self.number == other.number
    }
}

impl Eq for Scheduled {}
