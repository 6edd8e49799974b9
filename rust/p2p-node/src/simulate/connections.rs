//! How connections of a network begin and end.

use super::events::{Event, Link};
use super::members::{key_of, node_of};
use super::network::{Network, Running};
use p2p_directory::{Ingress, Metadata, Reservation};
use std::time::Duration;

/// How many dials a node may begin in a tick. A host of the guide may begin so many in each round.
const DIALS: usize = 16;

/// How long a dial takes that doesn't arrive: the time of a handshake, as in the guide.
const HANDSHAKE: Duration = Duration::from_secs(5);

/// One side of a connection.
#[derive(Debug)]
pub struct Connection {
    /// The number of the connection, the same on both sides.
    pub link: Link,
    /// How long each frame takes.
    pub latency: Duration,
    /// The reservation of the peer.
    pub reservation: Reservation,
    /// Whether the peer has greeted.
    pub is_greeted: bool,
    /// When this side ends it, if it does.
    pub ends_at: Option<Duration>,
}

impl Running {
    fn release(&mut self, connection: Connection) -> Result<(), String> {
        let released = self.node.directory_mut().release(connection.reservation);
        released.map_err(|error| error.to_string())
    }
}

impl Network {
    /// Tells the peer that a connection has ended.
    pub(super) fn close(&mut self, node: usize, peer: usize, link: Link, latency: Duration) {
        let closed = Event::Closed { from: node, link };
        self.events.schedule(self.now + latency, peer, closed);
    }

    /// Ends the connections that were to end by now.
    pub(super) fn end_due(&mut self, node: usize) -> Result<(), String> {
        let now = self.now;
        let Some(running) = &mut self.places[node].running else {
            return Ok(());
        };
        let is_due = |connection: &Connection| connection.ends_at.is_some_and(|end| end <= now);
        let connections = running.connections.iter();
        let due = connections.filter(|(_, connection)| is_due(connection));
        let due: Vec<usize> = due.map(|(peer, _)| *peer).collect();
        due.into_iter().try_for_each(|peer| self.end(node, peer))
    }

    /// Ends a connection from this side.
    ///
    /// # Errors
    ///
    /// Says that the reservation is not one of this node, which is a fault of the simulation.
    pub(super) fn end(&mut self, node: usize, peer: usize) -> Result<(), String> {
        let Some(running) = &mut self.places[node].running else {
            return Ok(());
        };
        if let Some(connection) = running.connections.remove(&peer) {
            let (link, latency) = (connection.link, connection.latency);
            running.release(connection)?;
            self.close(node, peer, link, latency);
        }
        Ok(())
    }

    /// The peer has ended a connection. Another one with it may have begun since.
    pub(super) fn closed(&mut self, node: usize, from: usize, link: Link) -> Result<(), String> {
        let Some(running) = &mut self.places[node].running else {
            return Ok(());
        };
        let ended = running.connections.get(&from);
        if ended.is_some_and(|connection| connection.link == link)
            && let Some(connection) = running.connections.remove(&from)
        {
            running.release(connection)?;
        }
        Ok(())
    }

    // How many further connections a node may have.
    fn room(&self, node: usize) -> usize {
        let running = self.places[node].running.as_ref();
        let held = running.map(|running| running.connections.len() + running.dialling.len());
        held.map_or(0, |held| self.parameters.connections.saturating_sub(held))
    }

    // The jitter of a grant, over the range of `Config::draw`. The generator's own rule for a bound
    // gives other numbers than that one, and they are those of the stored runs.
    fn draw(&mut self) -> Duration {
        let end = (2 * (self.parameters.cooldown / 2)).as_nanos() as u64;
        Duration::from_nanos(self.random.below(end.saturating_add(1)))
    }

    // The time that frames of a connection take: from half the mean to one and a half.
    fn latency(&mut self) -> Duration {
        let mean = self.parameters.latency.as_nanos() as u64;
        Duration::from_nanos(mean / 2 + self.random.below(mean.saturating_add(1)))
    }

    // When the dialer ends a connection that begins now: after half its mean lifetime to one and a
    // half, so that those that began together don't end together.
    fn draw_end(&mut self) -> Option<Duration> {
        let lifetime = u32::try_from(self.parameters.lifetime).unwrap_or(u32::MAX);
        let mean = (self.parameters.tick * lifetime).as_nanos() as u64;
        let drawn = mean / 2 + self.random.below(mean.saturating_add(1));
        (lifetime > 0).then(|| self.now + Duration::from_nanos(drawn))
    }

    /// Dials random peers, as many as it may still be connected with.
    pub(super) fn dial(&mut self, node: usize) -> Result<(), String> {
        let room = self.room(node).min(DIALS);
        let now = self.moment();
        let Some(running) = self.places[node].running.as_ref().filter(|_| room > 0) else {
            return Ok(());
        };
        let dialable = running.node.directory().dialable(now);
        let mut peers = dialable.map_err(|error| error.to_string())?.peers;
        for key in self.random.choose(&mut peers, room) {
            let (draw, latency) = (self.draw(), self.latency());
            let Some(running) = &mut self.places[node].running else {
                break;
            };
            let granted = running.node.directory_mut().dial(key, now, draw);
            let Some(reservation) = granted.map_err(|error| error.to_string())? else {
                continue;
            };
            self.begin(node, reservation, latency);
        }
        Ok(())
    }

    fn begin(&mut self, node: usize, reservation: Reservation, latency: Duration) {
        let Some((peer, ingress)) = dialled_address(&reservation) else {
            return;
        };
        self.links += 1;
        let link = self.links;
        self.counts.dials += 1;
        self.granted(node, peer, true);
        if self.random.happens(self.parameters.loss) {
            self.counts.lost += 1;
            let refused = Event::Refused { from: peer, link };
            self.events.schedule(self.now + HANDSHAKE, node, refused);
        } else {
            let dialled = Event::Dialled {
                from: node,
                link,
                ingress,
                latency,
            };
            self.events.schedule(self.now + latency, peer, dialled);
        }
        if let Some(running) = &mut self.places[node].running {
            running.dialling.insert(peer, (link, reservation));
        }
    }

    /// A dial arrives. It is accepted if the node is here, has room, and its directory grants it.
    pub(super) fn dialled(
        &mut self,
        node: usize,
        from: usize,
        link: Link,
        latency: Duration,
        is_here: bool,
    ) -> Result<(), String> {
        let (draw, now) = (self.draw(), self.moment());
        let has_room = is_here && self.room(node) > 0;
        let granted = match &mut self.places[node].running {
            Some(running) if has_room => {
                let directory = running.node.directory_mut();
                let granted = directory.listen(&key_of(from), now, draw);
                granted.map_err(|error| error.to_string())?
            }
            _ => None,
        };
        let Some(reservation) = granted else {
            let refused = Event::Refused { from: node, link };
            self.events.schedule(self.now + latency, from, refused);
            return Ok(());
        };
        self.granted(node, from, false);
        let accepted = Event::Accepted {
            from: node,
            link,
            latency,
        };
        self.events.schedule(self.now + latency, from, accepted);
        self.connect(node, from, link, latency, reservation, None)
    }

    /// The peer has accepted a dial of this node.
    pub(super) fn accepted(
        &mut self,
        node: usize,
        from: usize,
        link: Link,
        latency: Duration,
    ) -> Result<(), String> {
        let Some(reservation) = self.take_dial(node, from, link) else {
            // The node has restarted meanwhile.
            self.close(node, from, link, latency);
            return Ok(());
        };
        let ends_at = self.draw_end();
        self.connect(node, from, link, latency, reservation, ends_at)
    }

    /// The peer has refused a dial of this node, or it didn't arrive. The directory counts a failed
    /// dial when the reservation is dropped.
    pub(super) fn refused(&mut self, node: usize, from: usize, link: Link) {
        if self.take_dial(node, from, link).is_some() {
            self.counts.failed += 1;
        }
    }

    fn take_dial(&mut self, node: usize, peer: usize, link: Link) -> Option<Reservation> {
        let running = self.places[node].running.as_mut()?;
        if running.dialling.get(&peer)?.0 != link {
            return None;
        }
        let (_, reservation) = running.dialling.remove(&peer)?;
        Some(reservation)
    }

    // Connects a peer on this side, and greets it.
    fn connect(
        &mut self,
        node: usize,
        peer: usize,
        link: Link,
        latency: Duration,
        reservation: Reservation,
        ends_at: Option<Duration>,
    ) -> Result<(), String> {
        let Some(running) = &mut self.places[node].running else {
            return Ok(());
        };
        let connected = running.node.directory_mut().connect_reserved(&reservation);
        connected.map_err(|error| error.to_string())?;
        let greeting = running.node.greeting().to_vec();
        running.connections.insert(
            peer,
            Connection {
                link,
                latency,
                reservation,
                is_greeted: false,
                ends_at,
            },
        );
        self.send(node, peer, greeting);
        Ok(())
    }

    fn granted(&mut self, node: usize, peer: usize, is_dial: bool) {
        let at = self.now;
        if let Some(record) = &mut self.record {
            record.granted(node, peer, is_dial, at);
        }
    }
}

fn dialled_address(reservation: &Reservation) -> Option<(usize, Ingress)> {
    match reservation.metadata() {
        Metadata::Dialer(key, ingress) => Some((node_of(key), ingress.clone())),
        _ => None,
    }
}
