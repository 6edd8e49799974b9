//! The ledger: a file with a line of JSON for each event, for a checker of a network.
//!
//! A thread of its own writes the lines, each by one call, so a process that is killed leaves whole
//! lines, and loses those that waited. The member `at` of a line is in nanoseconds since the Unix
//! epoch.

use crate::json::Object;
use crate::writer::Writer;
use p2p_directory::{Info, Key, Moment};
use std::fmt::Display;
use std::fs::OpenOptions;
use std::io;
use std::os::unix::fs::OpenOptionsExt;
use std::path::Path;
use std::time::Duration;

/// How many bytes of lines wait at most until they are written.
const ROOM: usize = 4 << 20;

/// An event that is written to the ledger.
#[derive(Clone, Copy)]
pub enum Entry<'e> {
    /// The node has started with this info.
    Started(&'e Info),
    /// The node has ended, with so many reservations that were not released.
    Stopped(usize),
    /// A set was registered: its index, and the numbers of its primary and secondary peers.
    Set(u64, usize, usize),
    /// A peer has to be disconnected, since no retained set names it after this index.
    Teardown(&'e Key, u64),
    /// A connection was granted, to dial the peer or to listen to it.
    Grant(&'e Key, Direction),
    /// The peer is connected.
    Connected(&'e Key, Direction),
    /// The connection has ended, and is released.
    Disconnected(&'e Key, &'e dyn Display),
    /// What was granted led to no connection, and is released.
    NotConnected(&'e Key, &'e dyn Display),
    /// An info was received from a peer, and accepted.
    Info(&'e Key, &'e Info),
    /// A peer was blocked.
    Block(&'e Key, &'e dyn Display),
    /// At least one block has ended.
    Unblock,
}

/// Who opened a connection.
#[derive(Clone, Copy, Debug, PartialEq, Eq)]
pub enum Direction {
    /// This node.
    Dial,
    /// The peer.
    Listen,
}

impl Direction {
    fn name(self) -> &'static str {
        match self {
            Direction::Dial => "dial",
            Direction::Listen => "listen",
        }
    }
}

impl Entry<'_> {
    /// The line of the event at a time.
    fn line(&self, at: Moment) -> String {
        let line = |event: &str| {
            let at = at.as_duration().as_nanos();
            Object::new().number("at", at).text("event", event)
        };
        let of = |event: &str, peer: &Key| line(event).text("peer", peer);
        let object = match self {
            Entry::Started(info) => with_info(line("started"), info),
            Entry::Stopped(held) => line("stopped").number("held", *held as u64),
            Entry::Set(index, primary, secondary) => line("set")
                .number("index", *index)
                .number("primary", *primary as u64)
                .number("secondary", *secondary as u64),
            Entry::Teardown(peer, index) => of("teardown", peer).number("index", *index),
            Entry::Grant(peer, direction) => of("grant", peer).text("by", direction.name()),
            Entry::Connected(peer, direction) => of("connected", peer).text("by", direction.name()),
            Entry::Disconnected(peer, why) => of("disconnected", peer).text("reason", why),
            Entry::NotConnected(peer, why) => of("not_connected", peer).text("reason", why),
            Entry::Info(peer, info) => with_info(of("info", peer), info),
            Entry::Block(peer, why) => of("block", peer).text("reason", why),
            Entry::Unblock => line("unblock"),
        };
        object.end()
    }
}

fn with_info(line: Object, info: &Info) -> Object {
    line.text("key", info.public_key)
        .number("timestamp", info.timestamp)
        .text("ingress", &info.ingress)
}

/// The file of a ledger.
#[derive(Debug)]
pub struct Ledger(Writer);

impl Ledger {
    /// Opens the file to append lines. If there is none, it is created for its owner alone. `lost`
    /// is called by the thread that writes, for each line that can't be written.
    ///
    /// # Errors
    ///
    /// That of the system.
    pub fn open(
        path: &Path,
        mut lost: impl FnMut(&io::Error) + Send + 'static,
    ) -> io::Result<Ledger> {
        let mut options = OpenOptions::new();
        let file = options.append(true).create(true).mode(0o600).open(path)?;
        let goes_on = move |error: &io::Error| {
            lost(error);
            true
        };
        Writer::start(file, ROOM, goes_on).map(Ledger)
    }

    /// Queues the line of an event at a time, and doesn't wait until it is written.
    ///
    /// # Errors
    ///
    /// [`io::ErrorKind::TimedOut`] if too many lines wait. Then this one is dropped.
    pub fn write(&self, at: Moment, entry: &Entry<'_>) -> io::Result<()> {
        let mut line = entry.line(at);
        line.push('\n');
        self.0.push(line.into_bytes())
    }

    /// Waits until all lines are written, at most so long. Returns whether they are.
    #[must_use]
    pub fn finish(&self, within: Duration) -> bool {
        self.0.finish(within)
    }
}

#[cfg(test)]
mod tests {
    use super::*;
    use p2p_directory::testing::{info, key};

    #[test]
    fn lines_have_the_members_of_their_event() {
        let at = Moment::from_secs(3);
        let one = format!("{}01", "0".repeat(62));
        let grant = Entry::Grant(&key(1), Direction::Listen).line(at);
        let expected =
            format!(r#"{{"at":3000000000,"event":"grant","peer":"{one}","by":"listen"}}"#);
        assert_eq!(grant, expected);
        let received = Entry::Info(&key(1), &info(1, 1000)).line(at);
        let expected = format!(
            r#"{{"at":3000000000,"event":"info","peer":"{one}","key":"{one}","timestamp":1000,"ingress":"1.2.3.4:8001"}}"#
        );
        assert_eq!(received, expected);
        let block = Entry::Block(&key(1), &"said \"no\"").line(at);
        assert!(block.ends_with(r#""reason":"said \"no\""}"#), "{block}");
    }
}
