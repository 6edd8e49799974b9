//! Reads the ledger of a node while it grows.

use p2p_directory::Key;
use std::collections::HashMap;
use std::fs::File;
use std::io::{Read, Seek, SeekFrom};
use std::path::PathBuf;
use std::time::Duration;

/// A line of a ledger.
#[derive(Clone, Debug, PartialEq, Eq)]
pub struct Event {
    /// When it happened.
    pub at: Duration,
    /// What happened.
    pub name: String,
    /// The peer, if the event has one.
    pub peer: Option<Key>,
    /// The key, the timestamp and the address of an info.
    pub info: Option<(Key, u64, String)>,
    /// The reason, or an empty text.
    pub reason: String,
}

impl Event {
    /// Reads a line.
    pub fn parse(line: &str) -> Option<Event> {
        let key = |name| member(line, name)?.parse().ok();
        let at: u64 = member(line, "at")?.parse().ok()?;
        let info = || {
            let timestamp = member(line, "timestamp")?.parse().ok()?;
            Some((key("key")?, timestamp, member(line, "ingress")?.to_owned()))
        };
        Some(Event {
            at: Duration::from_nanos(at),
            name: member(line, "event")?.to_owned(),
            peer: key("peer"),
            info: info(),
            reason: member(line, "reason").unwrap_or_default().to_owned(),
        })
    }
}

/// The text of a member of a line of JSON, without quotation marks.
fn member<'l>(line: &'l str, name: &str) -> Option<&'l str> {
    let (_, value) = line.split_once(&format!("\"{name}\":"))?;
    match value.strip_prefix('"') {
        Some(text) => text.split('"').next(),
        None => value.split([',', '}']).next(),
    }
}

/// What was read of a ledger.
#[derive(Clone, Debug)]
pub struct Ledger {
    path: PathBuf,
    offset: u64,
    /// The lines.
    pub events: Vec<Event>,
    /// The latest timestamp of each key that the node accepted.
    pub known: HashMap<Key, u64>,
    /// How many lines could not be read.
    pub strange: usize,
}

impl Ledger {
    /// The ledger of this file, of which nothing was read.
    pub fn new(path: PathBuf) -> Ledger {
        Ledger {
            path,
            offset: 0,
            events: Vec::new(),
            known: HashMap::new(),
            strange: 0,
        }
    }

    /// Reads the lines that are new. A file that isn't there has none.
    pub fn update(&mut self) {
        let text = self.read().unwrap_or_default();
        let Some((whole, _)) = text.rsplit_once('\n') else {
            return;
        };
        self.offset += whole.len() as u64 + 1;
        for line in whole.lines() {
            match Event::parse(line) {
                Some(event) => self.add(event),
                None => self.strange += 1,
            }
        }
    }

    fn read(&self) -> std::io::Result<String> {
        let mut file = File::open(&self.path)?;
        file.seek(SeekFrom::Start(self.offset))?;
        let mut text = String::new();
        file.read_to_string(&mut text)?;
        Ok(text)
    }

    fn add(&mut self, event: Event) {
        if let Some((key, timestamp, _)) = &event.info {
            let known = self.known.entry(*key).or_default();
            *known = (*timestamp).max(*known);
        }
        self.events.push(event);
    }

    /// The info with which the node started: its timestamp and its address.
    pub fn own(&self) -> Option<&(Key, u64, String)> {
        let mut events = self.events.iter();
        events.find(|event| event.name == "started")?.info.as_ref()
    }

    /// Whether a connection of this peer has begun, and hasn't ended.
    pub fn is_connected(&self, peer: &Key) -> bool {
        let of_peer = |name| {
            let events = self.of(name);
            events.filter(|event| event.peer == Some(*peer)).count()
        };
        of_peer("connected") > of_peer("disconnected")
    }

    /// The events of a name.
    pub fn of<'l>(&'l self, name: &'l str) -> impl Iterator<Item = &'l Event> {
        self.events.iter().filter(move |event| event.name == name)
    }
}

#[cfg(test)]
mod tests {
    use super::*;
    use p2p_directory::Moment;
    use p2p_directory::testing::{info, key};
    use p2p_node::ledger::{Direction, Entry, Ledger as Written};

    #[test]
    fn reads_what_a_node_writes() {
        let path = std::env::temp_dir().join(format!("testnet-ledger-{}", std::process::id()));
        let _ = std::fs::remove_file(&path);
        let written = Written::open(&path, |error| panic!("{error}")).unwrap();
        let minute = Duration::from_secs(60);
        let mut ledger = Ledger::new(path.clone());
        ledger.update();
        assert!(ledger.events.is_empty());
        let (one, two) = (key(1), key(2));
        let own = info(1, 70);
        written
            .write(Moment::from_secs(3), &Entry::Started(&own))
            .unwrap();
        assert!(written.finish(minute));
        ledger.update();
        let entry = Entry::Grant(&two, Direction::Dial);
        written.write(Moment::from_secs(4), &entry).unwrap();
        let entry = Entry::Block(&two, &"a reason");
        written.write(Moment::from_secs(5), &entry).unwrap();
        assert!(written.finish(minute));
        ledger.update();
        std::fs::remove_file(path).unwrap();
        assert_eq!(ledger.own(), Some(&(one, 70, own.ingress.to_string())));
        assert_eq!(ledger.known.get(&one), Some(&70));
        let names: Vec<_> = ledger
            .events
            .iter()
            .map(|event| event.name.as_str())
            .collect();
        assert_eq!(names, ["started", "grant", "block"]);
        assert_eq!(ledger.events[1].at, Duration::from_secs(4));
        assert_eq!(ledger.events[2].peer, Some(two));
        assert_eq!(ledger.events[2].reason, "a reason");
        assert_eq!(ledger.strange, 0);
        assert!(!ledger.is_connected(&two));
        ledger.events.push(Event {
            name: "connected".to_owned(),
            ..ledger.events[1].clone()
        });
        assert!(ledger.is_connected(&two) && !ledger.is_connected(&one));
    }
}
