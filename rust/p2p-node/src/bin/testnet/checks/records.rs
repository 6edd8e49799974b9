//! Checks of the calls that nodes recorded.

use super::connections::name;
use super::{Check, Verdict};
use crate::network::{Life, Member, Network};
use crate::process::said;
use crate::traffic::Received;
use p2p_directory::record::{Answer, Argument, Call, Log, ReplayError};
use p2p_directory::{Info, KEY_SIZE, Key, Replay};
use std::collections::HashSet;
use std::fs;
use std::process::Command;

/// Calls about one peer, whose answers don't depend on others.
const ABOUT_A_PEER: [&str; 10] = [
    "status",
    "info",
    "reservation",
    "eligible",
    "acceptable",
    "dial",
    "listen",
    "connect",
    "release",
    "block",
];

/// The number of the call `info` in a log.
const INFO: u8 = 20;

/// After so many calls it is asked again what is known of each honest peer.
const ASKED_EACH: usize = 256;

/// Room for the answer of `info`, in bytes.
const ROOM: u64 = 1024;

/// Whether all logs are answered alike, and those about honest peers without attackers' frames.
///
/// # Errors
///
/// Says which log, or which program, could not be read or run.
pub fn replay(network: &Network) -> Result<[Verdict; 2], String> {
    let mut again = Vec::new();
    let mut without = Without::default();
    let mut calls = 0;
    for (number, member) in network.members.iter().enumerate() {
        for (place, life) in member.lives.iter().enumerate() {
            if let Err(why) = by_program(network, life) {
                again.push(format!("node {number}, life {place}: {why}"));
                continue;
            }
            // A node whose memory was bounded may have ended before it wrote anything.
            let Some(log) = read(life)? else { continue };
            calls += log.calls().count();
            without.judge(network, member, place, &log)?;
        }
    }
    let again = Verdict {
        check: Check::Replay,
        evidence: format!("{calls} calls, by p2p-replay"),
        faults: again,
    };
    Ok([again, without.verdict()])
}

/// The status of `p2p-replay` for a log whose answers are alike, and whose end is missing: a process
/// that was killed leaves one.
const NOT_WHOLE: i32 = 3;

/// Logs up to so many bytes are replayed by the model and by `play` as well.
const LONGEST_MODELLED: u64 = 4 << 20;

/// Lets the program `p2p-replay` compare the answers: with those of the library, and of a log that
/// isn't long with those of the model and of `play`.
fn by_program(network: &Network, life: &Life) -> Result<(), String> {
    let length = fs::metadata(&life.record).map_or(0, |data| data.len());
    if life.is_limited && length == 0 {
        return Ok(());
    }
    replayed(network, life, &[])?;
    if length <= LONGEST_MODELLED {
        replayed(network, life, &["--model"])?;
        replayed(network, life, &["--play"])?;
    }
    Ok(())
}

fn replayed(network: &Network, life: &Life, words: &[&str]) -> Result<(), String> {
    let program = &network.options.replay;
    let mut replay = Command::new(program);
    // Calls are refused for want of memory only where it is bounded.
    if life.is_limited {
        replay.args(["--unchecked", &u64::MAX.to_string()]);
    }
    let output = replay.args(words).arg(&life.record).output();
    let output = output.map_err(|error| said(program, &error))?;
    match output.status.code() {
        Some(0 | NOT_WHOLE) => Ok(()),
        _ => {
            let text = [output.stdout, output.stderr].concat();
            let text = String::from_utf8_lossy(&text).into_owned();
            let lines = text
                .lines()
                .map(|line| line.chars().take(200).collect::<String>());
            Err(lines.collect::<Vec<_>>().join("; "))
        }
    }
}

fn read(life: &Life) -> Result<Option<Log>, String> {
    let bytes = fs::read(&life.record).unwrap_or_default();
    if bytes.is_empty() && life.is_limited {
        return Ok(None);
    }
    let log = Log::read(bytes).map_err(|error| said(&life.record, &error))?;
    Ok(Some(log))
}

/// What comes of logs without the frames of attackers.
#[derive(Default)]
struct Without {
    compared: usize,
    left_out: usize,
    relayed: usize,
    faults: Vec<String>,
}

impl Without {
    fn verdict(self) -> Verdict {
        let Without {
            compared,
            left_out,
            relayed,
            faults,
        } = self;
        Verdict {
            check: Check::WithoutAttackers,
            evidence: format!(
                "{compared} answers compared, {left_out} calls left out, {relayed} peers exempt since attackers told of them first"
            ),
            faults,
        }
    }

    /// Makes the calls of a log, and next to them those without frames that attackers alone sent.
    fn judge(
        &mut self,
        network: &Network,
        member: &Member,
        place: usize,
        log: &Log,
    ) -> Result<(), String> {
        let received = {
            let traffic = network.proxies.traffic();
            let received = traffic.received.get(&(member.key, place));
            received.cloned().unwrap_or_default()
        };
        let relayed = relayed(network, &received);
        self.relayed += relayed.len();
        let honest: HashSet<Key> = network.members.iter().map(|member| member.key).collect();
        let honest: HashSet<Key> = honest.difference(&relayed).copied().collect();
        let said =
            |error: &dyn std::fmt::Display| format!("{}: {error}", name(network, &member.key));
        let asked = Log::read(questions(log, &honest)).map_err(|error| said(&error))?;
        let asked: Vec<Call<'_>> = asked.calls().collect();
        let session = || Replay::new().ok_or("no memory for a session");
        let mut both = [session()?, session()?];
        for call in log.calls().filter(|call| !call.answer.is_out_of_memory()) {
            let differing = self.step(&mut both, &call, &received, &honest, &asked);
            if let Some(what) = differing.map_err(|error| said(&error))? {
                self.faults.push(said(&format_args!(
                    "life {place}, record {}: {what}",
                    call.place
                )));
                return Ok(());
            }
        }
        Ok(())
    }

    /// Makes a call on the session with all calls, and on the one without attackers' frames.
    /// Returns which answer about honest peers differs.
    fn step(
        &mut self,
        both: &mut [Replay; 2],
        call: &Call<'_>,
        received: &Received,
        honest: &HashSet<Key>,
        asked: &[Call<'_>],
    ) -> Result<Option<String>, ReplayError> {
        let [whole, without] = both;
        // An info is told while its peer is connected, so the end of a log would tell none.
        if call.name() == "release" || call.place.is_multiple_of(ASKED_EACH) {
            for question in asked {
                self.compared += 1;
                if whole.make(question)? != without.make(question)? {
                    return Ok(Some("another info is known".to_owned()));
                }
            }
        }
        let answer = whole.make(call)?;
        if is_hostile(call, received) {
            self.left_out += 1;
            return Ok(None);
        }
        let now = without.make(call)?;
        if !is_compared(call, honest) {
            return Ok(None);
        }
        self.compared += 1;
        let is_alike = match call.name() {
            "dialable" => dialable(&answer, honest) == dialable(&now, honest),
            _ => answer == now,
        };
        Ok((!is_alike).then(|| format!("{} is answered otherwise", call.name())))
    }
}

/// The honest keys of which attackers sent this node infos that the owners wrote, before others did.
fn relayed(network: &Network, received: &Received) -> HashSet<Key> {
    let lives = network.members.iter().flat_map(|member| &member.lives);
    let own: HashSet<_> = lives
        .filter_map(|life| life.ledger.own().cloned())
        .collect();
    let is_own =
        |info: &&Info| own.contains(&(info.public_key, info.timestamp, info.ingress.to_string()));
    let relayed = received.newer.iter().filter(is_own);
    relayed.map(|info| info.public_key).collect()
}

/// Whether this call has a frame that attackers alone sent.
fn is_hostile(call: &Call<'_>, received: &Received) -> bool {
    match call.argument("frame") {
        Some(Argument::Bytes(frame)) => {
            received.hostile.contains(frame) && !received.honest.contains(frame)
        }
        _ => false,
    }
}

fn is_compared(call: &Call<'_>, honest: &HashSet<Key>) -> bool {
    match call.argument("peer") {
        Some(Argument::Bytes(peer)) => {
            let peer = Key::from_slice(peer);
            ABOUT_A_PEER.contains(&call.name()) && peer.is_some_and(|peer| honest.contains(&peer))
        }
        _ => call.name() == "dialable",
    }
}

/// The honest peers among those that can be dialled: see `docs/C.md` for the form.
fn dialable(answer: &Answer, honest: &HashSet<Key>) -> Vec<Key> {
    let keys = match answer.bytes.split_first() {
        Some((1, rest)) => rest.get(12..).unwrap_or_default(),
        Some((_, rest)) => rest,
        None => &[],
    };
    let keys = keys.chunks_exact(KEY_SIZE).filter_map(Key::from_slice);
    keys.filter(|key| honest.contains(key)).collect()
}

/// A log that asks for the info of each of these keys, with the header of another log.
fn questions(log: &Log, keys: &HashSet<Key>) -> Vec<u8> {
    let header = log.header();
    let mut bytes = b"P2PL\x01".to_vec();
    bytes.extend((header.key_size as u16).to_be_bytes());
    bytes.extend((header.signature_size as u16).to_be_bytes());
    bytes.extend(header.archive);
    for key in keys {
        let mut record = vec![INFO];
        record.extend((KEY_SIZE as u32).to_be_bytes());
        record.extend(key.as_bytes());
        record.extend(ROOM.to_be_bytes());
        record.extend(0_u64.to_be_bytes());
        bytes.extend((record.len() as u32).to_be_bytes());
        bytes.extend(record);
    }
    bytes
}

#[cfg(test)]
mod tests {
    use super::*;
    use p2p_directory::record::Recorder;
    use p2p_directory::{Node, testing};
    use std::sync::{Arc, Mutex};

    /// Bytes that a recorder writes, and a test reads.
    #[derive(Clone, Default)]
    struct Sink(Arc<Mutex<Vec<u8>>>);

    impl std::io::Write for Sink {
        fn write(&mut self, bytes: &[u8]) -> std::io::Result<usize> {
            self.0.lock().unwrap().extend_from_slice(bytes);
            Ok(bytes.len())
        }

        fn flush(&mut self) -> std::io::Result<()> {
            Ok(())
        }
    }

    #[test]
    fn questions_ask_for_infos() {
        let sink = Sink::default();
        let recorder = Recorder::new(sink.clone(), 1 << 20);
        drop(Node::new_recorded(&testing::setup(1), recorder).unwrap());
        let log = Log::read(sink.0.lock().unwrap().clone()).unwrap();
        let keys = HashSet::from([testing::key(2), testing::key(3)]);
        let asked = Log::read(questions(&log, &keys)).unwrap();
        let names: Vec<&str> = asked.calls().map(|call| call.name()).collect();
        assert_eq!(names, ["info", "info"]);
        let peers: HashSet<Key> = asked
            .calls()
            .filter_map(|call| match call.argument("peer") {
                Some(Argument::Bytes(peer)) => Key::from_slice(peer),
                _ => None,
            })
            .collect();
        assert_eq!(peers, keys);
    }

    #[test]
    fn a_list_of_dialable_peers_is_told_without_others() {
        let keys = [testing::key(1), testing::key(2)];
        let mut bytes = vec![1];
        bytes.extend([0; 12]);
        keys.iter().for_each(|key| bytes.extend(key.as_bytes()));
        let honest = HashSet::from([keys[1]]);
        let answer = Answer::new(bytes.len() as u64, bytes);
        assert_eq!(dialable(&answer, &honest), [keys[1]]);
    }
}
