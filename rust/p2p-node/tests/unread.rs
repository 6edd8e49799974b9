//! Peers that don't read what a node sends, and outputs that nobody reads.

mod common;

use common::{
    Folder, NAMESPACE, QUICK, Running, frames_of, info, key, member, milliseconds, send, timed,
    until,
};
use p2p_directory::{BitVec, Payload};
use p2p_node::wire::write_frame;
use std::fs::{self, File, OpenOptions};
use std::io::{ErrorKind, Write};
use std::net::TcpStream;
use std::os::unix::fs::OpenOptionsExt;
use std::path::PathBuf;
use std::process::Command;
use std::time::Duration;

/// The number of peers. Most are connected, so a reply has the infos of most.
const PEERS: u8 = 60;

/// How many questions a peer asks between two looks at the counts of the node.
const QUESTIONS: u64 = 500;

/// How many frames the node keeps for a peer: those in the queue, and the one that it writes.
const KEPT: u64 = 17;

/// A frame that says nothing.
const NOTHING: [u8; 2] = [3, 0];

/// Dials the node as the peer of a number, and greets.
fn greeted(node: &Running, number: u8) -> TcpStream {
    let stream = node.dial(number);
    let greeting = Payload::Greeting(info(number, NAMESPACE, milliseconds()));
    send(&stream, &greeting.encode());
    node.until_event("info", &key(number));
    stream
}

/// A question for all infos.
fn question() -> Vec<u8> {
    let bits = vec![false; usize::from(PEERS)];
    Payload::BitVec(BitVec { index: 0, bits }).encode()
}

/// The frames that a node has read and written, and the replies that it has dropped.
#[derive(Clone, Copy, Debug)]
struct Counts {
    read: u64,
    written: u64,
    dropped: u64,
}

impl Counts {
    fn of(node: &Running) -> Option<Counts> {
        let status = node.status()?;
        let count = |name| member(&status, name)?.parse().ok();
        Some(Counts {
            read: count("frames_in")?,
            written: count("frames_out")?,
            dropped: count("replies_dropped")?,
        })
    }
}

/// Asks until no reply can be written any more, while the others show that they are there. Returns
/// how many replies were asked for, and what has become of them.
fn fill(node: &Running, slow: &TcpStream, others: &[TcpStream], begin: Counts) -> (u64, Counts) {
    let (mut asked, mut told) = (0, 0);
    let mut last: Option<Counts> = None;
    until("a stream that takes no reply", || {
        for _ in 0..QUESTIONS {
            send(slow, &question());
            // Time to write the reply, so that few are dropped before the stream is full.
            std::thread::sleep(Duration::from_millis(1));
        }
        others.iter().for_each(|other| send(other, &NOTHING));
        asked += QUESTIONS;
        told += others.len() as u64;
        let counts = until("the replies", || {
            let counts = Counts::of(node)?;
            let replies = counts.written - begin.written + counts.dropped;
            let is_done = counts.read == begin.read + asked + told && replies + KEPT >= asked;
            is_done.then_some(counts)
        });
        let last = last.replace(counts)?;
        let is_full = counts.written == last.written && counts.dropped == last.dropped + QUESTIONS;
        is_full.then_some((asked, counts))
    })
}

/// The most memory that a node had, in KiB.
fn highest(node: &Running) -> u64 {
    let status = fs::read_to_string(format!("/proc/{}/status", node.id())).unwrap();
    let line = status.lines().find_map(|line| line.strip_prefix("VmHWM:"));
    let kibibytes = line.unwrap().trim().split(' ').next().unwrap();
    kibibytes.parse().unwrap()
}

#[test]
fn a_peer_that_does_not_read_misses_replies_and_is_cut() {
    let folder = Folder::new();
    folder.set(0, &(1..=PEERS).collect::<Vec<u8>>());
    let words = "--tick 60 --silence 10 --cooldown 600 --burst 100000";
    let node = Running::start(&folder, 1, words);
    let others: Vec<TcpStream> = (4..=PEERS).map(|number| greeted(&node, number)).collect();
    let slow = greeted(&node, 2);
    // Each peer gets a greeting and a question.
    node.until_count("frames_out", 2 * (others.len() as u64 + 1));
    let (begin, before) = (Counts::of(&node).unwrap(), highest(&node));
    let (asked, end) = fill(&node, &slow, &others, begin);
    // No reply is lost without having been counted, and the node keeps no more than its queue has.
    assert_eq!(end.written - begin.written + KEPT + end.dropped, asked);
    let more = highest(&node) - before;
    assert!(more < 2 << 10, "{more} KiB");
    // Another peer is served.
    let third = greeted(&node, 3);
    send(&third, &question());
    let frames = frames_of(&third, 3);
    let is_reply = |frame: &Vec<u8>| frame.first() == Some(&3) && frame.len() > 1000;
    assert!(frames.iter().any(is_reply));
    // The peer goes on to send, and its connection ends since nothing can be written to it.
    let end = until("the end of the connection", || {
        for stream in others.iter().chain([&third, &slow]) {
            // Where the stream has ended, this fails.
            let _ = write_frame(&mut timed(stream), &NOTHING);
        }
        std::thread::sleep(Duration::from_millis(200));
        node.events("disconnected").pop()
    });
    assert_eq!(member(&end, "peer"), Some(key(2).to_string().as_str()));
    assert_eq!(member(&end, "reason"), Some("closed"));
    node.until_count("connected", others.len() as u64 + 1);
    node.until_count("blocked", 0);
}

#[test]
fn a_node_whose_output_is_not_read_goes_on_and_ends_in_time() {
    let folder = Folder::new();
    folder.set(0, &[1, 2, 3]);
    let (first, pipe) = Running::start_unread(&folder, 1, QUICK);
    // A status line is due each second.
    std::thread::sleep(Duration::from_secs(2));
    let second = Running::start(&folder, 2, &format!("{QUICK} {}", first.as_bootstrapper()));
    second.until_count("connected", 1);
    first.until_event("connected", &key(2));
    let stream = greeted(&first, 3);
    // A question for all infos of the three.
    send(&stream, &[2, 0, 3, 0]);
    let frames = frames_of(&stream, 10);
    assert!(
        frames
            .iter()
            .any(|frame| frame.len() > 100 && frame.first() == Some(&3))
    );
    let (status, passed) = first.terminate();
    assert_eq!(status.code(), Some(0));
    assert!(passed < Duration::from_secs(2), "{passed:?}");
    drop(pipe);
}

/// A pipe with a name that is full, and that nobody reads as long as the file lives.
fn full_pipe(folder: &Folder, name: &str) -> (PathBuf, File) {
    let path = folder.path(name);
    let made = Command::new("mkfifo").arg(&path).status().unwrap();
    assert!(made.success());
    let mut options = OpenOptions::new();
    // O_NONBLOCK of Linux. A pipe that is opened for both has a reader.
    let options = options.read(true).write(true).custom_flags(0o4000);
    let mut pipe = options.open(&path).unwrap();
    for length in [4096, 1] {
        while pipe.write(&[b'\n'; 4096][..length]).is_ok() {}
    }
    let full = pipe.write(b"\n").unwrap_err();
    assert_eq!(full.kind(), ErrorKind::WouldBlock);
    (path, pipe)
}

#[test]
fn a_node_whose_ledger_and_record_stall_goes_on_and_ends_in_time() {
    let folder = Folder::new();
    folder.set(0, &[1, 2]);
    let (ledger, _ledger) = full_pipe(&folder, "ledger");
    let (record, _record) = full_pipe(&folder, "record");
    let (ledger, record) = (ledger.display(), record.display());
    let words = format!("{QUICK} --ledger {ledger} --record {record}");
    let first = Running::start(&folder, 1, &words);
    let second = Running::start(&folder, 2, &format!("{QUICK} {}", first.as_bootstrapper()));
    second.until_count("connected", 1);
    first.until_count("connected", 1);
    let begun = Counts::of(&first).unwrap();
    // Some ticks, in each of which the record is flushed.
    first.until_at_least("frames_in", begun.read + 10);
    assert!(second.events("disconnected").is_empty());
    let (status, passed) = first.terminate();
    assert_eq!(status.code(), Some(0));
    assert!(passed < Duration::from_secs(2), "{passed:?}");
    second.until_event("disconnected", &key(1));
}

#[test]
fn lines_for_which_a_ledger_has_no_room_are_counted() {
    let folder = Folder::new();
    folder.set(0, &(1..=250).collect::<Vec<u8>>());
    let (ledger, _ledger) = full_pipe(&folder, "ledger");
    // The only connection is that of the peer, so none is dialled.
    let words = "--tick 60 --silence 120 --burst 1000 --max-connections 1";
    let node = Running::start(
        &folder,
        1,
        &format!("{words} --ledger {}", ledger.display()),
    );
    let stream = node.dial(2);
    let greeting = Payload::Greeting(info(2, NAMESPACE, milliseconds()));
    send(&stream, &greeting.encode());
    // Each frame is 248 lines of more than 250 bytes, and 4 MiB have room.
    let begin = milliseconds() - 1000;
    for step in 0..80 {
        let infos = (3..=250).map(|number| info(number, NAMESPACE, begin + step));
        send(&stream, &Payload::Peers(infos.collect()).encode());
    }
    node.until_at_least("frames_in", 81);
    node.until_at_least("ledger_losses", 1);
    node.until_count("connected", 1);
}
