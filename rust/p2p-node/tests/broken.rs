//! Nodes that break one rule: each does break it, so that a checker of a network can notice.

#![cfg(feature = "broken")]

mod common;

use common::{
    Folder, NAMESPACE, QUICK, Running, frames, info, key, member, milliseconds, send, timed, until,
};
use p2p_directory::{BitVec, Data, Payload};
use std::io::Read;
use std::net::TcpStream;
use std::time::Duration;

fn start(words: &str) -> (Folder, Running) {
    let folder = Folder::new();
    folder.set(0, &[1, 2, 3]);
    let node = Running::start(&folder, 1, words);
    (folder, node)
}

fn greet(stream: &TcpStream, number: u8) {
    send(
        stream,
        &Payload::Greeting(info(number, NAMESPACE, milliseconds())).encode(),
    );
}

#[test]
fn grants_early_grants_within_the_cooldown() {
    let (_folder, node) = start("--tick 60 --silence 120 --cooldown 600 --break grants-early");
    for connections in 1..=3 {
        drop(node.dial(2));
        until("the end", || {
            (node.events("disconnected").len() == connections).then_some(())
        });
    }
    let times: Vec<u128> = node
        .events("grant")
        .iter()
        .map(|line| member(line, "at").unwrap().parse().unwrap())
        .collect();
    assert_eq!(times.len(), 3);
    assert!(times[2] - times[0] < 60_000_000_000, "{times:?}");
}

#[test]
fn keeps_dropped_keeps_a_peer_of_no_set() {
    let (folder, node) =
        start("--tick 0.2 --silence 60 --cooldown 1 --max-sets 1 --break keeps-dropped");
    let stream = node.dial(2);
    greet(&stream, 2);
    node.until_event("connected", &key(2));
    folder.set(1, &[1, 3]);
    node.until_event("teardown", &key(2));
    std::thread::sleep(Duration::from_secs(1));
    assert!(node.events("disconnected").is_empty());
    node.until_count("connected", 1);
}

#[test]
fn blocks_at_random_blocks_a_peer_that_broke_no_rule() {
    let (_folder, node) = start("--tick 0.1 --silence 60 --cooldown 1 --break blocks-at-random");
    let stream = node.dial(2);
    greet(&stream, 2);
    node.until_event("block", &key(2));
    node.until_event("disconnected", &key(2));
    frames(&stream);
}

#[test]
fn no_limit_has_no_deadline_bound_or_bucket() {
    let words = "--tick 60 --silence 0.2 --cooldown 1 --handshake 0.2 --max-handshakes 1 --burst 1 --refill 1";
    let (_folder, node) = start(&format!(
        "{words} --max-data 10 --largest-set 3 --break no-limit"
    ));
    let held: Vec<TcpStream> = (0..5).map(|_| node.stream()).collect();
    node.until_count("handshakes", 5);
    std::thread::sleep(Duration::from_secs(1));
    node.until_count("handshakes", 5);
    drop(held);
    let stream = node.dial(2);
    greet(&stream, 2);
    let bits = BitVec {
        index: 0,
        bits: vec![false; 3],
    };
    for _ in 0..10 {
        send(&stream, &Payload::BitVec(bits.clone()).encode());
    }
    // The greeting, a question and ten replies.
    node.until_count("frames_out", 12);
    node.until_count("frames_delayed", 0);
    std::thread::sleep(Duration::from_secs(1));
    assert!(node.events("disconnected").is_empty());
    // A frame of 100,000 bytes is read whole, and refused for what is in it.
    send(
        &stream,
        &Payload::Data(Data {
            channel: 0,
            message: vec![0; 100_000],
        })
        .encode(),
    );
    node.until_count("codec", 1);
    node.until_count("frame_length", 0);
}

/// The memory of a process, in KiB.
fn memory(node: &Running) -> u64 {
    let status = std::fs::read_to_string(format!("/proc/{}/status", node.id())).unwrap();
    let line = status.lines().find_map(|line| line.strip_prefix("VmRSS:"));
    line.unwrap()
        .trim()
        .split(' ')
        .next()
        .unwrap()
        .parse()
        .unwrap()
}

/// How much a node grows while a peer sends it 32 MiB.
fn growth(words: &str) -> u64 {
    let (_folder, node) = start(&format!(
        "--tick 60 --silence 120 --cooldown 1 --burst 40 {words}"
    ));
    let stream = node.dial(2);
    greet(&stream, 2);
    let frame = Payload::Data(Data {
        channel: 0,
        message: vec![7; 1 << 20],
    })
    .encode();
    send(&stream, &frame);
    node.until_count("frames_in", 2);
    let before = memory(&node);
    for _ in 0..32 {
        send(&stream, &frame);
    }
    node.until_count("frames_in", 34);
    memory(&node).saturating_sub(before)
}

#[test]
fn leaks_keeps_each_frame() {
    let grown = growth("--break leaks");
    assert!(grown > 24 << 10, "{grown} KiB");
    let grown = growth("");
    assert!(grown < 8 << 10, "{grown} KiB");
}

#[test]
fn no_repair_asks_nothing() {
    let (_folder, node) = start(&format!("{QUICK} --break no-repair"));
    let stream = node.dial(2);
    greet(&stream, 2);
    node.until_count("frames_out", 6);
    drop(node);
    let kinds: Vec<_> = frames(&stream)
        .iter()
        .map(|frame| frame.first().copied())
        .collect();
    assert_eq!(kinds[0], Some(1));
    assert!(kinds[1..].iter().all(|kind| *kind == Some(3)), "{kinds:?}");
}

#[test]
fn a_node_that_breaks_no_rule_keeps_them() {
    let (_folder, node) = start("--tick 60 --silence 120 --cooldown 600 --handshake 0.2");
    assert_eq!(timed(&node.stream()).read(&mut [0]).unwrap(), 0);
    drop(node.dial(2));
    until("the end", || {
        (node.events("disconnected").len() == 1).then_some(())
    });
    for _ in 0..2 {
        assert!(node.try_dial(2).is_err());
    }
    node.until_count("not_acceptable", 2);
    assert_eq!(node.events("grant").len(), 1);
}
