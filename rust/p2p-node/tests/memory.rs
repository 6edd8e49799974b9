//! A node whose system refuses memory or threads goes on.

mod common;

use common::{Folder, NAMESPACE, Running, frames, info, key, member, milliseconds, send};
use p2p_directory::Payload;
use p2p_node::wire::write_frame;
use std::fs;
use std::net::TcpStream;
use std::process::Command;

/// How much memory is requested of the system, in bytes.
fn size(node: &Running) -> u64 {
    let status = fs::read_to_string(format!("/proc/{}/status", node.id())).unwrap();
    let line = status.lines().find_map(|line| line.strip_prefix("VmSize:"));
    let kibibytes = line.unwrap().trim().split(' ').next().unwrap();
    kibibytes.parse::<u64>().unwrap() << 10
}

/// Sets the soft bound on the memory of a node, with the program `prlimit` of Debian's package `util-linux`.
fn bound(node: &Running, most: &str) {
    let words = ["--pid", &node.id().to_string(), &format!("--as={most}:")];
    let bound = Command::new("prlimit").args(words).status();
    assert!(bound.expect("prlimit, of the package util-linux").success());
}

fn start(words: &str) -> (Folder, Running) {
    let folder = Folder::new();
    folder.set(0, &[1, 2, 3, 4]);
    let node = Running::start(
        &folder,
        1,
        &format!("--tick 60 --silence 120 --cooldown 1 {words}"),
    );
    (folder, node)
}

fn greeted(node: &Running, number: u8) -> TcpStream {
    let stream = node.dial(number);
    send(
        &stream,
        &Payload::Greeting(info(number, NAMESPACE, milliseconds())).encode(),
    );
    node.until_event("info", &key(number));
    stream
}

#[test]
fn a_frame_for_which_there_is_no_memory_ends_its_connection_alone() {
    let (_folder, mut node) = start("--max-data 67108864");
    let (second, third) = (greeted(&node, 2), greeted(&node, 3));
    bound(&node, &(size(&node) + (8 << 20)).to_string());
    // The writes fail when the node has closed the stream.
    let _ = write_frame(&mut common::timed(&second), &vec![0; 48 << 20]);
    let end = node.until_event("disconnected", &key(2));
    assert_eq!(member(&end, "reason"), Some("no memory"));
    node.until_count("memory_refusals", 1);
    node.until_count("blocked", 0);
    // The other peer is served, and so is a new one.
    send(&third, &[2, 0, 4, 0]);
    node.until_count("frames_out", 5);
    bound(&node, "unlimited");
    let _fourth = greeted(&node, 4);
    assert!(node.is_running());
}

#[test]
fn a_connection_for_which_there_is_no_thread_is_closed() {
    let (_folder, mut node) = start("");
    let second = greeted(&node, 2);
    // Not enough for the stack of a thread.
    bound(&node, &(size(&node) + (128 << 10)).to_string());
    let refused: Vec<TcpStream> = (0..4).map(|_| node.stream()).collect();
    node.until_count("thread_refusals", 4);
    assert!(refused.iter().all(|stream| frames(stream).is_empty()));
    // The peer that is connected is served: the greeting, a question and a reply.
    send(&second, &[2, 0, 4, 0]);
    node.until_count("frames_out", 3);
    bound(&node, "unlimited");
    let _third = greeted(&node, 3);
    assert!(node.is_running());
    let (status, _) = node.terminate();
    assert_eq!(status.code(), Some(0));
}
