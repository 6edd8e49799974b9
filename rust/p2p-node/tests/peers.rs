//! Peers that break rules after the handshake, or send too much.

mod common;

use common::{
    Folder, LIMIT, NAMESPACE, QUICK, Running, frames, info, key, member, milliseconds, send, timed,
    until,
};
use p2p_directory::{BitVec, Data, Info, Payload, PayloadConfig};
use p2p_node::wire::read_frame;
use std::collections::BTreeSet;
use std::io::{Read, Write};
use std::net::TcpStream;
use std::time::{Duration, Instant};

const LATE: &str = "--tick 60 --silence 120 --cooldown 1";

fn start(words: &str) -> (Folder, Running) {
    let folder = Folder::new();
    folder.set(0, &[1, 2, 3]);
    let node = Running::start(&folder, 1, words);
    (folder, node)
}

fn greeting(number: u8) -> Vec<u8> {
    Payload::Greeting(info(number, NAMESPACE, milliseconds())).encode()
}

fn bits(count: usize) -> Vec<u8> {
    let bits = vec![false; count];
    Payload::BitVec(BitVec { index: 0, bits }).encode()
}

fn limits() -> PayloadConfig {
    PayloadConfig {
        max_bit_vec: 3,
        max_peers: 3,
        max_data_length: 0,
    }
}

fn infos(infos: Vec<Info>) -> Vec<u8> {
    Payload::Peers(infos).encode()
}

/// The peer sends these frames after the handshake, is blocked for the reason, and can't come back.
fn is_blocked(sent: &[Vec<u8>], count: &str, reason: &str) {
    let (_folder, node) = start(LATE);
    let stream = node.dial(2);
    for frame in sent {
        send(&stream, frame);
    }
    let block = node.until_event("block", &key(2));
    assert!(
        member(&block, "reason").unwrap().contains(reason),
        "{block}"
    );
    node.until_event("disconnected", &key(2));
    frames(&stream);
    node.until_count(count, 1);
    node.until_count("blocked", 1);
    node.until_count("connected", 0);
    std::thread::sleep(Duration::from_millis(1100));
    is_not_acceptable(&node, 2);
}

/// The node closes a stream whose dialer claims this key, and sends nothing.
fn is_not_acceptable(node: &Running, number: u8) {
    is_closed(&node.claim(number));
}

/// The node closes the stream, and has sent nothing.
fn is_closed(stream: &TcpStream) {
    assert_eq!(timed(stream).read(&mut [0]).unwrap(), 0);
}

#[test]
fn a_first_frame_that_does_not_greet_is_blocked() {
    is_blocked(&[bits(3)], "greeting", "doesn't greet");
}

#[test]
fn the_greeting_of_another_is_blocked() {
    is_blocked(
        &[greeting(3)],
        "greeting",
        &format!("a greeting of {}", key(3)),
    );
}

#[test]
fn a_second_greeting_is_blocked() {
    is_blocked(&[greeting(2), greeting(2)], "greeting", "a second greeting");
}

#[test]
fn bytes_that_are_no_frame_are_blocked() {
    is_blocked(&[greeting(2), vec![9, 9]], "codec", "invalid prefix: 9");
}

#[test]
fn an_empty_frame_is_blocked() {
    is_blocked(&[greeting(2), Vec::new()], "codec", "no payload");
}

#[test]
fn a_wrong_number_of_bits_is_blocked() {
    is_blocked(
        &[greeting(2), bits(4)],
        "malformed",
        "a wrong number of bits",
    );
}

#[test]
fn a_wrong_signature_is_blocked() {
    let other = info(3, b"other", milliseconds());
    is_blocked(
        &[greeting(2), infos(vec![other])],
        "invalid_signature",
        "invalid signature",
    );
}

#[test]
fn the_own_info_is_blocked() {
    let own = info(1, NAMESPACE, milliseconds());
    is_blocked(
        &[greeting(2), infos(vec![own])],
        "received_self",
        "received self",
    );
}

#[test]
fn a_frame_longer_than_allowed_is_blocked_by_its_length() {
    // With at most 3 peers and 100 bytes of data, gossip is longer: 1 + 5 + 3 * 367 bytes.
    let (_folder, node) = start(&format!("{LATE} --largest-set 3 --max-data 100"));
    let stream = node.dial(2);
    send(&stream, &greeting(2));
    // As long as it may be, and no payload.
    let longest = Payload::Data(Data {
        channel: 0,
        message: vec![0; 100],
    })
    .encode();
    send(&stream, &longest);
    node.until_count("messages", 1);
    (&stream).write_all(&1108_u32.to_be_bytes()).unwrap();
    let block = node.until_event("block", &key(2));
    assert_eq!(member(&block, "reason"), Some("a frame of 1108 bytes"));
    node.until_count("frame_length", 1);
    let stream = node.dial(3);
    send(&stream, &greeting(3));
    // One byte less is within the limit: the node waits for the frame.
    (&stream).write_all(&1107_u32.to_be_bytes()).unwrap();
    (&stream).write_all(&[2; 1107]).unwrap();
    let block = node.until_event("block", &key(3));
    assert!(
        member(&block, "reason").unwrap().starts_with("no payload"),
        "{block}"
    );
}

#[test]
fn an_info_of_the_future_ends_the_connection_without_a_block() {
    let (_folder, node) = start(LATE);
    let stream = node.dial(2);
    send(&stream, &greeting(2));
    let future = info(3, NAMESPACE, milliseconds() + 60_000);
    send(&stream, &infos(vec![future]));
    let end = node.until_event("disconnected", &key(2));
    assert_eq!(member(&end, "reason"), Some("an info of the future"));
    node.until_count("synchrony_bound", 1);
    node.until_count("blocked", 0);
}

#[test]
fn a_peer_that_does_not_greet_is_cut() {
    let (_folder, node) = start("--tick 0.2 --cooldown 1");
    let stream = node.dial(2);
    let begin = Instant::now();
    // The greeting and some questions of the node, and then the end.
    let received = frames(&stream);
    let passed = begin.elapsed();
    assert_eq!(received[0].first(), Some(&1));
    assert!(passed < Duration::from_secs(5), "{passed:?}");
    let end = node.until_event("disconnected", &key(2));
    assert_eq!(member(&end, "reason"), Some("silent"));
    node.until_count("blocked", 0);
}

#[test]
fn a_handshake_has_a_deadline_however_slowly_bytes_arrive() {
    let (_folder, node) = start(&format!("{LATE} --handshake 0.5"));
    let mut stream = node.stream();
    let begin = Instant::now();
    // 64 bytes would last more than six seconds.
    while stream.write_all(&[7]).is_ok() {
        std::thread::sleep(Duration::from_millis(100));
        let passed = begin.elapsed();
        assert!(passed < Duration::from_secs(4), "{passed:?}");
    }
    node.until_count("handshake_stream", 1);
    node.until_count("handshakes", 0);
}

#[test]
fn a_connection_takes_no_slot_of_handshakes() {
    let (_folder, node) = start(&format!("{LATE} --max-handshakes 1"));
    let _second = node.dial(2);
    node.until_event("connected", &key(2));
    let _third = node.dial(3);
    node.until_event("connected", &key(3));
}

#[test]
fn connections_are_bounded() {
    let (_folder, node) = start(&format!("{LATE} --max-connections 1"));
    let one = node.dial(2);
    node.until_event("connected", &key(2));
    let two = node.dial(3);
    node.until_count("connection_limit", 1);
    assert!(frames(&two).is_empty());
    drop(one);
    node.until_count("connections", 0);
    let _two = node.dial(3);
    node.until_event("connected", &key(3));
}

#[test]
fn a_peer_that_is_connected_or_cooling_is_not_accepted_again() {
    let (_folder, node) = start("--tick 60 --silence 120 --cooldown 600");
    let stream = node.dial(2);
    node.until_event("connected", &key(2));
    is_not_acceptable(&node, 2);
    drop(stream);
    node.until_event("disconnected", &key(2));
    // Nothing is signed within the cooldown.
    is_not_acceptable(&node, 2);
    is_not_acceptable(&node, 4);
    node.until_count("not_acceptable", 3);
    node.until_count("not_granted", 0);
    assert_eq!(node.events("grant").len(), 1);
}

#[test]
fn a_peer_that_was_dialled_is_not_accepted_within_the_cooldown() {
    let folder = Folder::new();
    folder.set(0, &[1, 2]);
    // Nobody answers at this address.
    let words = format!(
        "{LATE} --cooldown 600 --bootstrapper {}@127.0.0.1:9",
        key(2)
    );
    let node = Running::start(&folder, 1, &words);
    node.until_event("not_connected", &key(2));
    is_not_acceptable(&node, 2);
    node.until_count("not_acceptable", 1);
    assert_eq!(node.events("grant").len(), 1);
}

#[test]
fn questions_beyond_the_burst_are_not_answered() {
    let (_folder, node) = start(&format!("{LATE} --burst 5 --refill 1"));
    let stream = node.dial(2);
    send(&stream, &greeting(2));
    let begin = Instant::now();
    for _ in 0..50 {
        send(&stream, &bits(3));
    }
    // No token comes in within a minute. The question behind the fifth one waits for it.
    node.until_count("frames_delayed", 1);
    node.until_count("frames_in", 7);
    // The node greets, asks once at the beginning of its tick, and replies five times.
    node.until_count("frames_out", 7);
    std::thread::sleep(Duration::from_secs(2));
    node.until_count("frames_in", 7);
    assert!(begin.elapsed() < Duration::from_secs(55));
    assert_eq!(node.events("disconnected").len(), 0);
    drop(node);
    let replies = frames(&stream)
        .into_iter()
        .filter(|frame| frame.first() == Some(&3));
    assert_eq!(replies.count(), 5);
}

#[test]
fn tokens_come_in_with_time() {
    let (_folder, node) = start("--tick 0.5 --silence 60 --cooldown 1 --burst 2 --refill 1");
    let stream = node.dial(2);
    send(&stream, &greeting(2));
    let begin = Instant::now();
    for _ in 0..6 {
        send(&stream, &bits(3));
    }
    // Two are answered at once, and each further one takes a tick.
    let mut replies = 0;
    while replies < 6 {
        let frame = read_frame(&mut timed(&stream), LIMIT).unwrap();
        replies += usize::from(frame.first() == Some(&3));
    }
    let passed = begin.elapsed();
    assert!(passed >= Duration::from_secs(2), "{passed:?}");
    node.until_at_least("frames_delayed", 1);
}

/// Sends frames of two bytes to a node until it reads none of them any more.
fn flood(stream: &TcpStream) {
    let frames = [0, 0, 0, 2, 3, 0].repeat(10_000);
    let timeout = Some(Duration::from_secs(1));
    stream.set_write_timeout(timeout).unwrap();
    // The buffers of the system don't have 120 MB.
    let sent = (0..2000).take_while(|_| (&*stream).write_all(&frames).is_ok());
    assert!(sent.count() < 2000, "the node reads all");
}

#[test]
fn what_a_peer_sends_beyond_its_rate_is_not_read() {
    let (_folder, node) = start("--tick 0.5 --silence 120 --cooldown 1 --burst 8 --refill 4");
    let (stream, begin) = (node.dial(2), Instant::now());
    send(&stream, &greeting(2));
    flood(&stream);
    node.until_at_least("frames_in", 20);
    let status = node.status().unwrap();
    let read: u64 = member(&status, "frames_in").unwrap().parse().unwrap();
    // A greeting, the burst, eight frames a second, and one that waits.
    let most = 10 + 8 * begin.elapsed().as_secs();
    assert!(read <= most + 8, "{read} of {most} frames");
    node.until_count("connected", 1);
    assert!(node.events("disconnected").is_empty());
    // Another peer is served meanwhile.
    let third = node.dial(3);
    send(&third, &greeting(3));
    node.until_event("info", &key(3));
}

#[test]
fn a_peer_whose_frames_wait_is_disconnected_by_a_set() {
    let (folder, node) = start("--tick 0.5 --silence 120 --cooldown 1 --refill 1 --max-sets 1");
    let stream = node.dial(2);
    send(&stream, &greeting(2));
    flood(&stream);
    folder.set(1, &[1, 3]);
    // The million of frames that wait would last for days.
    node.until_event("teardown", &key(2));
    node.until_event("disconnected", &key(2));
    node.until_count("connections", 0);
}

#[test]
fn a_peer_that_leaves_while_its_frames_wait_is_disconnected() {
    let (_folder, node) = start("--tick 0.5 --silence 120 --cooldown 1 --refill 1");
    let stream = node.dial(2);
    send(&stream, &greeting(2));
    flood(&stream);
    drop(stream);
    node.until_event("disconnected", &key(2));
    node.until_count("blocked", 0);
}

#[test]
fn a_reply_has_no_more_infos_than_the_network_accepts() {
    let (_folder, node) = start(&format!("{LATE} --gossip-count 1"));
    let (second, third) = (node.dial(2), node.dial(3));
    send(&third, &greeting(3));
    node.until_event("info", &key(3));
    send(&second, &greeting(2));
    // The node has three infos to share: its own, that of the third, and that of the second.
    send(&second, &bits(3));
    node.until_count("replies_cut", 1);
    let limits = limits();
    loop {
        let frame = read_frame(&mut timed(&second), 10_000).unwrap();
        if let Ok(Payload::Peers(infos)) = Payload::decode(&frame, &limits) {
            assert_eq!(infos.len(), 1);
            break;
        }
    }
}

#[test]
fn infos_of_frames_stand_in_the_ledger() {
    let (_folder, node) = start(LATE);
    let stream = node.dial(2);
    let (second, third) = (milliseconds(), milliseconds() - 5_000);
    send(
        &stream,
        &Payload::Greeting(info(2, NAMESPACE, second)).encode(),
    );
    send(&stream, &infos(vec![info(3, NAMESPACE, third)]));
    let expected = [(key(2), second), (key(3), third)];
    let lines = until("two infos", || {
        let lines = node.events("info");
        (lines.len() == 2).then_some(lines)
    });
    for (line, (owner, timestamp)) in lines.iter().zip(expected) {
        assert_eq!(member(line, "peer"), Some(key(2).to_string().as_str()));
        assert_eq!(member(line, "key"), Some(owner.to_string().as_str()));
        assert_eq!(
            member(line, "timestamp"),
            Some(timestamp.to_string().as_str())
        );
        assert_eq!(member(line, "ingress"), Some("127.0.0.1:9"));
    }
    // Now the third peer's address is known, and it is dialled.
    node.until_event("grant", &key(3));
}

#[test]
fn questions_are_of_each_retained_set() {
    let (folder, node) = start("--tick 0.05 --silence 20 --cooldown 1");
    // The node listens before it reads the first one.
    node.until_count("latest_set", 0);
    for index in [5, 9] {
        folder.set(index, &[1, 2]);
        node.until_count("latest_set", index);
    }
    let stream = node.dial(2);
    send(&stream, &greeting(2));
    // One of three sets is left out of 60 questions in about one of ten thousand million runs.
    node.until_at_least("frames_out", 61);
    drop(node);
    let limits = limits();
    let questions = frames(&stream).into_iter();
    let indices = questions.filter_map(|frame| match Payload::decode(&frame, &limits) {
        Ok(Payload::BitVec(bits)) => Some(bits.index),
        _ => None,
    });
    assert_eq!(
        indices.collect::<BTreeSet<u64>>(),
        BTreeSet::from([0, 5, 9])
    );
}

#[test]
fn a_block_ends() {
    let (_folder, node) = start("--tick 60 --silence 120 --cooldown 0.1 --block 1.5");
    let stream = node.dial(2);
    send(&stream, &bits(3));
    node.until_event("block", &key(2));
    is_not_acceptable(&node, 2);
    until("the end of the block", || node.events("unblock").pop());
    let at = |line: &str| member(line, "at").unwrap().parse::<u128>().unwrap();
    let (begin, end) = (&node.events("block")[0], &node.events("unblock")[0]);
    let lasted = at(end) - at(begin);
    assert!((1_500_000_000..6_000_000_000).contains(&lasted), "{lasted}");
    let _stream = node.dial(2);
    until("two connections", || {
        (node.events("connected").len() == 2).then_some(())
    });
}

#[test]
fn silent_ticks_and_quick_ones_keep_a_connection() {
    let (_folder, node) = start(QUICK);
    let stream = node.dial(2);
    send(&stream, &greeting(2));
    for _ in 0..10 {
        send(&stream, &[3, 0]);
        std::thread::sleep(Duration::from_millis(200));
    }
    assert!(node.events("disconnected").is_empty());
    node.until_count("frames_in", 11);
}
