//! Networks of real processes on this machine.

mod common;

use common::{
    Folder, NAMESPACE, QUICK, Running, frames_of, info, key, member, milliseconds, send, until,
};
use p2p_directory::Payload;
use std::net::{TcpListener, TcpStream};
use std::time::Duration;

/// Starts three nodes, of which two know the first only.
fn three(folder: &Folder, words: &str) -> [Running; 3] {
    folder.set(0, &[1, 2, 3]);
    let words = format!("{QUICK} {words}");
    let first = Running::start(folder, 1, &words);
    let words = format!("{words} {}", first.as_bootstrapper());
    let second = Running::start(folder, 2, &words);
    let third = Running::start(folder, 3, &words);
    [first, second, third]
}

fn connect_all(nodes: &[Running; 3]) {
    for node in nodes {
        node.until_count("connected", 2);
    }
}

#[test]
fn nodes_of_which_two_know_the_first_only_find_each_other() {
    let folder = Folder::new();
    let nodes = three(&folder, "");
    connect_all(&nodes);
    let [_, second, third] = &nodes;
    second.until_event("connected", &third.key);
    third.until_event("connected", &second.key);
    // The second learnt the address of the third, of which nobody told it but its peers.
    let third_key = third.key.to_string();
    let infos = second.events("info");
    let info = infos
        .iter()
        .find(|line| member(line, "key") == Some(&third_key));
    let info = info.expect("an info of the third node");
    assert_eq!(
        member(info, "ingress"),
        Some(third.address.to_string().as_str())
    );
    let started = &third.events("started")[0];
    assert_eq!(member(info, "timestamp"), member(started, "timestamp"));
    for node in &nodes {
        node.until_count("infos_known", 3);
        let status = node.status().unwrap();
        assert_eq!(member(&status, "tracked"), Some("2"), "{status}");
        assert_eq!(member(&status, "retained"), Some("1"), "{status}");
        assert_eq!(member(&status, "latest_set"), Some("0"), "{status}");
        assert_eq!(member(&status, "blocked"), Some("0"), "{status}");
        assert_eq!(member(&status, "memory_refusals"), Some("0"), "{status}");
        assert!(node.events("block").is_empty());
    }
}

#[test]
fn grants_of_a_peer_are_a_cooldown_apart() {
    let folder = Folder::new();
    folder.set(0, &[1, 2]);
    let node = Running::start(&folder, 1, QUICK);
    // The peer comes as often as it can. It doesn't greet, so the node doesn't know where to dial it.
    let granted = until("three grants", || {
        if let Ok(stream) = node.try_dial(2) {
            frames_of(&stream, 1);
        }
        let granted = node.events("grant");
        (granted.len() == 3).then_some(granted)
    });
    let times = granted
        .iter()
        .map(|line| member(line, "at").unwrap().parse().unwrap());
    let times: Vec<u128> = times.collect();
    for pair in times.windows(2) {
        assert!(pair[1] - pair[0] >= 1_000_000_000, "{times:?}");
    }
    let status = until("refusals", || node.status());
    assert_ne!(member(&status, "not_acceptable"), Some("0"), "{status}");
}

#[test]
fn a_set_without_a_peer_disconnects_it() {
    let folder = Folder::new();
    let nodes = three(&folder, "--max-sets 1");
    connect_all(&nodes);
    let [first, second, third] = &nodes;
    folder.set(1, &[1, 2]);
    for node in [first, second] {
        let torn = node.until_event("teardown", &third.key);
        assert_eq!(member(&torn, "index"), Some("1"));
        node.until_event("disconnected", &third.key);
        node.until_count("connected", 1);
        node.until_count("tracked", 1);
        // Those that stay are not disconnected.
        let gone: Vec<_> = node
            .events("disconnected")
            .into_iter()
            .skip_while(|line| *line < torn)
            .collect();
        assert!(
            gone.iter()
                .all(|line| member(line, "peer") == Some(&third.key.to_string())),
            "{gone:?}"
        );
    }
}

#[test]
fn an_index_keeps_its_peers() {
    let folder = Folder::new();
    folder.set(3, &[1, 2, 3]);
    let node = Running::start(&folder, 1, QUICK);
    node.until_count("latest_set", 3);
    // The same peers, in a new file.
    folder.set(3, &[3, 2, 1]);
    // Others under the same index, and then under a lower one.
    folder.set(3, &[1, 2]);
    node.until_count("set_refusals", 1);
    folder.set(2, &[1, 2]);
    node.until_count("set_refusals", 2);
    node.until_count("tracked", 2);
    folder.set(4, &[1, 2]);
    node.until_count("latest_set", 4);
    let indices: Vec<_> = node
        .events("set")
        .iter()
        .map(|line| member(line, "index").map(str::to_owned))
        .collect();
    assert_eq!(indices, [Some("3".to_owned()), Some("4".to_owned())]);
    node.until_count("set_refusals", 2);
}

#[test]
fn a_set_above_the_limits_of_the_node_is_refused() {
    let folder = Folder::new();
    folder.set(0, &[1, 2, 3, 4]);
    let node = Running::start(&folder, 1, &format!("{QUICK} --largest-set 3"));
    node.until_count("set_refusals", 1);
    node.until_count("retained", 0);
    folder.set(0, &[1, 2, 3]);
    node.until_count("retained", 1);
    node.until_count("set_refusals", 1);
}

#[test]
fn a_folder_has_many_sets() {
    let folder = Folder::new();
    let sets = folder.path("sets");
    std::fs::create_dir(&sets).unwrap();
    for index in [10, 9, 8] {
        let set = folder.set(index, &[1, index as u8]);
        std::fs::rename(set, sets.join(index.to_string())).unwrap();
    }
    let words = format!("{QUICK} --sets {}", sets.display());
    let node = Running::start(&folder, 1, &words);
    node.until_count("retained", 3);
    node.until_count("latest_set", 10);
    // The peers 8, 9 and 10.
    node.until_count("tracked", 3);
}

#[test]
fn a_signal_ends_a_node_within_two_seconds() {
    let folder = Folder::new();
    let nodes = three(&folder, "");
    connect_all(&nodes);
    let ledger = folder.path("ledger1");
    let [first, second, third] = nodes;
    // A handshake that doesn't go on, of a peer that isn't there.
    folder.set(1, &[1, 2, 3, 4]);
    first.until_count("latest_set", 1);
    let _hanging = first.claim(4);
    first.until_count("handshakes", 1);
    let (status, passed) = first.terminate();
    assert_eq!(status.code(), Some(0));
    assert!(passed < Duration::from_secs(2), "{passed:?}");
    let text = std::fs::read_to_string(ledger).unwrap();
    let last = text.lines().last().unwrap();
    assert_eq!(member(last, "event"), Some("stopped"), "{last}");
    // Each reservation was released.
    assert_eq!(member(last, "held"), Some("0"), "{last}");
    let count = |event: &str| {
        let events = text
            .lines()
            .filter(|line| member(line, "event") == Some(event));
        events.count()
    };
    assert_eq!(count("connected"), count("disconnected"));
    // The others go on.
    for node in [&second, &third] {
        node.until_event("disconnected", &key(1));
        node.until_count("connected", 1);
    }
}

/// A listener whose backlog is full, so that a dial waits for an answer. It is full as long as these
/// streams are open.
fn silent_listener() -> (TcpListener, Vec<TcpStream>) {
    let listener = TcpListener::bind("127.0.0.1:0").unwrap();
    let address = listener.local_addr().unwrap();
    let mut backlog = Vec::new();
    while let Ok(stream) = TcpStream::connect_timeout(&address, Duration::from_millis(200)) {
        backlog.push(stream);
        assert!(backlog.len() < 10_000);
    }
    (listener, backlog)
}

#[test]
fn a_node_that_dials_in_vain_ends_in_time() {
    let folder = Folder::new();
    folder.set(0, &[1, 2]);
    let (listener, _backlog) = silent_listener();
    let address = listener.local_addr().unwrap();
    let words = format!("{QUICK} --bootstrapper {}@{address}", key(2));
    let node = Running::start(&folder, 1, &words);
    node.until_event("grant", &key(2));
    std::thread::sleep(Duration::from_millis(100));
    let (status, passed) = node.terminate();
    assert_eq!(status.code(), Some(0));
    assert!(passed < Duration::from_secs(2), "{passed:?}");
}

#[test]
fn a_peer_behind_forty_that_do_not_answer_is_dialled() {
    let folder = Folder::new();
    let mut numbers: Vec<u8> = (1..=42).collect();
    numbers.sort_by_key(|number| key(*number));
    folder.set(0, &numbers);
    let (silent, _backlog) = silent_listener();
    let answers = TcpListener::bind("127.0.0.1:0").unwrap();
    let mut words = format!("{QUICK} --max-connections 16 --handshake 1 --cooldown 0.05");
    // A dial takes longer than the cooldown, so those that were dialled first may be dialled again.
    for (place, number) in numbers.iter().enumerate().skip(1) {
        let listener = if place < 41 { &silent } else { &answers };
        let address = listener.local_addr().unwrap();
        words += &format!(" --bootstrapper {}@{address}", key(*number));
    }
    let node = Running::start(&folder, numbers[0], &words);
    node.until_event("grant", &key(numbers[41]));
    answers.accept().unwrap();
}

#[test]
fn a_peer_rests_where_nobody_answered() {
    let folder = Folder::new();
    folder.set(0, &[1, 2]);
    let node = Running::start(&folder, 1, "--cooldown 0.4 --tick 0.2");
    // Its info has an address at which nobody listens.
    let stream = node.dial(2);
    let info = info(2, NAMESPACE, milliseconds());
    send(&stream, &Payload::Greeting(info).encode());
    node.until_event("info", &key(2));
    drop(stream);
    let dials = until("three dials", || {
        let granted = node.events("grant").into_iter();
        let dials = granted.filter(|line| member(line, "by") == Some("dial"));
        let times = dials.map(|line| member(&line, "at").unwrap().parse().unwrap());
        let times: Vec<u128> = times.collect();
        (times.len() == 3).then_some(times)
    });
    for pair in dials.windows(2) {
        assert!(pair[1] - pair[0] >= 1_600_000_000, "{dials:?}");
    }
}

#[test]
fn a_node_that_is_killed_leaves_whole_lines() {
    let folder = Folder::new();
    let nodes = three(&folder, "");
    connect_all(&nodes);
    drop(nodes);
    for number in 1..=3 {
        let text = std::fs::read_to_string(folder.path(&format!("ledger{number}"))).unwrap();
        assert!(text.ends_with('\n'));
        assert!(text.lines().count() > 4);
        for line in text.lines() {
            assert!(
                line.starts_with("{\"at\":") && line.ends_with('}'),
                "{line}"
            );
        }
    }
}

#[test]
fn replies_have_no_more_infos_than_the_network_accepts() {
    let folder = Folder::new();
    let nodes = three(&folder, "--gossip-count 1");
    connect_all(&nodes);
    // Each reply of two infos is cut, and the infos arrive all the same.
    for node in &nodes {
        node.until_count("infos_known", 3);
        assert!(node.events("block").is_empty());
    }
}

#[test]
fn a_node_that_comes_back_elsewhere_is_found_again() {
    let folder = Folder::new();
    let quicker = "--cooldown 0.3";
    let [first, second, third] = three(&folder, quicker);
    let bootstrapper = first.as_bootstrapper();
    let nodes = [first, second, third];
    connect_all(&nodes);
    let [first, second, third] = nodes;
    let (old, _) = (third.address, third.terminate());
    second.until_count("connected", 1);
    let words = format!("{QUICK} {quicker} {bootstrapper}");
    let third = Running::start(&folder, 3, &words);
    assert_ne!(third.address, old);
    connect_all(&[first, second, third]);
}
