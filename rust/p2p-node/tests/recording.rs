//! The calls that a node records are those that it made.

mod common;

use common::{Folder, QUICK, Running, key, member, until};
use p2p_directory::Replay;
use p2p_directory::record::{Argument, Call, Log};
use std::fs;
use std::os::unix::fs::MetadataExt;
use std::path::Path;
use std::time::Duration;

/// The log of a file.
fn log(path: &Path) -> Log {
    Log::read(fs::read(path).unwrap()).unwrap()
}

fn until_recording(node: &Running, expected: &str) {
    until(expected, || {
        let status = node.status()?;
        (member(&status, "recording") == Some(expected)).then_some(())
    });
}

#[test]
fn a_record_is_answered_alike_when_its_calls_are_made_anew() {
    let folder = Folder::new();
    folder.set(0, &[1, 2]);
    let path = folder.path("record");
    let first = Running::start(&folder, 1, &format!("{QUICK} --record {}", path.display()));
    let words = format!("{QUICK} {}", first.as_bootstrapper());
    let _second = Running::start(&folder, 2, &words);
    first.until_event("connected", &key(2));
    first.until_count("infos_known", 2);
    until_recording(&first, "going");
    let (status, _) = first.terminate();
    assert_eq!(status.code(), Some(0));
    let log = log(&path);
    assert!(!log.is_full() && !log.is_cut());
    let mut replay = Replay::new().unwrap();
    for call in log.calls() {
        assert_eq!(replay.make(&call).unwrap(), call.answer, "{call:?}");
    }
    let count = |name: &str| log.calls().filter(|call| call.name() == name).count();
    assert_eq!(count("init"), 1);
    assert_eq!(count("track"), 1);
    assert!(count("receive") >= 2);
    // The reservation of the connection was released at the end.
    assert!(count("connect") >= 1 && count("release") >= count("connect"));
}

#[test]
fn a_record_ends_at_its_limit() {
    let folder = Folder::new();
    folder.set(0, &[1, 2]);
    let path = folder.path("record");
    let words = format!("{QUICK} --record {} --record-limit 1000", path.display());
    let node = Running::start(&folder, 1, &words);
    until_recording(&node, "full");
    drop(node);
    assert!(log(&path).is_full());
    assert!(fs::metadata(&path).unwrap().len() <= 1000);
}

#[test]
fn a_ledger_and_a_record_are_files_of_their_owner_alone() {
    let folder = Folder::new();
    folder.set(0, &[1, 2]);
    let (ledger, record) = (folder.path("new-ledger"), folder.path("record"));
    let (of_ledger, of_record) = (ledger.display(), record.display());
    let words = format!("{QUICK} --ledger {of_ledger} --record {of_record}");
    let _node = Running::start(&folder, 1, &words);
    for path in [ledger, record] {
        assert_eq!(path.metadata().unwrap().mode() & 0o777, 0o600, "{path:?}");
    }
}

/// The time that two arguments of a call tell.
fn time(call: &Call<'_>, seconds: &str, nanos: &str) -> Duration {
    match [seconds, nanos].map(|name| call.argument(name)) {
        [
            Some(Argument::Number(seconds)),
            Some(Argument::Number(nanos)),
        ] => Duration::new(seconds, nanos as u32),
        others => panic!("{others:?}"),
    }
}

#[test]
fn a_cooldown_is_forgotten_at_its_moment() {
    let folder = Folder::new();
    folder.set(0, &[1, 2, 3]);
    let path = folder.path("record");
    let words = format!(
        "--tick 0.2 --silence 60 --cooldown 1 --max-sets 1 --record {}",
        path.display()
    );
    let node = Running::start(&folder, 1, &words);
    let stream = node.dial(2);
    node.until_event("connected", &key(2));
    drop(stream);
    node.until_event("disconnected", &key(2));
    // No set has the peer any more: nothing is due but the end of its cooldown.
    folder.set(1, &[1, 3]);
    let (granted, forgotten) = until("a cooldown that is forgotten", || {
        let log = Log::read(fs::read(&path).unwrap()).ok()?;
        let granted = log.calls().find(|call| call.name() == "listen")?;
        let draw = time(&granted, "draw_seconds", "draw_nanos");
        let granted = time(&granted, "seconds", "nanos") + draw;
        let mut calls = log.calls();
        let forgotten =
            calls.find(|call| call.name() == "forget_cooled" && call.answer.number == 1)?;
        Some((granted, time(&forgotten, "seconds", "nanos")))
    });
    let moment = granted + Duration::from_secs(1);
    assert!(forgotten >= moment, "{forgotten:?}, before {moment:?}");
    // Without the moment of the cooldown a round would come after ten seconds.
    let late = forgotten - moment;
    assert!(late < Duration::from_secs(4), "{late:?} late");
}
