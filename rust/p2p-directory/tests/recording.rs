//! Logs of calls: what they have, how they end, and that `p2p-replay` makes their calls anew.

mod calls;
#[macro_use]
mod each_pair;
mod kept;
#[path = "../examples/play/player/mod.rs"]
mod player;
mod random;

use kept::Kept;
use p2p_directory::record::{
    Argument, Call, Log, LogError, MOST_ROOM, Recorder, Recording, ReplayError,
};
use p2p_directory::sized::{Directory, Node, OrderedSet, Pair, Payload, Received, Replay, testing};
use p2p_directory::{CodecError, Data, Moment};
use player::{Mode, Tally, play};
use std::io::{self, Write};
use std::path::{Path, PathBuf};
use std::process::{Command, Output};
use std::{env, fs};

tests_of_each_pair! {
    a_log_has_each_call_and_its_answer,
    random_calls_are_answered_as_in_their_log,
    the_model_answers_as_the_library_did,
    play_replies_as_the_library_did,
    a_changed_answer_is_named,
    a_call_that_is_left_out_is_named,
    calls_that_are_swapped_are_named,
    a_call_that_ran_out_of_memory_is_counted_as_not_checked,
    no_answer_is_hidden_by_a_changed_bit,
    a_log_whose_end_is_missing_has_a_status_of_its_own,
    a_changed_byte_of_a_log_is_noticed,
    a_last_record_has_the_number_of_records_and_stands_last,
    a_log_ends_at_its_bound_and_says_so,
    a_node_goes_on_when_its_log_fails,
    other_bytes_are_no_log,
    of_a_message_the_head_the_length_and_a_checksum_are_recorded,
    a_message_that_no_line_of_play_has_room_for_is_counted,
    a_frame_that_is_no_message_is_recorded_whole,
    a_log_that_asks_for_too_much_room_is_refused,
    calls_without_a_command_of_play_are_counted,
}

/// The log of a list of random calls.
fn random_log<P: Pair>(seed: usize) -> Vec<u8> {
    let kept = Kept::default();
    calls::make::<P>(&random::bytes(seed, 4096), |setup| {
        Node::new_recorded(setup, Recorder::new(kept.clone(), u64::MAX)).expect("a node")
    });
    kept.bytes()
}

/// A file of this test, which is removed at its end.
struct Scratch(PathBuf);

impl Scratch {
    fn of<P: Pair>(name: &str, bytes: &[u8]) -> Scratch {
        let name = format!("p2p-recording{}-{}-{name}", P::KEY_SIZE, std::process::id());
        let path = env::temp_dir().join(name);
        fs::write(&path, bytes).expect("a file");
        Scratch(path)
    }
}

impl Drop for Scratch {
    fn drop(&mut self) {
        fs::remove_file(&self.0).ok();
    }
}

fn replayed(words: &[&str], file: &Path) -> Output {
    let mut replay = Command::new(env!("CARGO_BIN_EXE_p2p-replay"));
    replay
        .args(words)
        .arg(file)
        .output()
        .expect("p2p-replay runs")
}

fn said(output: &Output) -> String {
    String::from_utf8_lossy(&output.stdout).into_owned()
}

fn a_log_has_each_call_and_its_answer<P: Pair>() {
    let kept = Kept::default();
    let recorder = Recorder::new(kept.clone(), 1 << 20);
    let setup = testing::setup::<P>(9);
    let mut directory =
        Directory::init_recorded(&[], &setup.myself, setup.cfg, recorder).expect("a directory");
    let peer = testing::key::<P>(1);
    let set = OrderedSet::from_iter_dedup([peer]);
    let _ = directory.track(7, &set.into()).expect("memory");
    let held = directory.listen(&peer, Moment::from_secs(100), std::time::Duration::ZERO);
    drop(held.expect("memory").expect("a grant"));
    assert_eq!(directory.recording(), Some(Recording::Going));
    drop(directory);

    let log = Log::read(kept.bytes()).expect("a log");
    let sizes = (log.header().key_size, log.header().signature_size);
    assert_eq!(sizes, (P::KEY_SIZE, P::SIGNATURE_SIZE));
    let told: Vec<(&str, u64)> = log
        .calls()
        .map(|call| (call.name(), call.answer.number))
        .collect();
    // The reservation that was dropped is released by the next call.
    let wanted = [
        ("init", 1),
        ("track_room", 0),
        ("track", 0),
        ("listen", 1),
        ("release", 1),
    ];
    assert_eq!(told, wanted);
    let track = log.calls().nth(2).expect("a call");
    let shown = format!("{track:?}");
    assert!(
        shown.starts_with("record 2, track(index: 7, primary: "),
        "{shown}"
    );
    assert_eq!((log.is_full(), log.is_cut()), (false, false));
}

fn random_calls_are_answered_as_in_their_log<P: Pair>() {
    for seed in 1..=20 {
        let log = Scratch::of::<P>(&format!("random-{seed}"), &random_log::<P>(seed));
        let output = replayed(&[], &log.0);
        assert!(output.status.success(), "{}", said(&output));
        assert!(said(&output).contains("answered as in the log"));
    }
}

fn the_model_answers_as_the_library_did<P: Pair>() {
    for seed in 1..=20 {
        let bytes = random_log::<P>(seed);
        let file = Scratch::of::<P>(&format!("model-{seed}"), &bytes);
        let output = replayed(&["--model"], &file.0);
        assert!(
            output.status.success(),
            "seed {seed}: {}{}",
            said(&output),
            String::from_utf8_lossy(&output.stderr)
        );
    }
}

fn play_replies_as_the_library_did<P: Pair>() {
    let mut replies = 0;
    for seed in 1..=20 {
        let log = Scratch::of::<P>(&format!("script-{seed}"), &random_log::<P>(seed));
        let script = replayed(&["--script"], &log.0);
        assert!(script.status.success());
        let mut otherwise = Vec::new();
        let tally: Tally =
            play::<P>(&script.stdout[..], &mut otherwise, Mode::Checks).expect("a list");
        let otherwise = String::from_utf8_lossy(&otherwise);
        assert!(tally.is_good(), "seed {seed}: {tally}: {otherwise}");
        replies += tally.expected;
    }
    assert!(replies > 2_000, "{replies}");
}

/// How many bytes a log begins with before its records.
const HEAD: usize = 41;

/// How many bytes the last record has.
const LAST: usize = 17;

/// The head of a log and its records, without the last, which says that it is whole.
fn parts(log: &[u8]) -> (&[u8], Vec<&[u8]>) {
    let (head, mut rest) = log.split_at(HEAD);
    let mut records = Vec::new();
    while let Some(front) = rest.first_chunk() {
        let (record, after) = rest.split_at(4 + u32::from_be_bytes(*front) as usize);
        records.push(record);
        rest = after;
    }
    let last = records.pop().expect("a last record");
    assert_eq!(last[..5], [0, 0, 0, 13, 255]);
    (head, records)
}

/// The CRC-32 of zlib, bit by bit.
fn checksum(bytes: &[u8]) -> u32 {
    let bits = |left: u32, _| (left >> 1) ^ (0xedb8_8320 * (left & 1));
    let each = |sum: u32, byte: &u8| (0..8).fold(sum ^ u32::from(*byte), bits);
    !bytes.iter().fold(u32::MAX, each)
}

/// A whole log of these records.
fn whole(head: &[u8], records: &[&[u8]]) -> Vec<u8> {
    let mut log = [head, &records.concat()].concat();
    let sum = checksum(&log);
    log.extend([0, 0, 0, 13, 255]);
    log.extend((records.len() as u64).to_be_bytes());
    log.extend(sum.to_be_bytes());
    log
}

// The place of the first grant of a log whose peer is connected by the next call.
fn granted(log: &[u8]) -> usize {
    let log = Log::read(log.to_vec()).expect("a log");
    let is_granted =
        |call: &Call<'_>| matches!(call.name(), "dial" | "listen") && call.answer.number == 1;
    let is_connected = |call: &Call<'_>| call.name() == "connect" && call.answer.number == 1;
    let mut pairs = log.calls().zip(log.calls().skip(1));
    let found = pairs.find(|(one, next)| {
        let is_same = one.argument("peer") == next.argument("peer");
        is_granted(one) && is_connected(next) && is_same
    });
    found.expect("a grant before its connection").0.place
}

fn differs_at<P: Pair>(name: &str, log: &[u8], place: usize) {
    for words in [&[][..], &["--model"]] {
        let file = Scratch::of::<P>(name, log);
        let output = replayed(words, &file.0);
        assert_eq!(output.status.code(), Some(1), "{}", said(&output));
        let told = said(&output);
        assert!(
            told.starts_with(&format!("record {place}, ")),
            "{place}: {told}"
        );
        assert!(told.contains(" now"), "{told}");
    }
}

fn a_changed_answer_is_named<P: Pair>() {
    let log = random_log::<P>(3);
    let (head, mut records) = parts(&log);
    let place = granted(&log);
    // The number comes last.
    let mut changed = records[place].to_vec();
    *changed.last_mut().expect("an answer") = 0;
    records[place] = &changed;
    differs_at::<P>("changed", &whole(head, &records), place);
}

fn a_call_that_is_left_out_is_named<P: Pair>() {
    let log = random_log::<P>(3);
    let (head, mut records) = parts(&log);
    let place = granted(&log);
    records.remove(place);
    // The connection has its place then, and finds no reservation.
    differs_at::<P>("left-out", &whole(head, &records), place);
}

fn calls_that_are_swapped_are_named<P: Pair>() {
    let log = random_log::<P>(3);
    let (head, mut records) = parts(&log);
    let place = granted(&log);
    records.swap(place, place + 1);
    differs_at::<P>("swapped", &whole(head, &records), place);
}

// The log with a record of a call that was refused for want of memory, before one that was made.
fn with_a_refusal(log: &[u8]) -> Vec<u8> {
    let (head, mut records) = parts(log);
    let place = granted(log);
    let mut refused = records[place].to_vec();
    let number = refused.len() - 8;
    refused[number..].fill(0xff);
    records.insert(place, &refused);
    whole(head, &records)
}

fn a_call_that_ran_out_of_memory_is_counted_as_not_checked<P: Pair>() {
    let log = with_a_refusal(&random_log::<P>(3));
    let file = Scratch::of::<P>("out-of-memory", &log);
    let not_checked = "1 refused for want of memory, not checked";
    for way in [&[][..], &["--model"], &["--play"]] {
        let none = [way, &["--unchecked", "0"]].concat();
        for words in [way, &none] {
            let output = replayed(words, &file.0);
            assert_eq!(output.status.code(), Some(1), "{words:?}");
            assert!(said(&output).contains(not_checked), "{}", said(&output));
        }
        let many = [way, &["--unchecked", "1000000"]].concat();
        let output = replayed(&many, &file.0);
        assert!(output.status.success(), "{way:?}: {}", said(&output));
        assert!(said(&output).contains(not_checked), "{}", said(&output));
    }
}

// An answer that there is none, made one of want of memory by a changed bit, is no answer as in the
// log.
fn no_answer_is_hidden_by_a_changed_bit<P: Pair>() {
    let log = random_log::<P>(3);
    let (head, records) = parts(&log);
    let none = p2p_directory_sys::NONE.to_be_bytes();
    let places = 0..records.len();
    let places = places.filter(|place| records[*place].last_chunk() == Some(&none));
    let places: Vec<usize> = places.take(40).collect();
    assert!(places.len() > 10, "{places:?}");
    for place in places {
        let mut changed = records[place].to_vec();
        *changed.last_mut().expect("an answer") ^= 2;
        assert_eq!(changed.last_chunk(), Some(&[0xff; 8]));
        let mut records = records.clone();
        records[place] = &changed;
        let file = Scratch::of::<P>(&format!("hidden-{place}"), &whole(head, &records));
        assert_eq!(replayed(&[], &file.0).status.code(), Some(1), "{place}");
    }
}

fn a_log_whose_end_is_missing_has_a_status_of_its_own<P: Pair>() {
    let log = random_log::<P>(5);
    let (head, records) = parts(&log);
    let ten = [head, &records[..10].concat()].concat();
    let more = [&ten, &records[10][..3]].concat();
    let last = log.len() - LAST;
    for cut in [&log[..log.len() - 1], &log[..last], &ten, &more] {
        let read = Log::read(cut.to_vec()).expect("a log");
        assert!(read.is_cut() && !read.is_full());
        let file = Scratch::of::<P>(&format!("cut-{}", cut.len()), cut);
        let output = replayed(&[], &file.0);
        assert_eq!(output.status.code(), Some(3), "{}", said(&output));
        assert!(said(&output).contains("cut off"), "{}", said(&output));
    }
    assert_eq!(Log::read(ten).expect("a log").calls().count(), 10);
    let file = Scratch::of::<P>("whole", &log);
    assert_eq!(replayed(&[], &file.0).status.code(), Some(0));
}

fn a_changed_byte_of_a_log_is_noticed<P: Pair>() {
    let log = random_log::<P>(5);
    assert!(Log::read(log.clone()).is_ok_and(|log| !log.is_cut()));
    let tail = log.len() - LAST;
    for place in (5..log.len()).step_by(7).chain(tail..log.len()) {
        let mut changed = log.clone();
        changed[place] ^= 1 << (place % 8);
        // Where the last record can't be told any more, the log counts as cut off.
        let is_noticed = Log::read(changed).map_or(true, |log| log.is_cut() && place >= tail);
        assert!(is_noticed, "byte {place}");
    }
}

fn a_last_record_has_the_number_of_records_and_stands_last<P: Pair>() {
    let log = random_log::<P>(5);
    let (head, records) = parts(&log);
    let mut other = whole(head, &records);
    let count = other.len() - 5;
    other[count] ^= 1;
    assert_eq!(Log::read(other).err(), Some(LogError::Checksum));
    let inner = whole(head, &records[..10]);
    let (_, last) = inner.split_at(inner.len() - LAST);
    for number in [0, 255] {
        let mut last = last.to_vec();
        last[4] = number;
        let mut twice = records.clone();
        twice.insert(10, &last);
        let read = Log::read(whole(head, &twice)).err();
        assert_eq!(read, Some(LogError::Checksum));
    }
}

fn a_log_ends_at_its_bound_and_says_so<P: Pair>() {
    let unbounded = random_log::<P>(5).len() as u64;
    for limit in [400, 1_000, 5_000] {
        let kept = Kept::default();
        let recorder = Recorder::new(kept.clone(), limit);
        calls::make::<P>(&random::bytes(5, 4096), |setup| {
            Node::new_recorded(setup, recorder).expect("a node goes on")
        });
        let bytes = kept.bytes();
        assert!(bytes.len() as u64 <= limit && limit < unbounded);
        let log = Log::read(bytes).expect("a log");
        assert!(log.is_full() && !log.is_cut());
        let file = Scratch::of::<P>(&format!("full-{limit}"), &kept.bytes());
        let output = replayed(&[], &file.0);
        assert!(said(&output).contains("the log is full"));
        assert_eq!(output.status.code(), Some(3));
        let mut spoilt = kept.bytes();
        spoilt[30] ^= 1;
        assert_eq!(Log::read(spoilt).err(), Some(LogError::Checksum));
    }
}

/// It refuses each write after so many.
struct Failing(usize);

impl Write for Failing {
    fn write(&mut self, bytes: &[u8]) -> io::Result<usize> {
        self.0 = self.0.checked_sub(1).ok_or(io::ErrorKind::StorageFull)?;
        Ok(bytes.len())
    }

    fn flush(&mut self) -> io::Result<()> {
        Ok(())
    }
}

fn a_node_goes_on_when_its_log_fails<P: Pair>() {
    let recorder = Recorder::new(Failing(3), u64::MAX);
    let mut node = Node::<P>::new_recorded(&testing::setup(9), recorder).expect("a node");
    assert_eq!(node.directory().recording(), Some(Recording::Going));
    for secs in [1, 2] {
        let peer: P::Key = testing::key::<P>(secs as u16);
        assert_eq!(
            node.directory_mut().block(&peer, Moment::from_secs(secs)),
            Ok(true)
        );
    }
    let failed = Recording::Failed(io::ErrorKind::StorageFull);
    assert_eq!(node.directory().recording(), Some(failed));
    let first = Moment::from_secs(1).saturating_add(testing::setup::<P>(9).cfg.block_duration);
    assert_eq!(node.directory().next_unblock(), Some(first));
}

fn other_bytes_are_no_log<P: Pair>() {
    let log = random_log::<P>(1);
    let error = |bytes: &[u8]| Log::read(bytes.to_vec()).err();
    assert_eq!(error(b""), Some(LogError::NoLog));
    assert_eq!(error(&log[..40]), Some(LogError::NoLog));
    for version in [0, 3] {
        let mut other = log.clone();
        other[4] = version;
        assert_eq!(error(&other), Some(LogError::Version(version)));
    }
    let (head, mut records) = parts(&log);
    let mut first = records[0].to_vec();
    first[4] = 254;
    records[0] = &first;
    let unknown = whole(head, &records);
    assert_eq!(error(&unknown), Some(LogError::Record(0)));
    let file = Scratch::of::<P>("unknown", &unknown);
    let output = replayed(&[], &file.0);
    assert_eq!(output.status.code(), Some(2));
}
// A log of version 1, which an earlier version of this crate wrote: it has messages in full, and no
// last record.
#[test]
fn a_log_of_version_1_is_read() {
    let path = Path::new(env!("CARGO_MANIFEST_DIR")).join("tests/logs/version_1.log");
    let bytes = fs::read(&path).expect("a log");
    let log = Log::read(bytes.clone()).expect("a log");
    assert_eq!(log.header().version, 1);
    assert_eq!(log.calls().count(), 12);
    assert!(!log.is_cut() && !log.is_full());
    let frames = log.calls().filter_map(|call| call.argument("frame"));
    let messages = frames.filter(|frame| matches!(frame, Argument::Bytes([0, ..])));
    assert_eq!(messages.count(), 1);
    for words in [&[][..], &["--model"], &["--play"]] {
        let output = replayed(words, &path);
        assert!(output.status.success(), "{words:?}: {}", said(&output));
    }
    let cut = Log::read(bytes[..bytes.len() - 1].to_vec()).expect("a log");
    assert!(cut.is_cut());
    let full = [&bytes[..], &[0, 0, 0, 1, 0]].concat();
    assert!(Log::read(full.clone()).is_ok_and(|log| log.is_full()));
    // The record of a log that is full is the last.
    let error = Log::read([full, bytes[HEAD..].to_vec()].concat()).err();
    assert_eq!(error, Some(LogError::Record(12)));
}

// What a node recorded that made the calls of the closure.
fn recorded<P: Pair>(calls: impl FnOnce(&mut Node<P>)) -> Vec<u8> {
    let kept = Kept::default();
    let recorder = Recorder::new(kept.clone(), 1 << 20);
    let mut node = Node::new_recorded(&testing::setup(9), recorder).expect("a node");
    calls(&mut node);
    drop(node);
    kept.bytes()
}

fn of_a_message_the_head_the_length_and_a_checksum_are_recorded<P: Pair>() {
    let now = Moment::from_secs(1);
    let secret = *b"a message that stands in no log";
    for count in [1, 100] {
        let data = Data {
            channel: 300,
            message: secret.repeat(count),
        };
        let frame = Payload::<P>::Data(data).encode();
        let length = frame.len() as u64;
        let received = Received::Data {
            channel: 300,
            message: frame.len() - secret.len() * count..frame.len(),
        };
        let bytes = recorded::<P>(|node| {
            assert_eq!(node.receive(&frame, now, testing::verify), received);
            // It is longer than it says: the answer is by its header and its length.
            let longer = [&frame[..], &[0]].concat();
            let refused = Received::Codec(CodecError::ExtraData(1));
            assert_eq!(node.receive(&longer, now, testing::verify), refused);
        });
        assert!(!bytes.windows(20).any(|part| secret.starts_with(part)));
        let log = Log::read(bytes.clone()).expect("a log");
        let call = log.calls().nth(1).expect("a call");
        let wanted = Argument::Message {
            head: &frame[..16],
            length,
            checksum: checksum(&frame[16..]),
        };
        assert_eq!(call.argument("frame"), Some(wanted));
        let zeros = [&frame[..16], &vec![0; frame.len() - 16]].concat();
        assert_eq!(wanted.bytes(length).expect("its bytes")[..], zeros);
        let most = length - 1;
        let refused = Err(ReplayError::TooLarge { length, most });
        assert_eq!(wanted.bytes(most), refused);
        let file = Scratch::of::<P>(&format!("message-{count}"), &bytes);
        for words in [&[][..], &["--model"], &["--play"]] {
            let output = replayed(words, &file.0);
            assert!(output.status.success(), "{words:?}: {}", said(&output));
        }
    }
}

fn a_message_that_no_line_of_play_has_room_for_is_counted<P: Pair>() {
    let data = |length| {
        let message = vec![7; length];
        Payload::<P>::Data(Data {
            channel: 0,
            message,
        })
        .encode()
    };
    let mut setup = testing::setup::<P>(9);
    setup.payload.max_data_length = 1 << 20;
    let kept = Kept::default();
    let recorder = Recorder::new(kept.clone(), 1 << 20);
    let mut node = Node::new_recorded(&setup, recorder).expect("a node");
    for length in [1000, 1 << 20] {
        let received = node.receive(&data(length), Moment::EPOCH, testing::verify);
        assert!(matches!(received, Received::Data { .. }), "{received:?}");
    }
    drop(node);
    let bytes = kept.bytes();
    let file = Scratch::of::<P>("long-message", &bytes);
    let told = "3 calls, 2 answered as in the log, 1 without a command of play, not checked";
    let output = replayed(&["--play"], &file.0);
    assert!(output.status.success(), "{}", said(&output));
    assert!(said(&output).contains(told), "{}", said(&output));
}

fn a_frame_that_is_no_message_is_recorded_whole<P: Pair>() {
    let infos: Vec<_> = (1..=5)
        .map(|number| testing::info::<P>(number, 0))
        .collect();
    let short = Payload::<P>::Data(Data {
        channel: 0,
        message: vec![7; 12],
    });
    let frames = [Payload::Peers(infos).encode(), short.encode(), vec![9; 300]];
    let bytes = recorded::<P>(|node| {
        for frame in &frames {
            let _ = node.receive(frame, Moment::from_secs(1), testing::verify);
        }
    });
    let log = Log::read(bytes).expect("a log");
    let received = log.calls().filter(|call| call.name() == "receive");
    let told: Vec<Vec<u8>> = received
        .map(|call| match call.argument("frame") {
            Some(Argument::Bytes(frame)) => frame.to_vec(),
            other => panic!("{other:?}"),
        })
        .collect();
    assert_eq!(told, frames);
}

// A log in which a call has so much room for its answer.
fn roomy<P: Pair>(room: u64) -> Vec<u8> {
    let log = recorded::<P>(|node| assert_eq!(node.ask(0), Ok(None)));
    let (head, mut records) = parts(&log);
    let mut asked = records[1].to_vec();
    // The room stands before the answer's number.
    let place = asked.len() - 16;
    asked[place..place + 8].copy_from_slice(&room.to_be_bytes());
    records[1] = &asked;
    whole(head, &records)
}

fn a_log_that_asks_for_too_much_room_is_refused<P: Pair>() {
    assert_eq!(MOST_ROOM, 256 << 20);
    let length = MOST_ROOM + 1;
    let bytes = roomy::<P>(length);
    assert!(bytes.len() < 1024);
    let log = Log::read(bytes.clone()).expect("a log");
    let call = log.calls().nth(1).expect("a call");
    let made = |replay: Option<Replay<P>>| {
        let mut replay = replay.expect("memory");
        let init = log.calls().next().expect("a call");
        assert_eq!(replay.make(&init), Ok(init.answer));
        replay.make(&call)
    };
    let most = MOST_ROOM;
    let refused = Err(ReplayError::TooLarge { length, most });
    assert_eq!(made(Replay::new()), refused);
    let most = 1 << 10;
    let refused = Err(ReplayError::TooLarge { length, most });
    assert_eq!(made(Replay::with_room(most)), refused);
    assert_eq!(made(Replay::with_room(length)), Ok(call.answer.clone()));

    let file = Scratch::of::<P>("room", &bytes);
    let output = replayed(&[], &file.0);
    assert_eq!(output.status.code(), Some(2));
    let told = String::from_utf8_lossy(&output.stderr).into_owned();
    let why = "record 1: the call asks for 268435457 bytes, and 268435456 are allowed";
    assert!(told.contains(why), "{told}");
    let output = replayed(&["--room", "268435457"], &file.0);
    assert!(output.status.success(), "{}", said(&output));
}

fn calls_without_a_command_of_play_are_counted<P: Pair>() {
    let log = recorded::<P>(|node| {
        assert_eq!(node.directory().retained(), 0);
        assert_eq!(node.directory().tracked(), 0);
    });
    let file = Scratch::of::<P>("without-command", &log);
    let told = "3 calls, 2 answered as in the log, 1 without a command of play, not checked";
    for (words, status) in [
        (&["--play"][..], 0),
        (&["--play", "--unchecked", "1"], 0),
        (&["--play", "--unchecked", "0"], 1),
    ] {
        let output = replayed(words, &file.0);
        assert_eq!(output.status.code(), Some(status), "{words:?}");
        assert!(said(&output).contains(told), "{}", said(&output));
    }
}
