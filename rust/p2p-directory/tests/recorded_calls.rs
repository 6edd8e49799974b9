//! The calls of logs are those of `tools/exports/session.table` of the repository: their numbers and
//! names, and the names and types of their parameters.

mod kept;
mod table;

use kept::Kept;
use p2p_directory::record::{Argument, Log, LogError, Recorder, ReplayError};
use p2p_directory::{Directory, Key, Replay, testing};

/// Room for what a call writes.
const ROOM: u64 = 7;

// A log of one call, with these arguments, each as it stands there.
fn log(number: u8, arguments: &[u8]) -> Result<Log, LogError> {
    let answer = [0; 8];
    let record = [&[number], arguments, &answer].concat();
    let sizes = [0, 32, 0, 64];
    let length = (record.len() as u32).to_be_bytes();
    let log = [b"P2PL\x02", &sizes[..], &[0; 32], &length, &record].concat();
    Log::read(log)
}

// The bytes of an argument in a log: a slice has the name of its parameter.
fn spelled(name: &str, type_: &str, number: u64) -> Vec<u8> {
    match type_ {
        "&[u8]" => [&(name.len() as u32).to_be_bytes(), name.as_bytes()].concat(),
        "&mut [u8]" => ROOM.to_be_bytes().to_vec(),
        _ => number.to_be_bytes().to_vec(),
    }
}

fn told<'a>(name: &'a str, type_: &str, number: u64) -> Argument<'a> {
    match type_ {
        "&[u8]" => Argument::Bytes(name.as_bytes()),
        "&mut [u8]" => Argument::Room(ROOM),
        _ => Argument::Number(number),
    }
}

// A log of a call whose number at a place is this one. The others are 1.
fn with_number(call: &table::Call, place: usize, number: u64) -> Log {
    let parameters = call.parameters.iter().enumerate();
    let arguments = parameters.flat_map(|(other, (name, type_))| {
        spelled(name, type_, if other == place { number } else { 1 })
    });
    let arguments: Vec<u8> = arguments.collect();
    log(call.number as u8, &arguments).expect("a log")
}

#[test]
fn logs_have_the_calls_of_the_table() {
    let Some(calls) = table::calls() else {
        return;
    };
    for call in &calls {
        let parameters = call.parameters.iter().zip(0..);
        let arguments = parameters.flat_map(|((name, type_), place)| spelled(name, type_, place));
        let log = log(call.number as u8, &arguments.collect::<Vec<u8>>()).expect("a log");
        let recorded = log.calls().next().expect("a call");
        assert_eq!(recorded.name(), call.name);
        assert_eq!(recorded.arguments().len(), call.parameters.len());
        for ((name, type_), place) in call.parameters.iter().zip(0..) {
            let wanted = told(name, type_, place);
            assert_eq!(recorded.argument(name), Some(wanted), "{}", call.name);
            assert_eq!(recorded.arguments()[place as usize], wanted);
        }
        assert!(recorded.answer.bytes.is_empty());
    }
    let behind = calls.len() as u8 + 1;
    assert_eq!(log(behind, &[]).err(), Some(LogError::Record(0)));
}

#[test]
fn numbers_of_logs_have_the_types_of_the_table() {
    let Some(calls) = table::calls() else {
        return;
    };
    for call in &calls {
        for (place, (name, type_)) in call.parameters.iter().enumerate() {
            let most = match &type_[..] {
                "bool" => 1,
                "u32" => u64::from(u32::MAX),
                "u64" => u64::MAX,
                _ => continue,
            };
            let made = |number| {
                let log = with_number(call, place, number);
                let mut replay = Replay::new().expect("memory");
                replay.make(&log.calls().next().expect("a call"))
            };
            assert!(made(most).is_ok(), "{}, {name}", call.name);
            if let Some(more) = most.checked_add(1) {
                let refused = Err(ReplayError::Argument);
                assert_eq!(made(more), refused, "{}, {name}", call.name);
            }
        }
    }
}

// Only of frames a part may be recorded, whatever the other slices begin with.
#[test]
fn a_slice_that_is_no_frame_is_recorded_whole() {
    let kept = Kept::default();
    let recorder = Recorder::new(kept.clone(), 1 << 20);
    let setup = testing::setup(9);
    let directory = Directory::init_recorded(&[], &setup.myself, setup.cfg, recorder);
    let directory = directory.expect("a directory");
    let zeros = Key([0; 32]);
    assert_eq!(directory.status(&zeros), None);
    drop(directory);
    let log = Log::read(kept.bytes()).expect("a log");
    let call = log.calls().last().expect("a call");
    assert_eq!(call.name(), "status");
    assert_eq!(call.argument("peer"), Some(Argument::Bytes(&[0; 32])));
}
