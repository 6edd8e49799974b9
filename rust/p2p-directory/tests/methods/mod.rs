//! Each method of a session makes the call of its number, with its arguments in the order of the
//! table.

use crate::table;
use p2p_directory_sys::sized::{Caller, Session};
use std::cell::RefCell;

const ANSWER: u64 = 4_711;
const ROOM: usize = 7;

/// A call that was made.
#[derive(Debug, PartialEq)]
struct Made {
    number: u64,
    numbers: Vec<u64>,
    bytes: [Vec<u8>; 3],
    room: usize,
}

/// Keeps the call that is made, and answers it.
#[derive(Default)]
struct Kept(RefCell<Option<Made>>);

impl Caller for Kept {
    fn call(&self, number: u64, numbers: &[u64], bytes: [&[u8]; 3], out: &mut [u8]) -> u64 {
        self.0.replace(Some(Made {
            number,
            numbers: numbers.to_vec(),
            bytes: bytes.map(<[u8]>::to_vec),
            room: out.len(),
        }));
        ANSWER
    }
}

type Method = fn(&Session<Kept>, &mut [u8]) -> u64;

// The number at each place of a call: as many less than the maximum of its type.
const fn number(place: u64) -> u64 {
    u64::MAX - place
}

const fn nanos(place: u32) -> u32 {
    u32::MAX - place
}

/// Each method, with arguments that tell their places and names.
const METHODS: [(&str, Method); 33] = [
    ("init", init),
    ("track", |session, out| {
        session.track(number(0), b"primary", b"secondary", out)
    }),
    ("track_room", |session, _| session.track_room()),
    ("dial", |session, _| {
        session.dial(b"peer", number(0), nanos(1), number(2), nanos(3))
    }),
    ("listen", |session, _| {
        session.listen(b"peer", number(0), nanos(1), number(2), nanos(3))
    }),
    ("reservation", |session, out| {
        session.reservation(b"peer", out)
    }),
    ("connect", |session, _| session.connect(b"peer", true)),
    ("release", |session, _| session.release(b"peer")),
    ("update_peers", |session, _| session.update_peers(b"infos")),
    ("block", |session, _| {
        session.block(b"peer", number(0), nanos(1))
    }),
    ("unblock_expired", |session, _| {
        session.unblock_expired(number(0), nanos(1))
    }),
    ("forget_cooled", |session, _| {
        session.forget_cooled(number(0), nanos(1))
    }),
    ("next_unblock", Session::next_unblock),
    ("blocked_peers", |session, out| {
        session.blocked_peers(number(0), nanos(1), out)
    }),
    ("status", |session, _| session.status(b"peer")),
    ("get_peer_set", |session, out| {
        session.get_peer_set(number(0), out)
    }),
    ("latest_set_index", Session::latest_set_index),
    ("latest_update", Session::latest_update),
    ("all", Session::all),
    ("info", |session, out| session.info(b"peer", out)),
    ("infos", |session, out| {
        session.infos(b"bits", number(0), nanos(1), out)
    }),
    ("get_random_bit_vec", |session, out| {
        session.get_random_bit_vec(number(0), out)
    }),
    ("eligible", |session, _| {
        session.eligible(b"peer", number(0), nanos(1))
    }),
    ("acceptable", |session, _| {
        session.acceptable(b"peer", number(0), nanos(1))
    }),
    ("dialable", |session, out| {
        session.dialable(number(0), nanos(1), out)
    }),
    ("retained", |session, _| session.retained()),
    ("next_cooled", Session::next_cooled),
    ("tracked", |session, _| session.tracked()),
    ("ask", |session, out| session.ask(number(0), out)),
    ("check", |session, out| {
        session.check(b"frame", number(0), nanos(1), out)
    }),
    ("receive", |session, out| {
        session.receive(b"frame", number(0), nanos(1), b"verdicts", out)
    }),
    ("may_listen", |session, _| {
        session.may_listen(b"peer", number(0), nanos(1))
    }),
    ("ingress", |session, out| session.ingress(b"peer", out)),
];

fn init(session: &Session<Kept>, _: &mut [u8]) -> u64 {
    session.init(
        true,
        false,
        number(2),
        number(3),
        number(4),
        nanos(5),
        number(6),
        nanos(7),
        number(8),
        number(9),
        number(10),
        number(11),
        number(12),
        nanos(13),
        b"namespace",
        b"bootstrappers",
        b"myself",
    )
}

// The call of the table, with such arguments.
fn wanted(call: &table::Call) -> Made {
    let numbers = call.numbers().zip(0..);
    let numbers = numbers.map(|((_, type_), place)| match &type_[..] {
        "bool" => u64::from(place == 0),
        "u32" => u64::from(nanos(place)),
        _ => number(place.into()),
    });
    let mut bytes = [vec![], vec![], vec![]];
    for (place, name) in call.slices().enumerate() {
        bytes[place] = name.clone().into_bytes();
    }
    let writes = call
        .parameters
        .iter()
        .any(|(_, type_)| type_ == "&mut [u8]");
    Made {
        number: call.number,
        numbers: numbers.collect(),
        bytes,
        room: if writes { ROOM } else { 0 },
    }
}

#[test]
fn each_method_makes_the_call_of_the_table() {
    let Some(calls) = table::calls() else {
        return;
    };
    let names: Vec<&str> = calls.iter().map(|call| &call.name[..]).collect();
    assert_eq!(METHODS.map(|(name, _)| name)[..], names);
    for (call, (name, method)) in calls.iter().zip(METHODS) {
        let session = Session::of(Kept::default());
        assert_eq!(method(&session, &mut [0; ROOM]), ANSWER, "{name}");
        let made = session.caller().0.take();
        assert_eq!(made, Some(wanted(call)), "{name}");
    }
}
