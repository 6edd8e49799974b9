//! Calls by [`Session::call_peer`]: those that take bytes in one place at most, and write nothing, answer
//! as `docs/C.md` says, each other one as by `call`, and what is no call is refused.

use super::given::{asked, info, infos, key, keys, session, tracking};
use super::{Exported, Session};
use crate::table;
use p2p_directory_sys::{
    BAD_CALL, BAD_INFO, BAD_KEY, BAD_MOMENT, NO_NODE, NONE, NOT_HELD, NOT_RESERVED,
};

tests_of_each_pair! {
    a_status_is_told,
    who_may_be_connected_is_told,
    who_may_listen_is_told,
    a_dial_is_granted,
    an_inbound_peer_is_reserved_and_connected,
    a_peer_is_blocked,
    what_takes_no_bytes_is_told,
    infos_are_taken,
    times_are_read_by_call_peer,
    no_call_is_made_without_a_node,
    what_is_no_call_changes_nothing_by_call_peer,
    each_call_answers_alike,
}

const DIAL: u64 = 4;
const LISTEN: u64 = 5;
const CONNECT: u64 = 7;
const RELEASE: u64 = 8;
const UPDATE_PEERS: u64 = 9;
const BLOCK: u64 = 10;
const STATUS: u64 = 15;
const ELIGIBLE: u64 = 23;
const ACCEPTABLE: u64 = 24;
const MAY_LISTEN: u64 = 32;

/// The calls of a peer, and how many numbers each takes.
const CALLS: [(u64, usize); 9] = [
    (DIAL, 4),
    (LISTEN, 4),
    (CONNECT, 1),
    (RELEASE, 0),
    (BLOCK, 2),
    (STATUS, 0),
    (ELIGIBLE, 2),
    (ACCEPTABLE, 2),
    (MAY_LISTEN, 2),
];

const TRACK_ROOM: u64 = 3;
const UNBLOCK_EXPIRED: u64 = 11;
const FORGET_COOLED: u64 = 12;
const RETAINED: u64 = 26;
const TRACKED: u64 = 28;

/// The calls that take no bytes, and write nothing, and how many numbers each takes.
const CALLS_OF_NO_BYTES: [(u64, usize); 5] = [
    (TRACK_ROOM, 0),
    (UNBLOCK_EXPIRED, 2),
    (FORGET_COOLED, 2),
    (RETAINED, 0),
    (TRACKED, 0),
];

// `NONE` without a record; 0 inert, 1 reserved, 2 connected.
fn a_status_is_told<P: Exported>() {
    let session = tracking::<P>(9, &[1]);
    let status = |byte| session.call_peer(STATUS, &[], &key::<P>(byte));
    assert_eq!(status(2), NONE);
    assert_eq!(status(1), 0);
    assert_eq!(session.listen(&key::<P>(1), 100, 0, 0, 0), 1);
    assert_eq!(status(1), 1);
    assert_eq!(session.connect(&key::<P>(1), false), 1);
    assert_eq!(status(1), 2);
    assert_eq!(session.call_peer(STATUS, &[], &[1]), BAD_KEY);
}

// `acceptable` doesn't look at the cooldown, but at a reservation. A blocked peer is neither.
fn who_may_be_connected_is_told<P: Exported>() {
    let session = tracking::<P>(9, &[1, 3]);
    let eligible = |byte| session.call_peer(ELIGIBLE, &[100, 5], &key::<P>(byte));
    let acceptable = |byte| session.call_peer(ACCEPTABLE, &[100, 5], &key::<P>(byte));
    assert_eq!([eligible(1), eligible(2)], [1, 0]);
    assert_eq!([acceptable(1), acceptable(2)], [1, 0]);
    assert_eq!(session.listen(&key::<P>(1), 100, 5, 0, 0), 1);
    assert_eq!([eligible(1), acceptable(1)], [1, 0]);
    assert_eq!(session.release(&key::<P>(1)), 1);
    assert_eq!([eligible(1), acceptable(1)], [1, 1]);
    assert_eq!(session.block(&key::<P>(3), 40, 6), 1);
    assert_eq!([eligible(3), acceptable(3)], [0, 0]);
    // The block ends 60 seconds later.
    let ended = |call| session.call_peer(call, &[100, 6], &key::<P>(3));
    assert_eq!([ended(ELIGIBLE), ended(ACCEPTABLE)], [1, 1]);
}

// `may_listen` tells what `listen` answers: not of a stranger, nor of whoever is reserved, within its
// cooldown of ten seconds, or blocked.
fn who_may_listen_is_told<P: Exported>() {
    let session = tracking::<P>(9, &[1, 3]);
    let told = |byte, seconds| session.call_peer(MAY_LISTEN, &[seconds, 5], &key::<P>(byte));
    assert_eq!([told(1, 100), told(2, 100), told(9, 100)], [1, 0, 0]);
    assert_eq!(session.listen(&key::<P>(1), 100, 5, 0, 0), 1);
    assert_eq!(told(1, 200), 0);
    assert_eq!(session.release(&key::<P>(1)), 1);
    assert_eq!([told(1, 109), told(1, 110)], [0, 1]);
    assert_eq!(session.block(&key::<P>(3), 40, 5), 1);
    assert_eq!([told(3, 99), told(3, 100)], [0, 1]);
}

// 1 if a reservation is granted, else 0. The dial time is the end of the cooldown, plus the draw.
fn a_dial_is_granted<P: Exported>() {
    let session = tracking::<P>(9, &[1, 2]);
    assert_eq!(session.update_peers(&infos::<P>(&[(1, 100)])), 1);
    let dial = |byte| session.call_peer(DIAL, &[100, 0, 1, 7], &key::<P>(byte));
    assert_eq!([dial(2), dial(1), dial(1)], [0, 1, 0]);
    let told = asked(|room| session.reservation(&key::<P>(1), room));
    assert_eq!(told, [1, 0, 4, 1, 2, 3, 4, 31, 65]);
    let release = || session.call_peer(RELEASE, &[], &key::<P>(1));
    assert_eq!([release(), release()], [1, NOT_HELD]);
    let waits = [1, 0, 0, 0, 0, 0, 0, 0, 111, 0, 0, 0, 7];
    assert_eq!(asked(|room| session.dialable(111, 6, room)), waits);
}

fn an_inbound_peer_is_reserved_and_connected<P: Exported>() {
    let session = tracking::<P>(9, &[1]);
    let listen = |byte| session.call_peer(LISTEN, &[100, 0, 0, 0], &key::<P>(byte));
    let connect = |dialer| session.call_peer(CONNECT, &[dialer], &key::<P>(1));
    assert_eq!(connect(0), NOT_RESERVED);
    assert_eq!([listen(2), listen(1), listen(1)], [0, 1, 0]);
    assert_eq!(asked(|room| session.reservation(&key::<P>(1), room)), [0]);
    assert_eq!([connect(2), session.status(&key::<P>(1))], [BAD_CALL, 1]);
    assert_eq!([connect(0), session.status(&key::<P>(1))], [1, 2]);
    assert_eq!(connect(1), NOT_RESERVED);
    assert_eq!(session.call_peer(RELEASE, &[], &key::<P>(1)), 1);
    assert_eq!(session.status(&key::<P>(1)), 0);
}

fn a_peer_is_blocked<P: Exported>() {
    let session = tracking::<P>(9, &[2]);
    let block = || session.call_peer(BLOCK, &[100, 5], &key::<P>(2));
    assert_eq!([block(), block()], [1, 0]);
    let moment = [0, 0, 0, 0, 0, 0, 0, 160, 0, 0, 0, 5];
    assert_eq!(asked(|room| session.next_unblock(room)), moment);
}

// A node without a set tracks nobody. A block ends 60 seconds later, a cooldown 10.
fn what_takes_no_bytes_is_told<P: Exported>() {
    let ask = |session: &Session<P>, number| session.call_peer(number, &[], &[]);
    let all = |session| [TRACKED, RETAINED, TRACK_ROOM].map(|number| ask(session, number));
    let fresh = session::<P>(9);
    assert_eq!(all(&fresh), [0, 0, 0]);
    let session = tracking::<P>(9, &[1, 2]);
    assert_eq!(all(&session), [2, 1, 2 * P::KEY_SIZE as u64]);
    assert_eq!(session.block(&key::<P>(2), 100, 5), 1);
    let unblock = |nanos| session.call_peer(UNBLOCK_EXPIRED, &[160, nanos], &[]);
    assert_eq!([unblock(4), unblock(5), unblock(5)], [0, 1, 0]);
    assert_eq!(session.listen(&key::<P>(1), 100, 5, 0, 0), 1);
    let forget = |nanos| session.call_peer(FORGET_COOLED, &[110, nanos], &[]);
    assert_eq!([forget(4), forget(5), forget(5)], [0, 1, 0]);
    for number in [UNBLOCK_EXPIRED, FORGET_COOLED] {
        let answer = session.call_peer(number, &[110, 1 << 32], &[]);
        assert_eq!(answer, BAD_MOMENT, "{number}");
    }
}

fn infos_are_taken<P: Exported>() {
    let session = tracking::<P>(9, &[1]);
    let update = |infos: &[u8]| session.call_peer(UPDATE_PEERS, &[], infos);
    assert_eq!(update(&infos::<P>(&[(1, 100)])), 1);
    let now = [&[0][..], &key::<P>(1)].concat();
    assert_eq!(asked(|room| session.dialable(100, 5, room)), now);
    assert_eq!(update(&[1]), BAD_INFO);
}

// Nanoseconds are below 1,000,000,000, of the draw, too; however many there are else, it is the same.
fn times_are_read_by_call_peer<P: Exported>() {
    let session = tracking::<P>(9, &[1]);
    for nanos in [1_000_000_000, 1 << 32, (1 << 32) + 1, u64::MAX] {
        for number in [BLOCK, ELIGIBLE, ACCEPTABLE, MAY_LISTEN] {
            let answer = session.call_peer(number, &[100, nanos], &key::<P>(1));
            assert_eq!(answer, BAD_MOMENT, "{number}, {nanos}");
        }
        for numbers in [[100, nanos, 0, 0], [100, 0, 0, nanos]] {
            for number in [DIAL, LISTEN] {
                let answer = session.call_peer(number, &numbers, &key::<P>(1));
                assert_eq!(answer, BAD_MOMENT, "{number}, {numbers:?}");
            }
        }
    }
    assert_eq!(session.status(&key::<P>(1)), 0);
    let last = [100, 999_999_999, 0, 999_999_999];
    assert_eq!(session.call_peer(LISTEN, &last, &key::<P>(1)), 1);
}

fn no_call_is_made_without_a_node<P: Exported>() {
    let session = Session::<P>::new().expect("memory for a session");
    for (number, count) in CALLS {
        let answer = session.call_peer(number, &[1; 4][..count], &key::<P>(1));
        assert_eq!(answer, NO_NODE, "{number}");
        assert_eq!(session.call_peer(number, &[1; 5], &[]), BAD_CALL);
    }
    for (number, count) in CALLS_OF_NO_BYTES {
        let answer = session.call_peer(number, &[1; 2][..count], &[]);
        assert_eq!(answer, NO_NODE, "{number}");
        assert_eq!(session.call_peer(number, &[1; 2][..count], &[0]), BAD_CALL);
    }
}

// The state of a session, as far as some queries tell it.
fn seen<P: Exported>(session: &Session<P>) -> Vec<u8> {
    let mut seen = Vec::new();
    let mut out = [0; 1024];
    for answer in [
        session.all(&mut out),
        session.blocked_peers(1, 1, &mut out),
        session.next_cooled(&mut out),
        session.dialable(1, 1, &mut out),
        session.get_random_bit_vec(0, &mut out),
        session.tracked(),
        session.retained(),
        session.status(&key::<P>(1)),
        session.status(&key::<P>(2)),
    ] {
        seen.extend_from_slice(&answer.to_be_bytes());
        seen.extend_from_slice(&out);
        out.fill(0);
    }
    seen
}

fn what_is_no_call_changes_nothing_by_call_peer<P: Exported>() {
    let session = tracking::<P>(9, &[1, 2]);
    assert_eq!(session.listen(&key::<P>(1), 1, 0, 0, 0), 1);
    let before = seen::<P>(&session);
    let refused = |number, numbers: &[u64], peer: &[u8]| {
        let answer = session.call_peer(number, numbers, peer);
        assert_eq!(answer, BAD_CALL, "{number}, {numbers:?}, {peer:?}");
        assert_eq!(seen::<P>(&session), before, "{number}, {numbers:?}");
    };
    for (number, count) in CALLS {
        for other in (0..=16).filter(|other| *other != count) {
            refused(number, &[1; 16][..other], &key::<P>(1));
        }
    }
    for (number, count) in CALLS_OF_NO_BYTES {
        for other in (0..=16).filter(|other| *other != count) {
            refused(number, &[1; 16][..other], &[]);
        }
        for bytes in [vec![0], key::<P>(1)] {
            refused(number, &[1; 16][..count], &bytes);
        }
    }
    for dialer in [2, 3, 1 << 8, 1 << 32, u64::MAX] {
        refused(CONNECT, &[dialer], &key::<P>(1));
    }
    let widened = CALLS.map(|(number, _)| [number + (1 << 8), number + (1 << 32)]);
    for number in [0, 34, 255, u64::MAX].into_iter().chain(widened.concat()) {
        for count in 0..=16 {
            refused(number, &[1; 16][..count], &key::<P>(1));
        }
    }
}

// Two sessions of the same calls stay the same, if the one makes each by `call`.
fn each_call_answers_alike<P: Exported>() {
    let Some(calls) = table::calls() else {
        return;
    };
    let sessions = [(); 2].map(|()| {
        let session = session::<P>(9);
        assert_eq!(session.track(0, &keys::<P>(&[1, 2, 3]), &[], &mut []), 0);
        session
    });
    let given = [
        vec![],
        vec![0],
        key::<P>(1),
        key::<P>(2),
        keys::<P>(&[1, 2]),
        infos::<P>(&[(1, 100)]),
        info::<P>(2, 100),
    ];
    let mut answers = Vec::new();
    for number in 0..=calls.len() as u64 + 1 {
        for (count, value) in (0..=16).flat_map(|count| [(count, 0), (count, 1), (count, 2)]) {
            let numbers = &[value; 16][..count];
            for peer in &given {
                let by_call = sessions[0].call(number, numbers, [peer, &[], &[]], &mut []);
                let by_peer = sessions[1].call_peer(number, numbers, peer);
                assert_eq!(by_peer, by_call, "{number}, {numbers:?}, {peer:?}");
                answers.push((number, by_peer));
            }
        }
        let [by_call, by_peer] = [0, 1].map(|place| seen::<P>(&sessions[place]));
        assert_eq!(by_peer, by_call, "{number}");
    }
    // Each number of the table is that of a call, at least with some of the arguments.
    for call in &calls {
        let made = |(number, answer): &(u64, u64)| *number == call.number && *answer != BAD_CALL;
        let of_table = answers.iter().any(made);
        assert!(of_table, "{}", call.name);
    }
}
