//! Calls that are refused, and that nothing changes then.

use super::given::{Given, asked, given, info, infos, init, key, keys, session, tracking};
use super::{Exported, Session};
use p2p_directory_sys::{
    BAD_BITS, BAD_INFO, BAD_KEY, BAD_KEYS, BAD_MOMENT, BAD_SETTING, NO_NODE, NO_ROOM, NOT_HELD,
    NOT_RESERVED,
};

tests_of_each_pair! {
    a_node_is_made_once,
    what_a_node_cant_be_made_from_is_named,
    bootstrappers_are_tracked,
    each_call_wants_a_node,
    what_cant_be_read_is_named,
    reservations_and_room_are_needed,
    a_question_writes_nothing_where_its_answer_is_longer_than_the_room,
}

const SECOND: u32 = 1_000_000_000;

fn a_node_is_made_once<P: Exported>() {
    let session = Session::<P>::new().expect("memory for a session");
    let own = info::<P>(9, 0);
    assert_eq!(session.tracked(), NO_NODE);
    assert_eq!(init::<P>(&session, &given(&[])), BAD_INFO);
    assert_eq!(init::<P>(&session, &given(&own)), 1);
    assert_eq!(init::<P>(&session, &given(&own)), BAD_SETTING);
}

fn what_a_node_cant_be_made_from_is_named<P: Exported>() {
    let own = info::<P>(9, 0);
    let good = given(&own);
    let with_nanos = |nanos| Given { nanos, ..good };
    let short = &keys::<P>(&[1])[1..];
    let no_ingress = [&key::<P>(1)[..], &[0, 5]].concat();
    let wrong = [
        (with_nanos([SECOND, 0, 0]), BAD_MOMENT),
        (with_nanos([0, SECOND, 0]), BAD_MOMENT),
        (with_nanos([0, 0, SECOND]), BAD_MOMENT),
        (with_nanos([u32::MAX; 3]), BAD_MOMENT),
        (
            Given {
                max_sets: 0,
                ..good
            },
            BAD_SETTING,
        ),
        (
            Given {
                max_sets: u64::MAX,
                ..good
            },
            BAD_SETTING,
        ),
        (
            Given {
                max_bit_vec: 1 << 32,
                ..good
            },
            BAD_SETTING,
        ),
        (
            Given {
                bootstrappers: short,
                ..good
            },
            BAD_INFO,
        ),
        (
            Given {
                bootstrappers: &no_ingress,
                ..good
            },
            BAD_INFO,
        ),
        (
            Given {
                myself: &own[1..],
                ..good
            },
            BAD_INFO,
        ),
    ];
    let session = Session::<P>::new().expect("memory for a session");
    for (place, (given, refusal)) in wrong.into_iter().enumerate() {
        assert_eq!(init::<P>(&session, &given), refusal, "at {place}");
        assert_eq!(session.tracked(), NO_NODE, "at {place}");
    }
    let greatest = Given {
        max_sets: u64::MAX - 1,
        max_bit_vec: (1 << 32) - 1,
        nanos: [SECOND - 1; 3],
        ..good
    };
    assert_eq!(init::<P>(&session, &greatest), 1);
}

fn bootstrappers_are_tracked<P: Exported>() {
    let own = info::<P>(9, 0);
    let at = |byte: u8| [&key::<P>(byte)[..], &info::<P>(byte, 0)[..8]].concat();
    let session = Session::<P>::new().expect("memory for a session");
    let bootstrappers = [at(1), at(2), at(1), at(9)].concat();
    let given = Given {
        bootstrappers: &bootstrappers,
        ..given(&own)
    };
    assert_eq!(init::<P>(&session, &given), 1);
    assert_eq!(session.tracked(), 2);
    let both = [&[0][..], &keys::<P>(&[1, 2])].concat();
    assert_eq!(asked(|room| session.dialable(100, 0, room)), both);
}

// The results of each call except `init` and `free` for these bytes and nanoseconds.
fn answers<P: Exported>(
    session: &Session<P>,
    bytes: &[u8],
    nanos: u32,
) -> Vec<(&'static str, u64)> {
    let out = &mut [0; 64];
    vec![
        ("track", session.track(0, bytes, bytes, out)),
        ("track_room", session.track_room()),
        ("dial", session.dial(bytes, 0, nanos, 0, nanos)),
        ("listen", session.listen(bytes, 0, nanos, 0, nanos)),
        ("reservation", session.reservation(bytes, out)),
        ("connect", session.connect(bytes, true)),
        ("release", session.release(bytes)),
        ("update_peers", session.update_peers(bytes)),
        ("block", session.block(bytes, 0, nanos)),
        ("unblock_expired", session.unblock_expired(0, nanos)),
        ("forget_cooled", session.forget_cooled(0, nanos)),
        ("next_unblock", session.next_unblock(out)),
        ("blocked_peers", session.blocked_peers(0, nanos, out)),
        ("status", session.status(bytes)),
        ("get_peer_set", session.get_peer_set(0, out)),
        ("latest_set_index", session.latest_set_index(out)),
        ("latest_update", session.latest_update(out)),
        ("all", session.all(out)),
        ("info", session.info(bytes, out)),
        ("infos", session.infos(bytes, 0, nanos, out)),
        ("get_random_bit_vec", session.get_random_bit_vec(0, out)),
        ("eligible", session.eligible(bytes, 0, nanos)),
        ("acceptable", session.acceptable(bytes, 0, nanos)),
        ("may_listen", session.may_listen(bytes, 0, nanos)),
        ("ingress", session.ingress(bytes, out)),
        ("dialable", session.dialable(0, nanos, out)),
        ("tracked", session.tracked()),
        ("ask", session.ask(0, out)),
        ("check", session.check(bytes, 0, nanos, out)),
        ("receive", session.receive(bytes, 0, nanos, &[], out)),
    ]
}

// The result is the same whether or not another argument is invalid.
fn each_call_wants_a_node<P: Exported>() {
    let session = Session::<P>::new().expect("memory for a session");
    for (bytes, nanos) in [(&key::<P>(1)[..], 0), (b"short", 0), (&key::<P>(1), SECOND)] {
        for (call, answer) in answers::<P>(&session, bytes, nanos) {
            assert_eq!(answer, NO_NODE, "{call} of {bytes:?}, {nanos}");
        }
    }
}

fn what_cant_be_read_is_named<P: Exported>() {
    let session = session::<P>(9);
    let out = &mut [];
    assert_eq!(session.status(b"short"), BAD_KEY);
    assert_eq!(session.block(&key::<P>(1), 0, SECOND), BAD_MOMENT);
    assert_eq!(session.track(0, b"odd", &[], out), BAD_KEYS);
    assert_eq!(session.track(0, &[], b"odd", out), BAD_KEYS);
    assert_eq!(session.update_peers(b"\x01"), BAD_INFO);
    assert_eq!(session.infos(b"\x00", 0, 0, out), BAD_BITS);
}

fn reservations_and_room_are_needed<P: Exported>() {
    let session = tracking::<P>(9, &[1]);
    assert_eq!(session.connect(&key::<P>(1), true), NOT_RESERVED);
    assert_eq!(session.release(&key::<P>(1)), NOT_HELD);
    assert_eq!(
        session.track(1, &key::<P>(1), &[], &mut vec![0; P::KEY_SIZE - 1]),
        NO_ROOM
    );
    assert_eq!(session.track(1, &key::<P>(1), &[], &mut []), NO_ROOM);
    assert_eq!(session.tracked(), 1);
    assert_eq!(
        session.track(1, &key::<P>(1), &[], &mut vec![0; P::KEY_SIZE]),
        0
    );
}

// A query, with the length of its result.
type Question<P> = (&'static str, fn(&Session<P>, &mut [u8]) -> u64, usize);

fn questions<P: Exported>() -> [Question<P>; 13] {
    // The size of an info at an address of 4 bytes, with a timestamp of one.
    let info_size = 8 + 1 + P::KEY_SIZE + P::SIGNATURE_SIZE;
    [
        (
            "reservation",
            |session, out| session.reservation(&key::<P>(1), out),
            9,
        ),
        ("next_unblock", Session::<P>::next_unblock, 12),
        (
            "blocked_peers",
            |session, out| session.blocked_peers(0, 0, out),
            P::KEY_SIZE,
        ),
        (
            "get_peer_set",
            |session, out| session.get_peer_set(0, out),
            8 + 2 * P::KEY_SIZE,
        ),
        ("latest_set_index", Session::<P>::latest_set_index, 8),
        (
            "latest_update",
            Session::<P>::latest_update,
            32 + 4 * P::KEY_SIZE,
        ),
        ("all", Session::<P>::all, 8 + 2 * P::KEY_SIZE),
        (
            "info",
            |session, out| session.info(&key::<P>(1), out),
            info_size,
        ),
        (
            "infos",
            |session, out| session.infos(&[0, 2, 0], 100, 0, out),
            1 + info_size,
        ),
        (
            "get_random_bit_vec",
            |session, out| session.get_random_bit_vec(0, out),
            3,
        ),
        ("dialable", |session, out| session.dialable(0, 0, out), 13),
        ("ask", |session, out| session.ask(0, out), 4),
        (
            "check",
            |session, out| session.check(&[2, 0, 2, 0], 0, 0, out),
            8,
        ),
    ]
}

// Peer 1 is dialled and connected, peer 2 is blocked.
fn a_question_writes_nothing_where_its_answer_is_longer_than_the_room<P: Exported>() {
    let session = tracking::<P>(9, &[1, 2]);
    assert_eq!(session.update_peers(&infos::<P>(&[(1, 100), (2, 100)])), 1);
    assert_eq!(session.dial(&key::<P>(1), 100, 0, 0, 0), 1);
    assert_eq!(session.connect(&key::<P>(1), true), 1);
    assert_eq!(session.block(&key::<P>(2), 100, 0), 1);
    for (name, ask, length) in questions::<P>() {
        for less in 1..=length {
            let mut room = vec![0xaa; length - less];
            assert_eq!(ask(&session, &mut room), length as u64, "{name}");
            assert!(room.iter().all(|byte| *byte == 0xaa), "{name}");
        }
        assert_eq!(asked(|room| ask(&session, room)).len(), length, "{name}");
    }
}
