//! Keys of 33 bytes begin with 2 or 3: other bytes are refused as those of another number are, and
//! nothing changes.

use p2p_directory_sys::keys33_64::{FIRST_BYTES, KEY_SIZE, SIGNATURE_SIZE, Session};
use p2p_directory_sys::{
    BAD_INFO, BAD_KEY, BAD_KEYS, BAD_MOMENT, BAD_SETTING, BAD_VERDICTS, NO_NODE, NO_ROOM, NONE,
};

const NANOS: u32 = 1_000_000_000;

fn key(first: u8) -> [u8; KEY_SIZE] {
    let mut key = [7; KEY_SIZE];
    key[0] = first;
    key
}

// The info of a key at 1.2.3.4:8000, with the timestamp 0.
fn info(key: &[u8]) -> Vec<u8> {
    let ingress_and_timestamp = [0, 4, 1, 2, 3, 4, 0x1f, 0x40, 0];
    [&ingress_and_timestamp[..], key, &[5; SIGNATURE_SIZE]].concat()
}

fn init(session: &Session, bootstrappers: &[u8], myself: &[u8]) -> u64 {
    init_with(session, 1, 0, bootstrappers, myself)
}

fn init_with(
    session: &Session,
    max_sets: u64,
    cooldown_nanos: u32,
    bootstrappers: &[u8],
    myself: &[u8],
) -> u64 {
    session.init(
        true,
        true,
        max_sets,
        1,
        10,
        cooldown_nanos,
        60,
        0,
        8,
        8,
        32,
        8,
        30,
        0,
        b"rows",
        bootstrappers,
        myself,
    )
}

fn session() -> Session {
    let session = Session::new().expect("memory for a session");
    assert_eq!(init(&session, &[], &info(&key(3))), 1);
    session
}

#[test]
fn keys_begin_with_two_or_three() {
    assert_eq!(FIRST_BYTES, [2, 3]);
    let session = session();
    for first in 0..=255 {
        // The local node has a record of itself.
        let expected = match first {
            2 => NONE,
            3 => 0,
            _ => BAD_KEY,
        };
        assert_eq!(session.status(&key(first)), expected, "{first}");
    }
}

#[test]
fn a_bad_key_is_refused_by_each_call() {
    let session = session();
    let mut out = [0xaa; 512];
    assert_eq!(session.track(0, &key(2), &[], &mut out), 0);
    let bad = &key(4)[..];
    let answers = [
        session.dial(bad, 1, 0, 0, 0),
        session.listen(bad, 1, 0, 0, 0),
        session.reservation(bad, &mut out),
        session.connect(bad, true),
        session.release(bad),
        session.block(bad, 1, 0),
        session.status(bad),
        session.info(bad, &mut out),
        session.eligible(bad, 1, 0),
        session.acceptable(bad, 1, 0),
        session.may_listen(bad, 1, 0),
        session.ingress(bad, &mut out),
    ];
    assert_eq!(answers, [BAD_KEY; 12]);
    let keys = [key(2), key(4)].concat();
    assert_eq!(session.track(1, &keys, &[], &mut out), BAD_KEYS);
    assert_eq!(session.track(1, &[], &keys, &mut out), BAD_KEYS);
    assert_eq!(session.track(1, bad, &[], &mut out), BAD_KEYS);
    let infos = [&[1][..], &info(bad)].concat();
    assert_eq!(session.update_peers(&infos), BAD_INFO);
    assert_eq!(out, [0xaa; 512]);
    assert_eq!(session.status(&key(2)), 0);
    assert_eq!(session.tracked(), 1);
}

// What each call with a moment answers: with a moment that can't be read, or a draw.
fn with_bad_moments(session: &Session, peer: &[u8]) -> [u64; 9] {
    [
        session.dial(peer, 1, NANOS, 0, 0),
        session.dial(peer, 1, 0, 0, NANOS),
        session.listen(peer, 1, NANOS, 0, 0),
        session.listen(peer, 1, 0, 0, NANOS),
        session.block(peer, 1, NANOS),
        session.block(peer, 1, u32::MAX),
        session.eligible(peer, 1, NANOS),
        session.acceptable(peer, 1, NANOS),
        session.may_listen(peer, 1, NANOS),
    ]
}

#[test]
fn a_bad_key_comes_before_a_bad_moment() {
    let session = session();
    for first in [0, 1, 4, 255] {
        assert_eq!(with_bad_moments(&session, &key(first)), [BAD_KEY; 9]);
    }
    assert_eq!(with_bad_moments(&session, &key(2)), [BAD_MOMENT; 9]);
}

#[test]
fn a_bad_key_comes_behind_missing_room_for_a_set_alone() {
    let session = session();
    let mut room = [0xaa; KEY_SIZE];
    assert_eq!(session.track(0, &key(2), &[], &mut room), 0);
    // The room has to be that of all keys with a record, whatever the keys given are.
    let bad = key(4);
    let short = &mut room[1..];
    assert_eq!(session.track(1, &bad, &[], short), NO_ROOM);
    assert_eq!(session.track(1, &[], &bad, short), NO_ROOM);
    assert_eq!(session.track(1, &bad, &[], &mut room), BAD_KEYS);
    assert_eq!(session.track(1, &[], &bad, &mut room), BAD_KEYS);
    // A question needs no room to be refused.
    assert_eq!(session.info(&bad, &mut []), BAD_KEY);
    assert_eq!(session.reservation(&bad, &mut []), BAD_KEY);
    assert_eq!(room, [0xaa; KEY_SIZE]);
}

#[test]
fn a_bad_key_comes_behind_a_missing_node() {
    let session = Session::new().expect("memory for a session");
    let bad = &key(4)[..];
    let frame = [&[1][..], &info(bad)].concat();
    let mut out = [0xaa; 64];
    let answers = [
        session.dial(bad, 1, NANOS, 0, 0),
        session.status(bad),
        session.track(0, bad, &[], &mut out),
        session.update_peers(&[&[1][..], &info(bad)].concat()),
        session.check(&frame, 1, NANOS, &mut out),
        session.receive(&frame, 1, NANOS, &[1; 2], &mut []),
    ];
    assert_eq!(answers, [NO_NODE; 6]);
    assert_eq!(out, [0xaa; 64]);
}

// Settings are judged first, then moments, then the keys of bootstrappers and the info.
#[test]
fn settings_and_moments_of_a_node_come_before_its_keys() {
    let session = Session::new().expect("memory for a session");
    let bad_info = info(&key(4));
    let bad_bootstrapper = [&key(4)[..], &bad_info[..8]].concat();
    for (bootstrappers, myself) in [
        (&[][..], &bad_info[..]),
        (&bad_bootstrapper, &info(&key(3))),
        (&bad_bootstrapper, &bad_info),
    ] {
        let init = |max_sets, nanos| init_with(&session, max_sets, nanos, bootstrappers, myself);
        assert_eq!(init(0, NANOS), BAD_SETTING);
        assert_eq!(init(0, 0), BAD_SETTING);
        assert_eq!(init(1, NANOS), BAD_MOMENT);
        assert_eq!(init(1, 0), BAD_INFO);
    }
    assert_eq!(init(&session, &[], &info(&key(3))), 1);
    // There is a node already.
    assert_eq!(init(&session, &bad_bootstrapper, &bad_info), BAD_SETTING);
}

#[test]
fn a_node_is_made_from_keys_alone() {
    let session = Session::new().expect("memory for a session");
    assert_eq!(init(&session, &[], &info(&key(4))), BAD_INFO);
    let bootstrapper = |first| [&key(first)[..], &info(&key(2))[..8]].concat();
    let bad = [bootstrapper(2), bootstrapper(1)].concat();
    assert_eq!(init(&session, &bad, &info(&key(3))), BAD_INFO);
    assert_eq!(init(&session, &bootstrapper(2), &info(&key(3))), 1);
    assert_eq!(session.tracked(), 1);
}

#[test]
fn a_frame_with_a_bad_key_is_refused() {
    let session = session();
    let mut out = [0; 64];
    let codec = [4, 7];
    for first in [0, 1, 4, 255] {
        let frame = [&[1][..], &info(&key(first))].concat();
        let length = session.receive(&frame, 100, 0, &[], &mut out);
        assert_eq!(out[..length as usize], codec, "{first}");
        // There is nothing to verify of it.
        assert_eq!(session.check(&frame, 100, 0, &mut out), 8);
        assert_eq!(out[..8], [0; 8]);
    }
}

// A frame is refused for its moment, then for the room, then for what it can't be read for. Verdicts
// are counted of infos that were read alone.
#[test]
fn a_bad_key_of_a_frame_comes_behind_moment_and_room_and_before_verdicts() {
    let session = session();
    let (good, bad) = (info(&key(2)), info(&key(4)));
    let bad_frames = [
        [&[1][..], &bad].concat(),
        [&[3, 2][..], &good, &bad].concat(),
        [&[3, 2][..], &bad, &good].concat(),
    ];
    let mut out = [0xaa; 1 + KEY_SIZE];
    for frame in &bad_frames {
        for verdicts in [&[][..], &[1], &[1; 2], &[0; 3]] {
            let receive = |nanos, out: &mut [u8]| session.receive(frame, 100, nanos, verdicts, out);
            assert_eq!(receive(NANOS, &mut []), BAD_MOMENT);
            assert_eq!(receive(NANOS, &mut out), BAD_MOMENT);
            assert_eq!(receive(0, &mut []), NO_ROOM);
            assert_eq!(receive(0, &mut out[1..]), NO_ROOM);
            assert_eq!(out, [0xaa; 1 + KEY_SIZE]);
            assert_eq!(receive(0, &mut out), 2);
            assert_eq!(out[..2], [4, 7]);
            out.fill(0xaa);
        }
        assert_eq!(session.check(frame, 100, NANOS, &mut out), BAD_MOMENT);
        // Eight bytes are too many for the room, and aren't written.
        assert_eq!(session.check(frame, 100, 0, &mut out[..7]), 8);
        assert_eq!(out, [0xaa; 1 + KEY_SIZE]);
    }
    let read = [&[3, 2][..], &good, &good].concat();
    let miscounted = session.receive(&read, 100, 0, &[1], &mut out);
    assert_eq!(miscounted, BAD_VERDICTS);
}
