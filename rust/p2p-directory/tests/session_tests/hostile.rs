//! Malformed requests: each is refused with its own number, nothing changes, and the buffer for the
//! result stays as it was.

use super::{Exported, Session, least_first};
use crate::random::Draws;
use p2p_directory::sized::testing;
use p2p_directory::sized::{Bytes, Directory, Info, OrderedSet, Payload};
use p2p_directory::{Hostname, Ingress, Moment, PayloadConfig};
use p2p_directory_sys::{
    BAD_BITS, BAD_INFO, BAD_KEY, BAD_KEYS, BAD_MOMENT, BAD_SETTING, BAD_VERDICTS, NO_NODE, NO_ROOM,
};
use std::collections::BTreeSet;
use std::time::Duration;

tests_of_each_pair! {
    requests_that_are_no_commands_change_nothing,
    spoilt_bootstrappers_make_a_node_or_none,
    handles_come_and_go,
}

const REQUESTS: u32 = 100_000;

const LIMITS: PayloadConfig = PayloadConfig {
    max_bit_vec: 64,
    max_peers: 4,
    max_data_length: 32,
};

impl Draws {
    fn bytes(&mut self, count: u64) -> Vec<u8> {
        (0..count).map(|_| self.number() as u8).collect()
    }

    // Bytes that are no key, since their length differs or no key begins with the first.
    fn no_key<P: Exported>(&mut self) -> Vec<u8> {
        if least_first::<P>() != 0 && self.below(2) == 0 {
            let mut bytes = self.bytes(P::KEY_SIZE as u64);
            // All but the two with which keys begin: from the one behind them on, and around.
            bytes[0] = (least_first::<P>() + 2).wrapping_add(self.below(254) as u8);
            return bytes;
        }
        let count = self.below(3 * P::KEY_SIZE as u64);
        let count = count + u64::from(count == P::KEY_SIZE as u64);
        self.bytes(count)
    }
}

fn init<P: Exported>(
    session: &Session<P>,
    max_sets: u64,
    bootstrappers: &[u8],
    myself: &[u8],
) -> u64 {
    session.init(
        true,
        true,
        max_sets,
        1,
        10,
        0,
        60,
        0,
        LIMITS.max_bit_vec,
        LIMITS.max_peers as u64,
        LIMITS.max_data_length as u64,
        4,
        30,
        0,
        testing::NAMESPACE,
        bootstrappers,
        myself,
    )
}

fn session<P: Exported>() -> Session<P> {
    let session = Session::<P>::new().expect("memory for a session");
    assert_eq!(session.tracked(), NO_NODE);
    let myself = testing::info::<P>(9, 0).encode();
    let made = |max_sets, myself: &[u8]| init::<P>(&session, max_sets, &[], myself);
    assert_eq!(made(0, &myself), BAD_SETTING);
    assert_eq!(made(u64::MAX, &myself), BAD_SETTING);
    assert_eq!(made(1, &myself[1..]), BAD_INFO);
    assert_eq!(made(1, &myself), 1);
    assert_eq!(made(1, &myself), BAD_SETTING);
    session
}

// The state of a session, as far as its queries return it.
fn seen<P: Exported>(session: &Session<P>) -> Vec<u8> {
    let mut seen = Vec::new();
    let mut out = [0; 4096];
    for length in [
        session.all(&mut out),
        session.latest_update(&mut out),
        session.next_unblock(&mut out),
        session.dialable(100, 0, &mut out),
        session.get_random_bit_vec(0, &mut out),
        session.tracked(),
    ] {
        seen.extend(length.to_be_bytes());
        seen.extend(out);
    }
    for number in 0..12 {
        let status = session.status(testing::key::<P>(number).as_ref());
        seen.extend(status.to_be_bytes());
    }
    seen
}

// A malformed request of some call, with its expected result.
fn request<P: Exported>(session: &Session<P>, draws: &mut Draws, out: &mut [u8]) -> (u64, u64) {
    let key = testing::key::<P>(1);
    let key = key.as_ref();
    let wrong = draws.no_key::<P>();
    let nanos = 1_000_000_000 + draws.below(1 << 31) as u32;
    match draws.below(27) {
        0 => (session.dial(&wrong, 1, 0, 0, 0), BAD_KEY),
        1 => (session.dial(key, 1, nanos, 0, 0), BAD_MOMENT),
        2 => (session.listen(&wrong, 1, 0, 0, 0), BAD_KEY),
        3 => (session.listen(key, 1, 0, 0, nanos), BAD_MOMENT),
        4 => (session.connect(&wrong, true), BAD_KEY),
        5 => (session.release(&wrong), BAD_KEY),
        6 => (session.block(&wrong, 1, 0), BAD_KEY),
        7 => (session.block(key, 1, nanos), BAD_MOMENT),
        8 => (session.unblock_expired(1, nanos), BAD_MOMENT),
        9 => (session.forget_cooled(1, nanos), BAD_MOMENT),
        10 => (session.blocked_peers(1, nanos, out), BAD_MOMENT),
        11 => (session.status(&wrong), BAD_KEY),
        12 => (session.info(&wrong, out), BAD_KEY),
        13 => (session.reservation(&wrong, out), BAD_KEY),
        14 => (session.eligible(&wrong, 1, 0), BAD_KEY),
        15 => (session.acceptable(key, 1, nanos), BAD_MOMENT),
        16 => (session.dialable(1, nanos, out), BAD_MOMENT),
        17 => (session.may_listen(&wrong, 1, 0), BAD_KEY),
        18 => (session.may_listen(key, 1, nanos), BAD_MOMENT),
        19 => (session.ingress(&wrong, out), BAD_KEY),
        _ => request_with_lists::<P>(session, draws, nanos, out),
    }
}

// The same, for a call that takes keys, infos, bits or a frame.
fn request_with_lists<P: Exported>(
    session: &Session<P>,
    draws: &mut Draws,
    nanos: u32,
    out: &mut [u8],
) -> (u64, u64) {
    let key = testing::key::<P>(1);
    let key = key.as_ref();
    match draws.below(7) {
        0 => {
            let count = 1 + draws.below(P::KEY_SIZE as u64 - 1);
            let keys = draws.bytes(3 * P::KEY_SIZE as u64 + count);
            let (primary, secondary) = match draws.below(2) {
                0 => (key, &keys[..]),
                _ => (&keys[..], key),
            };
            (session.track(7, primary, secondary, out), BAD_KEYS)
        }
        1 => (session.track(7, key, key, &mut []), NO_ROOM),
        2 => {
            let count = draws.below(200);
            let bytes = no_infos::<P>(draws.bytes(count));
            (session.update_peers(&bytes), BAD_INFO)
        }
        3 => {
            let count = draws.below(40);
            let bytes = no_bits::<P>(draws.bytes(count));
            (session.infos(&bytes, 1, 0, out), BAD_BITS)
        }
        4 => (session.check(key, 1, nanos, out), BAD_MOMENT),
        5 => {
            let frame = Payload::Greeting(testing::info::<P>(1, 0)).encode();
            let count = draws.below(5);
            let verdicts = draws.bytes(count + u64::from(count == 1));
            let answer = session.receive(&frame, 1, 0, &verdicts, out);
            (answer, BAD_VERDICTS)
        }
        _ => {
            let answer = session.receive(key, 1, 0, &[], &mut []);
            (answer, NO_ROOM)
        }
    }
}

// Returns the bytes, or others if they are what follows this prefix in a frame.
fn no_value<P: Exported>(prefix: u8, bytes: Vec<u8>) -> Vec<u8> {
    const UNLIMITED: PayloadConfig = PayloadConfig {
        max_bit_vec: u32::MAX as u64,
        max_peers: usize::MAX,
        max_data_length: 0,
    };
    let frame = [&[prefix], &bytes[..]].concat();
    match Payload::<P>::decode(&frame, &UNLIMITED) {
        Ok(_) => vec![1],
        Err(_) => bytes,
    }
}

// Bytes that encode no infos: the prefix 3 begins a frame of infos.
fn no_infos<P: Exported>(bytes: Vec<u8>) -> Vec<u8> {
    no_value::<P>(3, bytes)
}

// Bytes that encode no bit set: the prefix 2 begins a frame of one.
fn no_bits<P: Exported>(bytes: Vec<u8>) -> Vec<u8> {
    no_value::<P>(2, bytes)
}

fn requests_that_are_no_commands_change_nothing<P: Exported>() {
    let session = session::<P>();
    let peers = [1, 2, 3]
        .map(testing::key::<P>)
        .each_ref()
        .map(AsRef::as_ref)
        .concat();
    let mut torn = [0; 512];
    assert_eq!(session.track(1, &peers, &[], &mut torn), 0);
    assert_eq!(session.listen(testing::key::<P>(1).as_ref(), 1, 0, 0, 0), 1);
    assert_eq!(session.block(testing::key::<P>(2).as_ref(), 1, 0), 1);
    let before = seen::<P>(&session);
    let mut draws = Draws(0x9e37_79b9_7f4a_7c15);
    for _ in 0..REQUESTS {
        let mut out = [0xaa; 512];
        let (answer, wanted) = request::<P>(&session, &mut draws, &mut out);
        assert_eq!(answer, wanted);
        assert!(out.iter().all(|byte| *byte == 0xaa));
    }
    assert_eq!(seen::<P>(&session), before);
}

// The keys of encoded bootstrappers, or `None` if the bytes encode none.
fn bootstrappers<P: Exported>(bytes: &[u8]) -> Option<BTreeSet<P::Key>> {
    let mut keys = BTreeSet::new();
    let mut rest = bytes;
    while !rest.is_empty() {
        let (key, after) = rest.split_at_checked(P::KEY_SIZE)?;
        keys.insert(P::Key::of_bytes(key)?);
        let encodes = |length: &usize| Ingress::decode(&after[..*length]).is_ok();
        let length = (1..=after.len()).find(encodes)?;
        rest = &after[length..];
    }
    Some(keys)
}

// An info with a name.
fn named<P: Exported>(number: u16) -> Info<P> {
    let host = Hostname::new("node-1.a.example").expect("a name");
    let ingress = Ingress::Dns { host, port: 80 };
    let key = testing::key::<P>(number);
    Info::<P>::sign(
        key,
        testing::NAMESPACE,
        ingress,
        300,
        |namespace, message| testing::sign::<P>(&key, namespace, message),
    )
}

fn spoilt_bootstrappers_make_a_node_or_none<P: Exported>() {
    let myself = testing::info::<P>(9, 0).encode();
    let infos = [
        testing::info::<P>(1, 0),
        named::<P>(3),
        testing::info::<P>(9, 0),
    ];
    let spelled = infos.map(|info| [info.public_key.as_ref(), &info.ingress.encode()].concat());
    let spelled = spelled.concat();
    let mut draws = Draws(11);
    let mut made = 0;
    for _ in 0..REQUESTS / 10 {
        let spoilt = draws.spoilt(&spelled);
        let session = Session::<P>::new().expect("memory for a session");
        let answer = init::<P>(&session, 1, &spoilt, &myself);
        let Some(mut keys) = bootstrappers::<P>(&spoilt) else {
            assert_eq!((answer, session.tracked()), (BAD_INFO, NO_NODE));
            continue;
        };
        keys.remove(&testing::key::<P>(9));
        assert_eq!((answer, session.tracked()), (1, keys.len() as u64));
        made += 1;
    }
    assert!((REQUESTS / 40..REQUESTS / 10).contains(&made), "{made}");
}

fn handles_come_and_go<P: Exported>() {
    for round in 0..50 {
        let mut directory: Directory<P> = testing::directory::<P>();
        let keys = (1..=40).map(testing::key::<P>);
        let peers = OrderedSet::<P>::from_iter_dedup(keys).into();
        assert!(directory.track(round, &peers).unwrap().accepted().is_some());
        let infos: Vec<Info<P>> = (1..=40)
            .map(|number| testing::info::<P>(number, 5))
            .collect();
        directory.update_peers(&infos).unwrap();
        let now = Moment::from_secs(1);
        let held = directory.dial(&testing::key::<P>(1), now, Duration::ZERO);
        assert!(held.unwrap().is_some());
        // It is dropped with its open reservations, on another thread.
        std::thread::spawn(move || drop(directory)).join().unwrap();
        drop(Session::<P>::new());
    }
}
