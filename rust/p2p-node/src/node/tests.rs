//! Parts of a node alone, with a wall clock that the test sets.

use super::clock::Clock;
use super::connection::End;
use super::shared::{Parts, Shared, State};
use super::{dialer, own_info, received, setup, woken_round};
use crate::identity::Identity;
use crate::settings::Settings;
use crate::sodium::Sodium;
use p2p_directory::{Info, Ingress, Key, Moment, Node, OrderedSet, Payload, Tracked};
use std::net::SocketAddr;
use std::sync::Arc;
use std::sync::atomic::{AtomicBool, AtomicU64, Ordering};
use std::sync::mpsc::sync_channel;
use std::thread;
use std::time::{Duration, Instant, SystemTime};

const HOUR: Duration = Duration::from_secs(3600);

/// The time within which each expected event has to happen.
const PATIENCE: Duration = Duration::from_secs(120);

fn identity(number: u8) -> Identity {
    Identity::from_seed(Sodium::new().unwrap(), &[number; 32])
}

fn key(number: u8) -> Key {
    identity(number).public_key()
}

fn address(port: u16) -> SocketAddr {
    SocketAddr::from(([127, 0, 0, 1], port))
}

/// An info of a number, with a timestamp that is so long after the epoch.
fn info(number: u8, port: u16, at: Moment) -> Info {
    let identity = identity(number);
    let timestamp = at.as_duration().as_millis() as u64;
    let sign = |namespace: &[u8], message: &[u8]| identity.sign(namespace, message);
    Info::sign(key(number), b"test", address(port), timestamp, sign)
}

/// The node of number 1, whose cooldown and blocks are short. Its set has three peers, of which the
/// third is its bootstrapper, at port 3.
fn shared(wall: fn() -> SystemTime) -> Shared {
    static NEVER: AtomicBool = AtomicBool::new(false);
    let settings = Settings {
        namespace: "test".to_owned(),
        allow_private_ips: true,
        bootstrappers: vec![(key(3), Ingress::from(address(3)))],
        cooldown: Duration::from_millis(50),
        block: Duration::from_millis(50),
        ..Settings::default()
    };
    let identity = identity(1);
    let myself = own_info(&settings, &identity, Ingress::from(address(1))).unwrap();
    let mut node = Node::new(&setup(&settings, myself)).unwrap();
    let peers = OrderedSet::from_iter_dedup([1, 2, 3].map(key));
    let tracked = node.track(0, &peers.into());
    assert_eq!(tracked, Ok(Tracked::Accepted(OrderedSet::default())));
    let parts = Parts {
        frame_limit: settings.frame_limit().unwrap(),
        settings,
        sodium: Sodium::new().unwrap(),
        identity,
        counts: Arc::default(),
        ledger: None,
        record: None,
        stop: &NEVER,
        clock: Clock::new(wall),
    };
    // Nobody makes rounds.
    let (wakes, _) = sync_channel(1);
    Shared::new(parts, node, wakes)
}

fn until(what: &str, mut is_so: impl FnMut() -> bool) {
    let begin = Instant::now();
    while !is_so() {
        assert!(begin.elapsed() < PATIENCE, "not in time: {what}");
        thread::sleep(Duration::from_millis(5));
    }
}

/// Whether the peer is granted a connection, which ends at once.
fn comes(state: &mut State, peer: &Key) -> bool {
    let now = state.now();
    let directory = state.node.directory_mut();
    let granted = directory.listen(peer, now, Duration::ZERO).unwrap();
    granted.is_some()
}

#[test]
fn a_wall_clock_that_was_an_hour_ahead_shuts_nobody_out() {
    static AHEAD: AtomicU64 = AtomicU64::new(0);
    let wall = || SystemTime::now() + Duration::from_secs(AHEAD.load(Ordering::Relaxed));
    let shared = shared(wall);
    for ahead in [0, HOUR.as_secs(), 0] {
        AHEAD.store(ahead, Ordering::Relaxed);
        until("it comes again", || comes(&mut shared.lock(), &key(2)));
        let mut state = shared.lock();
        let now = state.now();
        let blocked = state.node.directory_mut().block(&key(3), now);
        assert_eq!(blocked, Ok(true));
        drop(state);
        until("its block ends", || {
            let mut state = shared.lock();
            let now = state.now();
            state.node.directory_mut().unblock_expired(now)
        });
    }
}

#[test]
fn frames_go_by_the_wall_clock() {
    static AHEAD: AtomicU64 = AtomicU64::new(0);
    let wall = || SystemTime::now() + Duration::from_secs(AHEAD.load(Ordering::Relaxed));
    let shared = shared(wall);
    let (outbox, _) = sync_channel(1);
    let in_an_hour = shared.lock().now().saturating_add(HOUR);
    let greeting = Payload::Greeting(info(2, 2, in_an_hour)).encode();
    let of_the_future = received::process(&shared, key(2), &outbox, &greeting);
    assert!(matches!(of_the_future, Err(End::Left(_))));
    AHEAD.store(HOUR.as_secs(), Ordering::Relaxed);
    let greeted = received::process(&shared, key(2), &outbox, &greeting);
    assert!(matches!(greeted, Ok(Some(greeter)) if greeter == key(2)));
}

/// Whether a peer that the directory lists may be dialled in a round.
fn may_be_dialled(shared: &Shared, number: u8) -> bool {
    let mut peers = vec![key(number)];
    shared.lock().turns.order(&mut peers);
    !peers.is_empty()
}

#[test]
fn an_accepted_info_with_another_address_ends_a_rest() {
    let shared = shared(SystemTime::now);
    let (outbox, _) = sync_channel(1);
    let now = shared.lock().wall();
    let accept = |infos: Payload| {
        let accepted = received::process(&shared, key(3), &outbox, &infos.encode());
        assert!(accepted.is_ok());
    };
    let fail = || {
        shared.lock().turns.dial(key(2), address(2));
        dialer::answered(&shared, &key(2), address(2), false);
        assert!(!may_be_dialled(&shared, 2));
    };
    fail();
    accept(Payload::Peers(vec![info(3, 4, now), info(2, 2, now)]));
    assert!(!may_be_dialled(&shared, 2), "the address is the same");
    accept(Payload::Peers(vec![info(3, 4, now), info(2, 5, now)]));
    assert!(may_be_dialled(&shared, 2));
    fail();
    accept(Payload::Greeting(info(2, 6, now)));
    assert!(may_be_dialled(&shared, 2));
}

#[test]
fn only_who_does_not_answer_rests_and_no_bootstrapper_where_it_is_configured_to_be() {
    let shared = shared(SystemTime::now);
    for (number, port, answers, rests) in [
        (2, 2, false, true),
        (2, 2, true, false),
        (3, 3, false, false),
        (3, 4, false, true),
    ] {
        shared.lock().turns.dial(key(number), address(port));
        dialer::answered(&shared, &key(number), address(port), answers);
        assert_eq!(may_be_dialled(&shared, number), !rests, "{number} {port}");
    }
}

#[test]
fn what_wakes_the_node_during_a_round_begins_the_next_one() {
    let (wakes, woken) = sync_channel(1);
    wakes.send(()).unwrap();
    let wait = woken_round(&woken, || {
        wakes.try_send(()).expect("what woke this round is taken");
        dialer::WAITS.1
    });
    assert_eq!(wait, dialer::WAITS.1);
    assert_eq!(woken.try_recv(), Ok(()), "a wake is lost");
    assert!(woken.try_recv().is_err());
}
