//! The example `tracker`: hosts over TCP on this machine that find each other, and peers that
//! misbehave.
//!
//! No test sleeps for a fixed time: each waits for what has to happen, and fails if that takes too
//! long.

#[path = "../examples/tracker/host/mod.rs"]
mod host;

use host::shared::random;
use host::turns::Turns;
use host::wire::{DATA, FrameLimits, handshake_as_dialer, read_frame, write_frame};
use host::{Event, Host, Settings};
use p2p_directory::testing::{NAMESPACE, info_at, key, sign};
use p2p_directory::{
    BitVec, Data, Info, Ingress, Key, MAX_PAYLOAD_OVERHEAD, Moment, OrderedSet, Payload, Signature,
    Status, TrackedPeers, max_gossip_size,
};
use std::collections::BTreeSet;
use std::io::{self, Read, Write};
use std::net::{Ipv4Addr, SocketAddr, TcpStream};
use std::num::NonZeroUsize;
use std::sync::atomic::{AtomicU64, Ordering};
use std::sync::mpsc::{Receiver, RecvTimeoutError, sync_channel};
use std::thread;
use std::time::{Duration, Instant, SystemTime, UNIX_EPOCH};

/// The time within which each expected event has to happen.
const PATIENCE: Duration = Duration::from_secs(20);

const LARGEST_SET: usize = 16;

/// An interval that passes while a test waits for it, and one that doesn't.
const SOON: Duration = Duration::from_millis(200);
const LATE: Duration = Duration::from_secs(3600);

/// Measures how much of [`PATIENCE`] is left.
struct Deadline(Instant);

impl Deadline {
    fn new() -> Deadline {
        Deadline(Instant::now() + PATIENCE)
    }

    fn left(&self) -> Duration {
        self.0.saturating_duration_since(Instant::now())
    }

    /// Waits until the condition holds.
    fn until(&self, what: &str, mut is_so: impl FnMut() -> bool) {
        while !is_so() {
            assert!(!self.left().is_zero(), "not in time: {what}");
            thread::sleep(Duration::from_millis(5));
        }
    }
}

/// A host, and its events.
struct Running {
    host: Host,
    events: Receiver<Event>,
}

impl Running {
    fn start(settings: Settings) -> Running {
        let (tells, events) = sync_channel(1024);
        let host = Host::start(settings, tells).expect("a host starts");
        Running { host, events }
    }

    /// A host with the key of number 1, which tracks a set.
    fn with_set(settings: Settings, numbers: &[u16]) -> Running {
        let running = Running::start(settings);
        assert_eq!(running.host.track(0, &set(numbers)), Ok(true));
        running
    }

    /// Waits for the first event that `find` accepts. Those before it are dropped.
    fn wait<T>(&self, deadline: &Deadline, what: &str, find: impl Fn(&Event) -> Option<T>) -> T {
        let mut seen = Vec::new();
        loop {
            match self.events.recv_timeout(deadline.left()) {
                Ok(event) => match find(&event) {
                    Some(found) => return found,
                    None => seen.push(event),
                },
                Err(why) => panic!("{what}: {why}, after {seen:?}"),
            }
        }
    }

    fn wait_blocked(&self, deadline: &Deadline, number: u16) {
        self.wait(deadline, "a block", |event| {
            matches!(event, Event::Blocked(peer) if *peer == key(number)).then_some(())
        });
    }

    fn status(&self, number: u16) -> Option<Status> {
        self.host
            .ask(|directory, _now| directory.status(&key(number)))
    }

    /// The address at which the host knows a peer, if the peer is connected.
    fn address_of(&self, number: u16) -> Option<Ingress> {
        let info = self
            .host
            .ask(|directory, _now| directory.info(&key(number)));
        info.expect("there is memory").map(|info| info.ingress)
    }

    fn blocked(&self) -> OrderedSet {
        let blocked = self.host.ask(|directory, now| directory.blocked_peers(now));
        blocked.expect("there is memory")
    }

    /// Ends the host, and waits until nothing is left of it that could send an event.
    fn end(self, deadline: &Deadline) {
        let Running { host, events } = self;
        let ending = thread::spawn(move || host.end());
        loop {
            match events.recv_timeout(deadline.left()) {
                Ok(_) => {}
                Err(RecvTimeoutError::Disconnected) => break,
                Err(RecvTimeoutError::Timeout) => panic!("a host doesn't end"),
            }
        }
        ending.join().expect("it ends without a panic");
    }
}

fn set(numbers: &[u16]) -> TrackedPeers {
    OrderedSet::from_iter_dedup(numbers.iter().copied().map(key)).into()
}

fn settings(number: u16) -> Settings {
    let listen_at = SocketAddr::from((Ipv4Addr::LOCALHOST, 0));
    let mut settings = Settings::recommended(key(number), listen_at, LARGEST_SET);
    settings.cfg.allow_private_ips = true;
    settings.cfg.dial_fail_limit = 1;
    settings.cfg.block_duration = LATE;
    settings.gossip = LATE;
    settings.handshake = PATIENCE;
    settings
}

/// Settings of a host that dials and asks often.
fn hasty(number: u16, bootstrapper: Option<&Running>) -> Settings {
    let mut settings = settings(number);
    settings.cfg.peer_connection_cooldown = SOON;
    settings.gossip = SOON;
    if let Some(Running { host, .. }) = bootstrapper {
        settings.bootstrappers = vec![(key(1), Ingress::from(host.address()))];
    }
    settings
}

fn millis() -> u128 {
    let passed = SystemTime::now().duration_since(UNIX_EPOCH);
    passed.expect("it is after the epoch").as_millis()
}

/// Waits until each of the hosts is connected with the peer of a number, and knows this address of
/// it.
fn wait_found(deadline: &Deadline, hosts: &[&Running], number: u16, address: SocketAddr) {
    for running in hosts {
        deadline.until("a peer is found at its address", || {
            running.status(number) == Some(Status::Active)
                && running.address_of(number) == Some(Ingress::from(address))
        });
    }
}

/// A message of the maximum length is sent from the second to the third.
fn send_the_longest(deadline: &Deadline, second: &Running, third: &Running) {
    let most = settings(2).payload.max_data_length;
    let channel = 300;
    assert!(second.host.send(&key(3), channel, vec![7; most]));
    assert!(!second.host.send(&key(3), channel, vec![7; most + 1]));
    assert!(!second.host.send(&key(4), channel, Vec::new()));
    let came = third.wait(deadline, "a message", |event| match event {
        Event::Message(peer, data) => Some((*peer, data.clone())),
        _ => None,
    });
    let message = vec![7; most];
    assert_eq!(came, (key(2), Data { channel, message }));
}

#[test]
fn two_that_know_only_a_third_find_each_other_and_one_that_restarted() {
    let deadline = Deadline::new();
    let first = Running::start(hasty(1, None));
    let second = Running::start(hasty(2, Some(&first)));
    let third = Running::start(hasty(3, Some(&first)));
    let peers = set(&[1, 2, 3]);
    for running in [&first, &second, &third] {
        assert_eq!(running.host.track(0, &peers), Ok(true));
        assert_eq!(running.host.track(0, &peers), Ok(false));
    }
    wait_found(&deadline, &[&first, &third], 2, second.host.address());
    wait_found(&deadline, &[&first, &second], 3, third.host.address());

    send_the_longest(&deadline, &second, &third);

    // The third starts again, at another address and later.
    third.end(&deadline);
    for running in [&first, &second] {
        deadline.until("the third is gone", || {
            running.status(3) != Some(Status::Active)
        });
    }
    let ended_at = millis();
    deadline.until("the clock goes on", || millis() > ended_at);
    let third = Running::with_set(hasty(3, Some(&first)), &[1, 2, 3]);
    wait_found(&deadline, &[&first, &second], 3, third.host.address());
    for running in [first, second, third] {
        running.end(&deadline);
    }
}

/// A stream to a host with the key of number 1, after the handshake and the host's greeting.
fn connect(running: &Running, number: u16) -> io::Result<TcpStream> {
    let address = running.host.address();
    let mut stream = TcpStream::connect(address)?;
    handshake_as_dialer(&stream, &key(number), &key(1), PATIENCE)?;
    stream.set_read_timeout(Some(PATIENCE))?;
    let payload = Payload::decode(&read(&mut stream)?, &settings(1).payload);
    match payload.expect("the host sends frames") {
        Payload::Greeting(info) => {
            assert_eq!(info.public_key, key(1));
            assert_eq!(info.ingress, Ingress::from(address));
        }
        other => panic!("no greeting, but {other:?}"),
    }
    Ok(stream)
}

fn read(stream: &mut TcpStream) -> io::Result<Vec<u8>> {
    let limits = FrameLimits::new(&settings(1).payload).expect("they fit");
    read_frame(stream, limits)
}

/// The info of a peer that nobody can dial, signed by the key of a number.
fn greeting_of(number: u16) -> Info {
    greeting_at(number, 0)
}

fn greeting_at(number: u16, timestamp: u64) -> Info {
    let own = key(number);
    let nowhere = Ingress::from(SocketAddr::from((Ipv4Addr::LOCALHOST, 1)));
    Info::sign(own, NAMESPACE, nowhere, timestamp, |namespace, message| {
        sign(&own, namespace, message)
    })
}

fn greet(stream: &TcpStream, number: u16) {
    let greeting = Payload::Greeting(greeting_of(number)).encode();
    write_frame(stream, &[&greeting]).expect("the host reads");
}

/// What a peer that may be connected sends to be blocked, each with a name.
fn misdeeds(number: u16) -> [(&'static str, Vec<Vec<u8>>); 8] {
    let greeting = Payload::Greeting(greeting_of(number)).encode();
    // Its info is valid, so the host learns where that peer is.
    let of_another = Payload::Greeting(greeting_of(16)).encode();
    let mut forged = greeting_of(number);
    forged.signature = Signature([0; 64]);
    let forged = Payload::Greeting(forged).encode();
    let bits = vec![true; 1];
    let of_wrong_number = Payload::BitVec(BitVec { index: 0, bits }).encode();
    let hello = || greeting.clone();
    [
        ("a prefix of no payload", vec![hello(), vec![9]]),
        ("a frame without bytes", vec![hello(), vec![]]),
        ("a question first", vec![vec![2, 0, 0]]),
        ("a greeting of another key", vec![of_another]),
        ("a forged greeting", vec![forged]),
        ("a second greeting", vec![hello(), hello()]),
        ("bits of a wrong number", vec![hello(), of_wrong_number]),
        ("infos that end too early", vec![hello(), vec![3, 1]]),
    ]
}

/// Whether the host closes a stream. What it sends before is ignored.
fn is_closed(mut stream: TcpStream) -> bool {
    let mut rest = Vec::new();
    // If the host left bytes unread, the end is a reset.
    match stream.read_to_end(&mut rest) {
        Ok(_) => true,
        Err(why) => why.kind() == io::ErrorKind::ConnectionReset,
    }
}

#[test]
fn who_breaks_the_protocol_is_blocked() {
    let deadline = Deadline::new();
    let numbers: Vec<u16> = (1..=16).collect();
    let running = Running::with_set(settings(1), &numbers);
    let mut blocked: Vec<Key> = Vec::new();
    for (number, place) in (2..10).zip(0..) {
        let (misdeed, frames) = misdeeds(number).into_iter().nth(place).expect("eight");
        let stream = connect(&running, number).expect(misdeed);
        for frame in frames {
            write_frame(&stream, &[&frame]).expect(misdeed);
        }
        running.wait_blocked(&deadline, number);
        assert!(is_closed(stream), "{misdeed}");
        blocked.push(key(number));
        assert_eq!(running.blocked().to_vec(), blocked, "{misdeed}");
        assert!(connect(&running, number).is_err(), "{misdeed}");
    }
    running.end(&deadline);
}

#[test]
fn a_frame_too_long_is_refused_before_it_comes() {
    let deadline = Deadline::new();
    let running = Running::with_set(settings(1), &[1, 2, 3]);
    let gossip = max_gossip_size(LARGEST_SET as u64, LARGEST_SET).expect("it fits");
    let data = settings(1).payload.max_data_length + MAX_PAYLOAD_OVERHEAD as usize;
    assert!(gossip < data, "one limit is not that of the other");
    for (number, prefix, most) in [(2, 3, gossip), (3, DATA, data)] {
        let mut stream = connect(&running, number).expect("it is in a set");
        greet(&stream, number);
        let length = u32::try_from(most + 1).expect("it fits").to_be_bytes();
        let front = [&length[..], &[prefix]].concat();
        stream.write_all(&front).expect("the host reads");
        running.wait_blocked(&deadline, number);
        assert!(is_closed(stream));
    }
    running.end(&deadline);
}

#[test]
fn a_block_ends_by_time_and_the_peer_comes_again() {
    let deadline = Deadline::new();
    let mut settings = settings(1);
    settings.cfg.block_duration = SOON;
    settings.cfg.peer_connection_cooldown = SOON;
    let running = Running::with_set(settings, &[1, 2]);
    let stream = connect(&running, 2).expect("it is in a set");
    write_frame(&stream, &[&[9]]).expect("the host reads");
    running.wait_blocked(&deadline, 2);
    running.wait(&deadline, "the block's end", |event| {
        matches!(event, Event::Unblocked).then_some(())
    });
    assert_eq!(
        running.host.ask(|directory, _now| directory.next_unblock()),
        None
    );
    deadline.until("it comes again", || connect(&running, 2).is_ok());
    running.end(&deadline);
}

#[test]
fn who_asks_too_often_is_not_answered() {
    let deadline = Deadline::new();
    let running = Running::with_set(settings(1), &[1, 2]);
    let mut stream = connect(&running, 2).expect("it is in a set");
    greet(&stream, 2);
    let bits = vec![true; 2];
    let question = Payload::BitVec(BitVec { index: 0, bits }).encode();
    for _ in 0..100 {
        write_frame(&stream, &[&question]).expect("the host reads");
    }
    // Eight frames in the interval of a question, all of which arrive in the first interval.
    for _ in 0..92 {
        running.wait(&deadline, "it is ignored", |event| {
            matches!(event, Event::Ignored(peer) if *peer == key(2)).then_some(())
        });
    }
    let mut replies = 0;
    while replies < 8 {
        // The host asks, too: its own question may be in between.
        match read(&mut stream).expect("the host replies").first() {
            Some(3) => replies += 1,
            prefix => assert_eq!(prefix, Some(&2)),
        }
    }
    assert!(running.blocked().is_empty());
    running.end(&deadline);
}

#[test]
fn draws_are_all_those_of_their_range() {
    let mut cfg = settings(1).cfg;
    cfg.peer_connection_cooldown = Duration::from_nanos(5);
    let drawn: BTreeSet<_> = (0..1000).map(|_| cfg.draw(random())).collect();
    let range: BTreeSet<_> = (0..=4).map(Duration::from_nanos).collect();
    assert_eq!(drawn, range);
}

/// How many bytes the host sends to a dialer that claims the key of a number and proves nothing.
fn bytes_for_a_claim(running: &Running, number: u16) -> usize {
    let mut stream = TcpStream::connect(running.host.address()).expect("the host listens");
    stream.set_read_timeout(Some(PATIENCE)).expect("it is open");
    let claim = [key(number).as_ref(), &[0; 8]].concat();
    stream.write_all(&claim).expect("the host reads");
    let mut bytes = Vec::new();
    let one = stream.take(1).read_to_end(&mut bytes);
    one.expect("it answers or ends")
}

#[test]
fn only_peers_of_a_set_are_connected_and_each_once() {
    let deadline = Deadline::new();
    let mut settings = settings(1);
    settings.cfg.max_sets = NonZeroUsize::MIN;
    let running = Running::with_set(settings, &[1, 2]);
    assert_eq!(bytes_for_a_claim(&running, 2), 1, "it may be in a set");
    assert_eq!(bytes_for_a_claim(&running, 4), 0, "it is in no set");
    let stream = connect(&running, 2).expect("it is in a set");
    greet(&stream, 2);
    assert!(connect(&running, 2).is_err(), "it is connected");
    assert_eq!(running.status(2), Some(Status::Active));

    assert_eq!(running.host.track(1, &set(&[1, 3])), Ok(true));
    assert!(is_closed(stream), "its set is gone");
    running.wait(&deadline, "its connection ends", |event| {
        matches!(event, Event::Ended(peer, _) if *peer == key(2)).then_some(())
    });
    assert_eq!(running.status(2), None);
    assert!(connect(&running, 2).is_err(), "its set is gone");
    assert!(connect(&running, 3).is_ok(), "it is in a set");
    running.end(&deadline);
}

#[test]
fn a_peer_rests_where_nobody_answered() {
    let deadline = Deadline::new();
    let running = Running::with_set(hasty(1, None), &[1, 2]);
    let stream = connect(&running, 2).expect("it is in a set");
    greet(&stream, 2);
    deadline.until("its address is known", || running.address_of(2).is_some());
    let begin = Instant::now();
    drop(stream);
    for _ in 0..3 {
        running.wait(&deadline, "a dial in vain", |event| {
            matches!(event, Event::DialFailed(peer, _) if *peer == key(2)).then_some(())
        });
    }
    // There are two rests between them.
    let passed = begin.elapsed();
    assert!(passed >= 8 * SOON, "{passed:?}");
    running.end(&deadline);
}

#[test]
fn forty_that_do_not_answer_leave_one_behind_them_its_turn() {
    let peers: Vec<Key> = (1..=41).map(key).collect();
    let nowhere = SocketAddr::from((Ipv4Addr::LOCALHOST, 1));
    let mut turns = Turns::new(key(20));
    let mut dialled = Vec::new();
    for _ in 0..3 {
        // All may be dialled again at once.
        let mut peers = peers.clone();
        turns.order(&mut peers);
        for peer in peers.into_iter().take(16) {
            turns.dial(peer, nowhere);
            turns.end(&peer);
            dialled.push(peer);
        }
    }
    let round = [&peers[20..], &peers[..20]].concat();
    assert_eq!(dialled[..41], round);
}

#[test]
fn another_address_ends_a_rest_and_the_same_one_does_not() {
    let may_dial = |turns: &Turns| {
        let mut peers = vec![key(2)];
        turns.order(&mut peers);
        !peers.is_empty()
    };
    let address = SocketAddr::from(([1, 2, 3, 4], 5));
    let at = Moment::from_secs(8);
    let mut turns = Turns::new(key(1));
    turns.dial(key(2), address);
    turns.rest(&key(2), at);
    turns.learn(&info_at(2, 7, 5));
    turns.learn(&info_at(3, 7, 6));
    turns.expire(Moment::from_secs(7));
    assert!(!may_dial(&turns));
    assert_eq!(turns.next_end(), Some(at));
    turns.learn(&info_at(2, 7, 6));
    assert!(may_dial(&turns));
    turns.dial(key(2), address);
    turns.rest(&key(2), at);
    turns.expire(at);
    assert!(may_dial(&turns));
}

#[test]
fn a_wall_clock_that_was_an_hour_ahead_shuts_nobody_out() {
    static AHEAD: AtomicU64 = AtomicU64::new(0);
    let deadline = Deadline::new();
    let mut settings = hasty(1, None);
    settings.wall = || SystemTime::now() + Duration::from_secs(AHEAD.load(Ordering::Relaxed));
    let running = Running::with_set(settings, &[1, 2]);
    for ahead in [0, LATE.as_secs(), 0] {
        AHEAD.store(ahead, Ordering::Relaxed);
        deadline.until("it comes again", || connect(&running, 2).is_ok());
    }
    running.end(&deadline);
}

#[test]
fn infos_go_by_the_wall_clock() {
    static AHEAD: AtomicU64 = AtomicU64::new(0);
    let deadline = Deadline::new();
    let mut settings = settings(1);
    settings.wall = || SystemTime::now() + Duration::from_secs(AHEAD.load(Ordering::Relaxed));
    let running = Running::with_set(settings, &[1, 2, 3]);
    let in_an_hour = u64::try_from(millis() + LATE.as_millis()).expect("it fits");
    let greet = |number: u16| {
        let stream = connect(&running, number).expect("it is in a set");
        let greeting = Payload::Greeting(greeting_at(number, in_an_hour)).encode();
        write_frame(&stream, &[&greeting]).expect("the host reads");
        stream
    };
    assert!(is_closed(greet(2)), "its info is of the future");
    AHEAD.store(LATE.as_secs(), Ordering::Relaxed);
    let _stream = greet(3);
    deadline.until("its info is known", || running.address_of(3).is_some());
    assert!(running.blocked().is_empty());
    running.end(&deadline);
}

#[test]
fn a_frame_that_comes_byte_by_byte_comes_too_late() {
    let deadline = Deadline::new();
    let mut settings = settings(1);
    settings.silence = Duration::from_secs(1);
    let running = Running::with_set(settings, &[1, 2]);
    let mut stream = connect(&running, 2).expect("it is in a set");
    greet(&stream, 2);
    deadline.until("its address is known", || running.address_of(2).is_some());
    let length = 1u32 << 20;
    let front = [&length.to_be_bytes()[..], &[DATA]].concat();
    stream.write_all(&front).expect("the host reads");
    // The peer isn't silent, but all of its bytes would take more than an hour.
    deadline.until("the stream is closed", || stream.write_all(&[0]).is_err());
    running.wait(&deadline, "its connection ends", |event| {
        matches!(event, Event::Ended(peer, _) if *peer == key(2)).then_some(())
    });
    running.end(&deadline);
}

#[test]
fn a_peer_that_reads_too_slowly_is_disconnected() {
    let deadline = Deadline::new();
    let mut settings = settings(1);
    settings.silence = Duration::from_secs(1);
    let most = settings.payload.max_data_length;
    let running = Running::with_set(settings, &[1, 2]);
    let mut stream = connect(&running, 2).expect("it is in a set");
    greet(&stream, 2);
    deadline.until("its address is known", || running.address_of(2).is_some());
    while running.host.send(&key(2), 0, vec![7; most]) {}
    // It is neither silent nor does it stop reading, but a frame takes four seconds.
    let mut some = vec![0; most / 40];
    deadline.until("the stream is closed", || {
        thread::sleep(Duration::from_millis(100));
        let sent = write_frame(&stream, &[&[DATA, 0, 0]]);
        sent.is_err() || stream.read_exact(&mut some).is_err()
    });
    running.wait(&deadline, "its connection ends", |event| {
        matches!(event, Event::Ended(peer, _) if *peer == key(2)).then_some(())
    });
    assert!(running.blocked().is_empty());
    running.end(&deadline);
}
