//! How much memory is held after many calls, and how much a frame can make a node allocate.

use super::heap::{Refused, held, while_refused};
use super::state::{State, empty, seconds};
use p2p_directory::sized::testing::{info, key, setup, verify};
use p2p_directory::sized::{Node, OrderedSet, Pair, Payload, Received, Reservation};
use p2p_directory::{Hostname, Ingress, Moment, OutOfMemory};
use std::time::Duration;

tests_of_each_pair! {
    a_node_keeps_nothing_of_whom_it_released,
    a_node_keeps_nothing_of_whom_it_turned_away,
    a_node_keeps_nothing_of_whom_it_refused_for_memory,
    blocks_that_are_renewed_keep_no_ends,
    a_node_gives_back_what_reservations_took,
    a_short_frame_takes_little_memory,
}

const ROUNDS: u16 = 10_000;

// For how many reservations a node has space at first, and which allocation for the next one is the
// first for its slot, and for the times of its grant.
const FULL: u16 = 15;
const SLOT: u64 = 1;
const MOMENT: u64 = 3;

// More bytes than a node keeps for a few reservations or blocks.
const FEW: usize = 4_096;

// A node with so many primary peers, from 10 on.
fn many<P: Pair>() -> State<P> {
    let mut state = empty();
    let peers = OrderedSet::from_iter_dedup((10..10 + ROUNDS).map(key::<P>)).into();
    let _ = state.directory_mut().track(0, &peers).unwrap();
    state
}

// A dial of the peer isn't granted, since its address isn't known. The peer is accepted, not
// granted again, and released.
fn cycles<P: Pair>(state: &mut State<P>, number: u16) {
    let now = seconds(100);
    assert_eq!(state.dial(number, now), Ok(false), "{number}");
    assert_eq!(state.listen(number, now), Ok(true), "{number}");
    assert_eq!(state.listen(number, now), Ok(false), "{number}");
    assert!(state.release(number), "{number}");
    assert_eq!(state.directory_mut().forget_cooled(Moment::MAX), 1);
}

// Another peer connects and leaves in each round.
fn a_node_keeps_nothing_of_whom_it_released<P: Pair>() {
    let mut state = many::<P>();
    cycles(&mut state, 10);
    let before = held();
    let ((), asked) = while_refused(Refused::None, || {
        (10..10 + ROUNDS).for_each(|number| cycles(&mut state, number));
    });
    assert!(asked.bytes <= FEW, "{asked:?}");
    assert_eq!(held(), before);
}

// The same holds if a stranger is refused.
fn a_node_keeps_nothing_of_whom_it_turned_away<P: Pair>() {
    let mut state = many::<P>();
    cycles(&mut state, 10);
    let before = held();
    for number in 10 + ROUNDS..10 + 2 * ROUNDS {
        let now = seconds(100);
        assert_eq!(state.listen(number, now), Ok(false), "{number}");
        assert_eq!(state.dial(number, now), Ok(false), "{number}");
    }
    assert_eq!(held(), before);
}

fn refuses_listener<P: Pair>(state: &mut State<P>, number: u16, plan: Refused) {
    let listen = || state.listen(number, seconds(100));
    let (answer, asked) = while_refused(plan, listen);
    assert_eq!(answer, Err(OutOfMemory), "{number}: {asked:?}");
}

// The same holds if allocations for inbound peers fail: first for their slots, then for their
// times. The space for slots that the first of these allocated is kept.
fn a_node_keeps_nothing_of_whom_it_refused_for_memory<P: Pair>() {
    let mut state = (10..10 + FULL).fold(many::<P>(), State::listened);
    for place in [SLOT, MOMENT] {
        refuses_listener(&mut state, 10 + FULL, Refused::Only(place));
        let before = held();
        for number in 11 + FULL..10 + ROUNDS {
            refuses_listener(&mut state, number, Refused::From(1));
        }
        assert_eq!(held(), before);
    }
    assert_eq!(state.listen(10 + FULL, seconds(100)), Ok(true));
}

// In each round one of three peers is blocked again after its block, of a minute, has ended. Ended
// blocks aren't removed.
fn blocks_that_are_renewed_keep_no_ends<P: Pair>() {
    let mut state = empty::<P>();
    let directory = state.directory_mut();
    let ((), asked) = while_refused(Refused::None, || {
        for round in 0..ROUNDS {
            let taken = directory.block(&key::<P>(10 + round % 3), seconds(30 * u64::from(round)));
            assert_eq!(taken, Ok(true), "{round}");
        }
    });
    assert!(asked.bytes <= FEW, "{asked:?}");
    // Three blocks are left, those of the last rounds. The first of them is of round 9,997.
    let first = seconds(9_997 * 30 + 60);
    assert_eq!(directory.next_unblock(), Some(first));
    assert!(directory.unblock_expired(first));
    assert_eq!(directory.blocked_peers(Moment::EPOCH).unwrap().len(), 2);
}

// The memory that a node holds for reservations is freed with them.
fn a_node_gives_back_what_reservations_took<P: Pair>() {
    let mut state = many();
    cycles(&mut state, 10);
    let before = held();
    let directory = state.directory_mut();
    let granted: Vec<Reservation<P>> = (10..1_010)
        .map(|number| {
            let granted = directory.listen(&key::<P>(number), seconds(100), Duration::ZERO);
            granted.unwrap().expect("it is granted")
        })
        .collect();
    assert!(held() > before);
    for reservation in granted {
        directory.release(reservation).unwrap();
    }
    assert_eq!(directory.forget_cooled(Moment::MAX), 1_000);
    assert_eq!(held(), before);
}

// The frames that nodes send to each other: bits, messages, greetings with a socket and with a
// name, and infos.
fn frames<P: Pair>() -> Vec<Vec<u8>> {
    let mut named = info::<P>(2, 1000);
    named.ingress = Ingress::Dns {
        host: Hostname::new("a.b").unwrap(),
        port: 8002,
    };
    let infos = [info(1, 100_000), named.clone()];
    let spelled = [
        Payload::Greeting(info(1, 1000)),
        Payload::Greeting(named),
        Payload::Peers(Vec::new()),
        Payload::Peers(infos[..1].to_vec()),
        Payload::Peers(infos.to_vec()),
    ];
    let plain: [&[u8]; 5] = [
        &[2, 0, 2, 0],
        &[2, 0, 2, 1],
        &[2, 7, 0],
        &[2, 0, 1, 0],
        b"\0\x01\x05hello",
    ];
    let plain = plain.into_iter().map(<[u8]>::to_vec);
    let spelled = spelled.iter().map(Payload::encode);
    plain.chain(spelled).collect()
}

// Frames whose counts and lengths are the greatest that a node with the greatest limits allows,
// with or without bytes after them.
fn hostile_frames<P: Pair>() -> Vec<Vec<u8>> {
    const GREATEST: &[u8] = &[0xff, 0xff, 0xff, 0xff, 0x0f];
    const INDEX: &[u8] = &[0xff, 0xff, 0xff, 0xff, 0xff, 0xff, 0xff, 0xff, 0xff, 0x01];
    let socket = info::<P>(1, 100_000).encode();
    let mut long_name = Payload::Greeting(info::<P>(2, 1000)).encode();
    long_name.splice(1..9, *b"\x01\xfd\x01a.b\x1f\x42");
    vec![
        [&[0, 1], GREATEST].concat(),
        [&[0, 1], GREATEST, b"hello"].concat(),
        [&[0], INDEX, GREATEST, b"hello"].concat(),
        [&[2, 0], GREATEST].concat(),
        [&[2, 0], GREATEST, &[0xff, 0xff]].concat(),
        [&[2], INDEX, GREATEST, &[0]].concat(),
        long_name,
        [&[3], GREATEST].concat(),
        [&[3], GREATEST, &socket].concat(),
        [&[3], GREATEST, &socket, &[0]].concat(),
    ]
}

// The greatest values of a byte, of one that another byte follows and of what the limits allow, and
// the smallest.
const VALUES: [u8; 6] = [255, 128, 127, 64, 1, 0];

// The frame itself, and the frame with each of its bytes changed to each of these values.
fn with_changes(frame: &[u8]) -> Vec<Vec<u8>> {
    let mut changed = vec![frame.to_vec()];
    for place in 0..frame.len() {
        for value in VALUES {
            let mut frame = frame.to_vec();
            frame[place] = value;
            changed.push(frame);
        }
    }
    changed
}

// So many bytes of memory for each byte of a frame are always enough, in addition to the control
// block of the frame's copy and the minimum space for bits and infos.
const BYTES_FOR_EACH: usize = 8;
const BYTES_BESIDE: usize = 48;

fn a_short_frame_takes_little_memory<P: Pair>() {
    let mut setup = setup::<P>(9);
    setup.payload.max_bit_vec = u64::from(u32::MAX);
    setup.payload.max_peers = u32::MAX as usize;
    setup.payload.max_data_length = u32::MAX as usize;
    setup.peer_gossip_max_count = u32::MAX as usize;
    let mut node = Node::new(&setup).unwrap();
    let mut tried = 0;
    for frame in [frames::<P>(), hostile_frames::<P>()].iter().flatten() {
        for frame in with_changes(frame) {
            let receive = || node.receive(&frame, seconds(100), verify);
            let (received, asked) = while_refused(Refused::None, receive);
            assert_ne!(received, Received::Memory, "{frame:?}");
            let most = BYTES_FOR_EACH * frame.len() + BYTES_BESIDE;
            assert!(asked.bytes <= most, "{asked:?} for {frame:?}");
            tried += 1;
        }
    }
    assert!(tried > 3_000, "{tried}");
}
