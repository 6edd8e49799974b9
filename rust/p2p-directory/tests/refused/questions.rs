//! The results of all queries of a node, as texts that are compared, and the calls that don't
//! allocate.

use super::state::{State, seconds, set, text};
use p2p_directory::sized::testing::key;
use p2p_directory::sized::{Directory, Pair};
use p2p_directory::{BitVec, NotReservedError, OutOfMemory};
use std::fmt::Debug;

// Queries are made for the peers with numbers below this.
const KEYS: u16 = 48;

// In seconds: before, between and after the times of cooldowns and blocks.
const MOMENTS: [u64; 8] = [0, 59, 60, 100, 105, 110, 160, 1_000];

// More positions than retained sets.
const PLACES: usize = 5;

/// The results of all queries.
pub fn told<P: Pair>(state: &State<P>) -> Vec<String> {
    if !state.has_node() {
        return vec!["there is no node".to_owned()];
    }
    let directory = state.directory();
    let mut told = Vec::new();
    tell_peers(&mut told, directory);
    tell_moments(&mut told, directory);
    tell_sets(&mut told, state);
    for reservation in state.held() {
        told.push(text(reservation.metadata()));
    }
    told
}

fn tell_peers<P: Pair>(told: &mut Vec<String>, directory: &Directory<P>) {
    for number in 0..KEYS {
        let peer = key::<P>(number);
        let status = directory.status(&peer);
        let info = directory.info(&peer).unwrap();
        let ingress = directory.ingress(&peer).unwrap();
        told.push(format!("{number}: {status:?} {info:?} {ingress:?}"));
        for moment in MOMENTS.map(seconds) {
            let eligible = directory.eligible(&peer, moment);
            let acceptable = directory.acceptable(&peer, moment);
            let listens = directory.may_listen(&peer, moment);
            told.push(format!(
                "{number} at {moment:?}: {eligible} {acceptable} {listens}"
            ));
        }
    }
}

fn tell_moments<P: Pair>(told: &mut Vec<String>, directory: &Directory<P>) {
    for moment in MOMENTS.map(seconds) {
        let dialable = directory.dialable(moment).unwrap();
        let blocked = directory.blocked_peers(moment).unwrap();
        told.push(format!("at {moment:?}: {dialable:?} {blocked:?}"));
    }
}

fn tell_sets<P: Pair>(told: &mut Vec<String>, state: &State<P>) {
    let directory = state.directory();
    for place in 0..PLACES {
        let bits = directory.get_random_bit_vec(place).unwrap();
        let asked = state.node().ask(place).unwrap();
        told.push(format!("at {place}: {bits:?} {asked:?}"));
        if let Some(BitVec { index, bits }) = bits {
            let nobody = BitVec {
                index,
                bits: vec![false; bits.len()],
            };
            let infos = directory.infos(&nobody, seconds(1_000)).unwrap();
            let set = directory.get_peer_set(index).unwrap();
            told.push(format!("set {index}: {set:?} {infos:?}"));
        }
    }
    told.push(text(directory.latest_set_index()));
    told.push(text(directory.latest_update().unwrap()));
    told.push(text(directory.all().unwrap()));
    told.push(text(directory.tracked()));
    told.push(text(directory.next_unblock()));
}

/// The results after all reservations are released. Then how many cooldowns are forgotten and
/// whether blocks end at each time, and the results after that.
pub fn told_at_the_end<P: Pair>(mut state: State<P>) -> Vec<String> {
    if !state.has_node() {
        return Vec::new();
    }
    for number in 0..KEYS {
        state.release(number);
    }
    let mut ended = told(&state);
    for moment in MOMENTS.map(seconds) {
        let forgotten = state.directory_mut().forget_cooled(moment);
        let unblocked = state.directory_mut().unblock_expired(moment);
        ended.push(format!("until {moment:?}: {forgotten} {unblocked}"));
    }
    ended.extend(told(&state));
    ended
}

// The result of a call that doesn't allocate.
fn quiet<T: Debug>(answer: Result<T, OutOfMemory>) -> String {
    text(answer.expect("it takes no memory"))
}

/// A call that doesn't allocate, and its result in the state `known`, after the calls before it.
pub struct Quiet<P: Pair> {
    pub name: &'static str,
    pub call: fn(&mut State<P>) -> String,
    pub answer: fn() -> String,
}

/// Queries, and calls that change nothing or don't allocate in order to do so, in any state.
pub fn quiet_calls<P: Pair>() -> Vec<Quiet<P>> {
    vec![
        Quiet {
            name: "status",
            call: |state| text(state.directory().status(&key::<P>(1))),
            answer: || text(Some(p2p_directory::Status::Active)),
        },
        Quiet {
            name: "eligible",
            call: |state| text(state.directory().eligible(&key::<P>(4), seconds(99))),
            answer: || text(false),
        },
        Quiet {
            name: "acceptable",
            call: |state| text(state.directory().acceptable(&key::<P>(5), seconds(100))),
            answer: || text(true),
        },
        Quiet {
            name: "may_listen",
            call: |state| text(state.directory().may_listen(&key::<P>(5), seconds(100))),
            answer: || text(true),
        },
        Quiet {
            name: "next_unblock",
            call: |state| text(state.directory().next_unblock()),
            answer: || text(Some(seconds(100))),
        },
        Quiet {
            name: "latest_set_index",
            call: |state| text(state.directory().latest_set_index()),
            answer: || text(Some(0)),
        },
        Quiet {
            name: "tracked",
            call: |state| text(state.directory().tracked()),
            answer: || text(5),
        },
        Quiet {
            name: "block the own key",
            call: |state| quiet(state.directory_mut().block(&key::<P>(9), seconds(100))),
            answer: || text(false),
        },
        Quiet {
            name: "blocked_peers, of which there are none",
            call: |state| quiet(state.directory().blocked_peers(seconds(1_000))),
            answer: || text(set::<P>(&[])),
        },
        Quiet {
            name: "get_peer_set of none",
            call: |state| quiet(state.directory().get_peer_set(7)),
            answer: || text(None::<()>),
        },
        Quiet {
            name: "info of none",
            call: |state| quiet(state.directory().info(&key::<P>(7))),
            answer: || text(None::<()>),
        },
        Quiet {
            name: "get_random_bit_vec of none",
            call: |state| quiet(state.directory().get_random_bit_vec(4)),
            answer: || text(None::<()>),
        },
        Quiet {
            name: "ask at no place",
            call: |state| quiet(state.node().ask(4)),
            answer: || text(None::<()>),
        },
        Quiet {
            name: "connect",
            call: |state| text(state.directory_mut().connect(&key::<P>(3), true)),
            answer: || text(Ok::<(), NotReservedError>(())),
        },
        Quiet {
            name: "connect one that isn't reserved",
            call: |state| text(state.directory_mut().connect(&key::<P>(7), false)),
            answer: || text(Err::<(), _>(NotReservedError)),
        },
        Quiet {
            name: "release",
            call: |state| text(state.release(1)),
            answer: || text(true),
        },
        Quiet {
            name: "unblock_expired",
            call: |state| text(state.directory_mut().unblock_expired(seconds(100))),
            answer: || text(true),
        },
        Quiet {
            name: "forget_cooled",
            call: |state| text(state.directory_mut().forget_cooled(seconds(60))),
            answer: || text(4),
        },
        Quiet {
            name: "status of the released",
            call: |state| text(state.directory().status(&key::<P>(1))),
            answer: || text(Some(p2p_directory::Status::Inert)),
        },
        Quiet {
            name: "next_unblock after a block ended",
            call: |state| text(state.directory().next_unblock()),
            answer: || text(Some(seconds(160))),
        },
        Quiet {
            name: "status of one that was dropped",
            call: |state| {
                state.drops(3);
                text(state.directory().status(&key::<P>(3)))
            },
            answer: || text(Some(p2p_directory::Status::Inert)),
        },
    ]
}

/// The results of the calls that don't allocate, one after the other.
pub fn quiet_answers<P: Pair>(state: &mut State<P>) -> Vec<String> {
    if !state.has_node() {
        return Vec::new();
    }
    quiet_calls()
        .iter()
        .map(|quiet| format!("{}: {}", quiet.name, (quiet.call)(state)))
        .collect()
}
