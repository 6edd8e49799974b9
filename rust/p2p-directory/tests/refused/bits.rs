//! The bits of sets that are retained if a further set was refused.

use super::heap::{Refused, while_refused};
use super::state::{State, peers, seconds, two_sets};
use p2p_directory::sized::Pair;
use p2p_directory::sized::testing::key;
use p2p_directory::{BitVec, OutOfMemory};

tests_of_each_pair! {
    bits_are_set_after_a_set_was_refused,
}

// The bits of the sets, in order of their indices, from 0 on.
fn assert_bits<P: Pair>(state: &State<P>, bits: &[&[bool]]) {
    for (place, bits) in bits.iter().enumerate() {
        let told = state.directory().get_random_bit_vec(place).unwrap();
        let wanted = BitVec {
            index: place as u64,
            bits: bits.to_vec(),
        };
        assert_eq!(told, Some(wanted));
    }
}

// Peer 2 is connected, which sets its bits, and released, which clears them.
fn connects<P: Pair>(state: &mut State<P>, now: u64, connected: &[&[bool]], released: &[&[bool]]) {
    assert_eq!(state.listen(2, seconds(now)), Ok(true));
    state.directory_mut().connect(&key::<P>(2), false).unwrap();
    assert_bits(state, connected);
    assert!(state.release(2));
    assert_bits(state, released);
}

// The sets that were retained have the peer's bit, and so does a set that is registered afterwards.
fn follows<P: Pair>(state: &mut State<P>) {
    const FIRST: &[bool] = &[false, true, false];
    const SECOND: &[bool] = &[true, false];
    connects(state, 100, &[FIRST, SECOND], &[&[false; 3], &[false; 2]]);
    let taken = state.directory_mut().track(2, &peers(&[2], &[])).unwrap();
    assert!(taken.accepted().is_some());
    connects(
        state,
        200,
        &[FIRST, SECOND, &[true]],
        &[&[false; 3], &[false; 2], &[false]],
    );
}

// Returns whether a set of peers 1 to 3 and others, more than a node of a tree holds, was refused.
// If so, checks that the retained sets still have their bits.
fn is_refused<P: Pair>(plan: Refused) -> bool {
    let refused = peers::<P>(
        &[1, 2, 3, 10, 11, 12, 13, 14, 15, 16, 17, 18, 19, 20, 21, 22],
        &[],
    );
    let mut state = two_sets();
    let track = || state.directory_mut().track(2, &refused);
    let (answer, asked) = while_refused(plan, track);
    if asked.refused == 0 {
        assert!(answer.is_ok(), "{plan:?}");
        return false;
    }
    assert_eq!(answer, Err(OutOfMemory), "{plan:?}");
    follows(&mut state);
    true
}

fn bits_are_set_after_a_set_was_refused<P: Pair>() {
    for plan in [Refused::Only, Refused::From] {
        let met = (1..)
            .take_while(|place| is_refused::<P>(plan(*place)))
            .count();
        assert!(met > 3, "{met} requests");
    }
}
