//! Each allocation of the Rust crate itself fails in turn, on Rust's heap. `tests/refused` does so
//! for the library's.
//!
//! For N counted upwards until none fails, the Nth allocation of a call fails, once alone and once
//! with all later ones. Nothing aborts, the call returns out of memory, and everything is as
//! before.

#[macro_use]
#[path = "../each_pair/mod.rs"]
mod each_pair;
mod heap;
#[allow(dead_code)]
#[path = "../refused/questions.rs"]
mod questions;
#[allow(dead_code)]
#[path = "../refused/state.rs"]
mod state;

use heap::{Refused, held, while_refused};
use p2p_directory::sized::testing::{NAMESPACE, config, info, key, setup, verify};
use p2p_directory::sized::{Directory, Info, Metadata, Pair, Payload, Received, TrackedPeers};
use p2p_directory::{BitVec, Data, Ingress, Moment, OutOfMemory, SetupError, ValidateError};
use questions::told;
use state::{
    State, dialling, empty, introduced, known, named_info, new, peers, retaining, seconds,
};
use std::fmt::Debug;
use std::sync::{Mutex, MutexGuard, PoisonError};
use std::time::Duration;

tests_of_each_pair! {
    a_directory_is_made_or_refused,
    sets_are_taken_or_refused,
    grants_are_made_or_refused,
    dropping_takes_no_memory,
    there_is_room_for_as_many_as_are_held,
    infos_are_offered_or_refused,
    questions_are_answered_or_refused,
    infos_are_judged_or_memory_is_refused,
    long_answers_are_answered_or_refused,
    frames_are_taken_or_refused,
    buffers_are_given_back_after_a_large_frame,
    buffers_are_given_back_after_a_large_set,
}

const NOW: Moment = Moment::from_secs(100);

// Slots of directories that were dropped are used by others, on any thread, so tests that count
// allocations wait for each other.
fn alone() -> MutexGuard<'static, ()> {
    static ALONE: Mutex<()> = Mutex::new(());
    ALONE.lock().unwrap_or_else(PoisonError::into_inner)
}

type Call<P, A, T> = fn(&mut State<P>, A) -> Result<T, OutOfMemory>;

// Returns whether an allocation failed. If so, nothing has changed, and the call that is made again
// returns what the first would have returned.
fn is_refused<P: Pair, A: Clone, T: Debug + PartialEq>(
    plan: Refused,
    prepared: fn() -> State<P>,
    argument: &A,
    call: Call<P, A, T>,
) -> bool {
    let (mut ample, mut state) = (prepared(), prepared());
    let answer = call(&mut ample, argument.clone());
    assert!(answer.is_ok(), "{answer:?}");
    // Of another state, since queries leave longer buffers.
    let before = told(&prepared());
    let given = argument.clone();
    let (refused, count) = while_refused(plan, || call(&mut state, given));
    if count == 0 {
        assert_eq!(refused, answer, "{plan:?}");
        return false;
    }
    assert_eq!(refused, Err(OutOfMemory), "{plan:?}");
    assert_eq!(told(&state), before, "{plan:?}");
    assert_eq!(call(&mut state, argument.clone()), answer, "{plan:?}");
    assert_eq!(told(&state), told(&ample), "{plan:?}");
    true
}

// Fails each allocation in turn. There must be so many.
#[track_caller]
fn refuse_each<P: Pair, A: Clone, T: Debug + PartialEq>(
    requests: u64,
    prepared: fn() -> State<P>,
    argument: A,
    call: Call<P, A, T>,
) {
    for plan in [Refused::Only, Refused::From] {
        let places = 1..;
        let refused =
            places.take_while(|place| is_refused(plan(*place), prepared, &argument, call));
        assert_eq!(refused.count() as u64, requests);
    }
}

// Thirty peers, whose keys are longer than the initial buffer for results.
fn many<P: Pair>() -> State<P> {
    let numbers: Vec<u16> = (10..40).collect();
    retaining(2)
        .tracks(0, &numbers, &[1, 2])
        .tracks(1, &[1, 2], &numbers)
}

fn bootstrappers<P: Pair>() -> Vec<(P::Key, Ingress)> {
    let named = named_info::<P>(2, 0, "a.b").ingress;
    vec![(key::<P>(1), info::<P>(1, 0).ingress), (key::<P>(2), named)]
}

fn a_directory_is_made_or_refused<P: Pair>() {
    let _alone = alone();
    let mut setup = setup(9);
    setup.bootstrappers = bootstrappers::<P>();
    // More directories than lived at a time before. Each further one has a new slot for its dropped
    // reservations, and the list of slots, with capacity for 64, has to grow.
    let kept: Vec<_> = (0..64).map(|_| empty::<P>()).collect();
    let mut places = 1..;
    let made = places.find_map(|place| {
        let (made, refused) = while_refused(Refused::Only(place), || {
            Directory::init(&setup.bootstrappers, &setup.myself, config())
        });
        if refused == 0 {
            return Some((place, made.unwrap().tracked()));
        }
        assert_eq!(made.err(), Some(SetupError::OutOfMemory), "{place}");
        None
    });
    // The session, the bootstrappers, the local info, the buffer for results, the list of slots,
    // and a slot.
    assert_eq!(made, Some((1 + 6, 2)));
    drop(kept);
    // A node has copies of its namespace and its greeting, and another buffer for results, and
    // finds a slot.
    refuse_each::<P, _, _>(7, State::nothing, setup, State::make);
}

fn sets_are_taken_or_refused<P: Pair>() {
    let _alone = alone();
    let take = |state: &mut State<P>, (index, peers): (u64, TrackedPeers<P>)| {
        state.directory_mut().track(index, &peers)
    };
    // The keys, primary and secondary. No peer must be disconnected.
    refuse_each::<P, _, _>(2, empty, (0, peers(&[1, 2], &[3])), take);
    // There is capacity for the keys. The list of peers that must be disconnected has at most those
    // that are held.
    refuse_each::<P, _, _>(1, known, (1, peers(&[1, 7], &[11])), take);
    // No peer is held. The buffer for the keys of all thirty, as many as the library might return.
    let thirty = || empty().tracks(0, &(10..40).collect::<Vec<u16>>(), &[]);
    refuse_each::<P, _, _>(1, thirty, (1, peers(&[1], &[])), take);
}

fn grants_are_made_or_refused<P: Pair>() {
    let _alone = alone();
    refuse_each::<P, _, _>(1, new, 1, |state, number| state.listen(number, NOW));
    // The capacity for a dropped reservation, and for a name.
    refuse_each::<P, _, _>(2, introduced, 1, |state, number| state.dial(number, NOW));
    // The capacity for a name, which the first dial didn't need, is there for the second, which
    // needs it.
    let wanted = Metadata::Dialer(key::<P>(2), named_info::<P>(2, 0, "a.b").ingress);
    refuse_each::<P, _, _>(0, dialling, wanted, |state, wanted: Metadata<P>| {
        let is_granted = state.dial(2, NOW)?;
        let held = state.held().last().expect("it was granted");
        assert_eq!(held.metadata(), &wanted);
        Ok(is_granted)
    });
    // There is capacity for four, and all of them are held.
    let four = || {
        let numbers = [10, 11, 12, 13];
        let state = empty().tracks(0, &[10, 11, 12, 13, 14], &[]);
        numbers.into_iter().fold(state, State::listened)
    };
    refuse_each::<P, _, _>(1, four, 14, |state, number| state.listen(number, NOW));
    refuse_each::<P, _, _>(0, known, 5, |state, number| state.listen(number, NOW));
}

fn dropping_takes_no_memory<P: Pair>() {
    let _alone = alone();
    let mut state = new::<P>();
    let directory = state.directory_mut();
    let granted = [1, 2].map(|number| directory.listen(&key::<P>(number), NOW, Duration::ZERO));
    let (statuses, refused) = while_refused(Refused::From(1), || {
        drop(granted);
        [1, 2].map(|number| directory.status(&key::<P>(number)))
    });
    assert_eq!(statuses, [Some(p2p_directory::Status::Inert); 2]);
    assert_eq!(refused, 0);
}

fn there_is_room_for_as_many_as_are_held<P: Pair>() {
    let _alone = alone();
    let mut state = new::<P>();
    let directory = state.directory_mut();
    let mut listen = |round: u32| {
        let now = NOW.saturating_add(round * Duration::from_secs(10));
        let held = directory.listen(&key::<P>(1), now, Duration::ZERO);
        let held = held.expect("memory").expect("its cooldown is over");
        match round % 2 {
            0 => drop(held),
            _ => directory.release(held).expect("its own"),
        }
    };
    listen(0);
    let ((), refused) = while_refused(Refused::From(1), || (1..20).for_each(listen));
    assert_eq!(refused, 0);
}

fn infos_are_offered_or_refused<P: Pair>() {
    let _alone = alone();
    let infos = vec![info(3, 2000), named_info(5, 2000, "c.d"), info(1, 2000)];
    // The encoding of all infos.
    refuse_each::<P, _, _>(
        1,
        || introduced().tracks(1, &[1, 3, 5], &[]),
        infos,
        |state, infos: Vec<Info<P>>| state.directory_mut().update_peers(&infos),
    );
}

fn questions_are_answered_or_refused<P: Pair>() {
    let _alone = alone();
    refuse_each::<P, _, _>(1, known, (), |state, ()| state.directory().dialable(NOW));
    refuse_each::<P, _, _>(1, known, (), |state, ()| {
        state.directory().blocked_peers(NOW)
    });
    refuse_each::<P, _, _>(1, known, (), |state, ()| {
        state.directory().info(&key::<P>(2))
    });
    refuse_each::<P, _, _>(0, known, (), |state, ()| {
        state.directory().info(&key::<P>(1))
    });
    refuse_each::<P, _, _>(1, known, (), |state, ()| {
        state.directory().get_random_bit_vec(0)
    });
    refuse_each::<P, _, _>(1, known, (), |state, ()| state.node().ask(0));
    let everybody = || BitVec {
        index: 0,
        bits: vec![false; 4],
    };
    // Space for the result, the list, a name, and the frame: its prefix, and the infos after it.
    refuse_each::<P, _, _>(5, known, everybody(), |state, bits: BitVec| {
        state.node().reply_at_most(&bits, NOW, 1, 0)
    });
    let nobody = BitVec {
        index: 0,
        bits: vec![false; 4],
    };
    // Space for the result, the list, and a name: there is capacity for the encoding of so few bits.
    refuse_each::<P, _, _>(3, known, nobody, |state, bits: BitVec| {
        state.directory().infos(&bits, NOW)
    });
}

fn infos_are_judged_or_memory_is_refused<P: Pair>() {
    let _alone = alone();
    let infos = [info::<P>(1, 0), named_info(2, 0, "a.b")];
    let made = || Info::verifier(key::<P>(9), 2, Duration::ZERO, NAMESPACE);
    // Whether the creation fails. If not, the verifier fails once with an allocation, and then
    // succeeds.
    let is_refused = |plan| {
        let (verifier, refused) = while_refused(plan, made);
        if refused > 0 {
            assert_eq!(verifier.err(), Some(SetupError::OutOfMemory), "{plan:?}");
            return true;
        }
        let verifier = verifier.expect("memory");
        let judged = || verifier.validate(NOW, &infos, verify);
        let (answer, refused) = while_refused(Refused::Only(1), judged);
        assert_eq!((answer, refused), (Err(ValidateError::OutOfMemory), 1));
        assert_eq!(judged(), Ok(()));
        false
    };
    let count = (1..)
        .take_while(|nth| is_refused(Refused::Only(*nth)))
        .count();
    assert!(count > 0);
}

fn long_answers_are_answered_or_refused<P: Pair>() {
    let _alone = alone();
    // A longer buffer for results, and two lists.
    refuse_each::<P, _, _>(3, many, (), |state, ()| state.directory().get_peer_set(0));
    refuse_each::<P, _, _>(2, many, (), |state, ()| state.directory().all());
    // And four lists, one of which is empty.
    refuse_each::<P, _, _>(4, many, (), |state, ()| state.directory().latest_update());
}

fn frames_are_taken_or_refused<P: Pair>() {
    let _alone = alone();
    let take = |state: &mut State<P>, frame: Vec<u8>| state.receive(&frame, NOW);
    let greeting = Payload::Greeting(named_info::<P>(5, 2000, "c.d")).encode();
    refuse_each::<P, _, _>(1, new, greeting, take);
    let infos = vec![info::<P>(3, 2000), info(5, 2000)];
    refuse_each::<P, _, _>(1, known, Payload::Peers(infos.clone()).encode(), take);
    let bits = BitVec {
        index: 0,
        bits: vec![false; 4],
    };
    refuse_each::<P, _, _>(1, known, Payload::<P>::BitVec(bits).encode(), take);
    let data = |length| {
        let message = vec![7; length];
        Payload::<P>::Data(Data {
            channel: 1,
            message,
        })
        .encode()
    };
    refuse_each::<P, _, _>(0, known, data(100), take);
    refuse_each::<P, _, _>(0, known, vec![4], take);
    // In two steps: the questions and a verification result for each info.
    refuse_each::<P, _, _>(
        2,
        known,
        Payload::Peers(infos).encode(),
        |state, frame: Vec<u8>| {
            let questions = state.node().check(&frame, NOW)?;
            let judged = questions.judged([true; 2]).expect("a verdict for each");
            match state.node_mut().receive_judged(judged) {
                Ok(Received::Memory) => Err(OutOfMemory),
                received => Ok(received.map_err(|_| ())),
            }
        },
    );
}

fn buffers_are_given_back_after_a_large_frame<P: Pair>() {
    let _alone = alone();
    const LARGE: usize = 1 << 20;
    // The maximum capacity that a buffer keeps.
    const KEPT: isize = 64 << 10;
    let mut setup = setup::<P>(9);
    setup.payload.max_data_length = LARGE;
    let mut state = State::of(setup);
    let message = vec![7; LARGE];
    let frame = Payload::<P>::Data(Data {
        channel: 1,
        message,
    })
    .encode();
    let before = held();
    for _ in 0..2 {
        let received = state.receive(&frame, seconds(1)).unwrap();
        let Received::Data { message, .. } = received else {
            panic!("{received:?}");
        };
        assert_eq!(message.len(), LARGE);
    }
    let kept = held() - before;
    assert!(kept <= KEPT, "{kept} bytes");
    let greeting = Payload::Greeting(info::<P>(1, 1000)).encode();
    let greeted = state.receive(&greeting, seconds(1));
    assert_eq!(greeted, Ok(Received::Greeted(key::<P>(1))));
}

fn buffers_are_given_back_after_a_large_set<P: Pair>() {
    let _alone = alone();
    const KEPT: isize = 64 << 10;
    let numbers: Vec<u16> = (1..=4000).collect();
    let set = peers::<P>(&numbers, &[]);
    let mut state = empty();
    let before = held();
    let taken = state.directory_mut().track(0, &set.clone()).unwrap();
    assert!(taken.accepted().is_some());
    assert_eq!(state.directory().get_peer_set(0), Ok(Some(set)));
    // The returned set has the bytes of 4,000 keys, and so do the argument and the result.
    let kept = held() - before;
    assert!(kept <= KEPT, "{kept} bytes");
}
