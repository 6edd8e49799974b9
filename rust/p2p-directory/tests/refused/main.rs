//! Each allocation fails in turn: what is returned then, what the state is afterwards, and how much
//! a call allocates.
//!
//! The library allocates from a heap of this test (`heap`). For N counted upwards until none fails,
//! the Nth allocation of a call fails, once alone and once with all later ones. The buffers of this
//! crate itself are Rust's: `tests/host_memory` fails those.

#[macro_use]
#[path = "../each_pair/mod.rs"]
mod each_pair;

mod asked;
mod bits;
mod bounds;
mod changes;
mod frames;
mod heap;
mod questions;
mod state;

use asked::questions;
use changes::changes;
use frames::{bad_keys, frames};
use heap::{Refused, held, while_refused};
use p2p_directory::OutOfMemory;
use p2p_directory::sized::Pair;
use questions::{quiet_answers, quiet_calls, told, told_at_the_end};
use state::{State, known};

tests_of_each_pair! {
    changes_are_made_or_refused,
    questions_are_answered_or_refused,
    frames_are_taken_or_refused,
    calls_that_take_no_memory_answer_with_none_left,
}

/// By how many bytes a key is longer than one of 32 where it is kept, before what may be aligned to
/// 16 bytes.
const fn longer_key<P: Pair>() -> usize {
    P::KEY_SIZE.next_multiple_of(16) - 32
}

/// By how many bytes an info is longer than one of such a key and a signature of 64 where it is
/// kept.
const fn longer_info<P: Pair>() -> usize {
    (P::KEY_SIZE + P::SIGNATURE_SIZE).next_multiple_of(8) - 96
}

/// A call, in a state.
struct Case<P: Pair> {
    name: &'static str,
    prepared: fn() -> State<P>,
    call: fn(&mut State<P>) -> Result<String, OutOfMemory>,
    /// The result with enough memory.
    answer: fn() -> String,
    /// How many allocations it makes then.
    requests: u64,
    /// The maximum number of bytes that it allocates at a time: a number for keys of 32 bytes and
    /// signatures of 64, and by how much the keys and infos among them are longer.
    bytes: usize,
}

impl<P: Pair> Case<P> {
    // The results of all queries after the call, and at the end, with enough memory.
    fn made(&self) -> [Vec<String>; 2] {
        let Case { name, bytes, .. } = self;
        let mut state = (self.prepared)();
        // As before a refusal: queries leave longer buffers, so that none is asked twice.
        told(&state);
        let (answer, asked) = while_refused(Refused::None, || (self.call)(&mut state));
        assert_eq!(answer, Ok((self.answer)()), "{name}");
        assert_eq!(asked.requests, self.requests, "{name}: {asked:?}");
        assert!(asked.bytes <= *bytes, "{name}: {asked:?}");
        [told(&state), told_at_the_end(state)]
    }

    // The results of the calls that don't allocate in this state, with enough memory.
    fn quiet(&self) -> Vec<String> {
        quiet_answers(&mut (self.prepared)())
    }

    // Returns whether an allocation failed. If so, nothing has changed, and the call that is made
    // again returns what the first would have returned.
    fn is_refused(&self, plan: Refused, after: &[Vec<String>; 2]) -> bool {
        let name = self.name;
        let mut state = (self.prepared)();
        let before = told(&state);
        let (answer, asked) = while_refused(plan, || (self.call)(&mut state));
        if asked.refused == 0 {
            assert_eq!(answer, Ok((self.answer)()), "{name}: {plan:?}");
            return false;
        }
        assert_eq!(answer, Err(OutOfMemory), "{name}: {plan:?}");
        assert_eq!(told(&state), before, "{name}: {plan:?}");
        let again = (self.call)(&mut state);
        assert_eq!(again, Ok((self.answer)()), "{name}: {plan:?}");
        assert_eq!(told(&state), after[0], "{name}: {plan:?}");
        assert_eq!(told_at_the_end(state), after[1], "{name}: {plan:?}");
        true
    }

    // After the failure, calls that don't allocate return what they always do, without any memory
    // left.
    fn is_quiet(&self, plan: Refused, quiet: &[String]) {
        let name = self.name;
        let mut state = (self.prepared)();
        let (answer, _asked) = while_refused(plan, || (self.call)(&mut state));
        assert_eq!(answer, Err(OutOfMemory), "{name}: {plan:?}");
        let (answers, asked) = while_refused(Refused::From(1), || quiet_answers(&mut state));
        assert_eq!(answers, quiet, "{name}: {plan:?}");
        assert_eq!(asked.requests, 0, "{name}: {plan:?}");
    }

    // Fails each allocation in turn, by such plans. Returns how many there were.
    fn refuses(&self, plan: fn(u64) -> Refused) -> u64 {
        let (after, quiet) = (self.made(), self.quiet());
        let before = held();
        for place in 1.. {
            let is_refused = self.is_refused(plan(place), &after);
            assert_eq!(held(), before, "{}: leaked at {place}", self.name);
            if !is_refused {
                return place - 1;
            }
            self.is_quiet(plan(place), &quiet);
        }
        unreachable!("some place is the last")
    }
}

fn refuse_each<P: Pair>(cases: &[Case<P>]) {
    for case in cases {
        for plan in [Refused::Only, Refused::From] {
            assert_eq!(case.refuses(plan), case.requests, "{}", case.name);
        }
    }
}

fn changes_are_made_or_refused<P: Pair>() {
    refuse_each(&changes::<P>());
}

fn questions_are_answered_or_refused<P: Pair>() {
    refuse_each(&questions::<P>());
}

fn frames_are_taken_or_refused<P: Pair>() {
    refuse_each(&frames::<P>());
    refuse_each(&bad_keys::<P>());
}

fn calls_that_take_no_memory_answer_with_none_left<P: Pair>() {
    let mut state = known::<P>();
    for quiet in quiet_calls() {
        let (answer, asked) = while_refused(Refused::From(1), || (quiet.call)(&mut state));
        assert_eq!(answer, (quiet.answer)(), "{}", quiet.name);
        assert_eq!(asked.requests, 0, "{}", quiet.name);
    }
}
