//! A node of this crate and a model of maps and lists: the results of both are compared for each of
//! the calls that some bytes describe. If one differs, the calls that are printed are reduced to
//! those that the difference needs.

// Each program of tests uses a part of these.
#[allow(dead_code)]
pub mod call;
mod draws;
#[allow(dead_code)]
pub mod model;
#[allow(dead_code)]
mod real;

use call::Call;
use draws::Draws;
use model::Model;
#[cfg(feature = "record")]
use p2p_directory::sized::Node;
use p2p_directory::sized::testing::verify;
use p2p_directory::sized::{Info, Pair, Setup};
use real::Real;

/// The maximum number of calls in a list.
#[allow(dead_code)]
pub const MOST_CALLS: usize = 200;

/// A call whose result differs from that of the model.
#[allow(dead_code)]
#[derive(Debug)]
struct Difference {
    place: usize,
    answer: String,
    wanted: String,
}

/// Makes the calls that the bytes describe, and passes each with its result to the closure. Panics
/// if a result differs from that of the model.
#[allow(dead_code)]
pub fn compare<P: Pair>(bytes: &[u8], tell: impl FnMut(&Call<P>, &str)) {
    let mut draws = Draws::<P>::of(bytes);
    let setup = draws.setup();
    let calls = draws.calls(MOST_CALLS);
    if difference(&setup, &calls, tell).is_some() {
        fail(&setup, calls);
    }
}

/// Makes the calls that the bytes describe on a node that is made with their setup.
#[cfg(feature = "record")]
#[allow(dead_code)]
pub fn make<P: Pair>(bytes: &[u8], made: impl FnOnce(&Setup<P>) -> Node<P>) -> Setup<P> {
    let mut draws = Draws::<P>::of(bytes);
    let setup = draws.setup();
    let mut real = Real::of(made(&setup), &setup);
    for call in draws.calls(MOST_CALLS) {
        real.answer(&call);
    }
    setup
}

/// The first call whose result differs. Passes each call with its result to the closure.
#[allow(dead_code)]
fn difference<P: Pair>(
    setup: &Setup<P>,
    calls: &[Call<P>],
    mut tell: impl FnMut(&Call<P>, &str),
) -> Option<Difference> {
    let mut real = Real::new(setup.clone());
    let mut model = Model::new(setup.clone());
    let is_valid = |_: usize, info: &Info<P>| info.verify(&setup.namespace, verify);
    calls.iter().enumerate().find_map(|(place, call)| {
        let answer = real.answer(call);
        let wanted = model.answer(call, &is_valid);
        tell(call, &answer);
        (answer != wanted).then_some(Difference {
            place,
            answer,
            wanted,
        })
    })
}

/// The calls without those that aren't needed for the failure.
#[allow(dead_code)]
pub fn shrunk<T: Clone>(mut calls: Vec<T>, is_seen: impl Fn(&[T]) -> bool) -> Vec<T> {
    let mut length = usize::MAX;
    while calls.len() < length {
        length = calls.len();
        for place in (0..length).rev() {
            let mut fewer = calls.clone();
            fewer.remove(place);
            if is_seen(&fewer) {
                calls = fewer;
            }
        }
    }
    calls
}

/// Panics with the reduced list of calls, one of which has a different result in the model.
#[allow(dead_code)]
fn fail<P: Pair>(setup: &Setup<P>, calls: Vec<Call<P>>) -> ! {
    let left = shrunk(calls, |calls| difference(setup, calls, |_, _| ()).is_some());
    let Difference {
        place,
        answer,
        wanted,
    } = difference(setup, &left, |_, _| ()).expect("a difference is left");
    panic!("call {place} of these is answered {answer}, wanted is {wanted}: {left:#?}\n{setup:#?}")
}
