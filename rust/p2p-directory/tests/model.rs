//! Random calls of a node, each result compared with that of a model.

mod calls;
#[macro_use]
mod each_pair;
mod random;

use calls::call::Call;
use calls::{MOST_CALLS, compare, shrunk};
use p2p_directory::sized::Pair;
use std::collections::{BTreeMap, BTreeSet};

tests_of_each_pair! { a_node_answers_as_the_model_does }

const RUNS: usize = 500;

/// More bytes than the calls of a list need.
const BYTES: usize = 64 * MOST_CALLS;

/// How many kinds of calls there are.
const KINDS: usize = 27;

// The name of a call, without its arguments.
fn name<P: Pair>(call: &Call<P>) -> String {
    let shown = format!("{call:?}");
    let end = shown.find(|letter: char| !letter.is_alphanumeric());
    shown[..end.unwrap_or(shown.len())].to_owned()
}

fn a_node_answers_as_the_model_does<P: Pair>() {
    let mut answers: BTreeMap<String, (usize, BTreeSet<String>)> = BTreeMap::new();
    for seed in 1..=RUNS {
        compare::<P>(&random::bytes(seed, BYTES), |call, answer| {
            let (count, different) = answers.entry(name(call)).or_default();
            *count += 1;
            different.insert(answer.to_owned());
        });
    }
    let made: usize = answers.values().map(|(count, _)| count).sum();
    assert_eq!((made, answers.len()), (RUNS * MOST_CALLS, KINDS));
    for (name, (count, different)) in answers {
        let least = if name == "Update" { 1 } else { 2 };
        assert!(
            count >= 1_000 && different.len() >= least,
            "{name}: {count}"
        );
    }
}

#[test]
fn what_a_difference_needs_is_left() {
    let letters: Vec<char> = "a list of calls, of which two matter".chars().collect();
    let has_them = |left: &[char]| {
        let of = left.iter().position(|letter| *letter == ',');
        of.is_some_and(|place| left[place..].contains(&'w'))
    };
    assert_eq!(shrunk(letters, has_them), [',', 'w']);
}
