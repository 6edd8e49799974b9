//! Each file of the corpus that fuzzing found, played as the fuzzer plays it.

mod calls;
#[macro_use]
mod each_pair;
mod frames;
mod random;
mod seeds;
mod valgrind;
mod widened;

use frames::Frames;
use p2p_directory::sized::Pair;
use std::io::{self, Write};
use std::path::{Path, PathBuf};
use std::{env, fs};

tests_of_two_pairs! {
    each_frame_is_read_alike,
    each_list_of_calls_is_answered_as_by_the_model,
    the_corpus_is_small,
    valgrind_finds_nothing,
    #[ignore = "it writes files"]
    writes_seeds,
}

const CORPUS: &str = concat!(env!("CARGO_MANIFEST_DIR"), "/tests/corpus");

/// The maximum number of files, and the maximum length of each in bytes.
const MOST_FILES: usize = 200;
const MOST_BYTES: usize = 1024;

/// The name of a target with the pair of sizes.
fn of_pair<P: Pair>(target: &str) -> String {
    match (P::KEY_SIZE, P::SIGNATURE_SIZE) {
        (32, 64) => target.to_owned(),
        (key, signature) => format!("{target}{key}_{signature}"),
    }
}

/// Whether this package is in a clone of the repository, which has the corpus: what is packed has
/// not. If it isn't, this is printed to standard error, since the output of a test that passes isn't
/// shown.
fn is_in_a_clone(test: &str) -> bool {
    let is = Path::new(CORPUS).is_dir();
    if !is {
        let said = format!("{test} is left out: it reads files of the repository");
        writeln!(io::stderr(), "{said}").expect("standard error");
    }
    is
}

/// The contents of the files of a target, in the order of their names.
fn corpus<P: Pair>(target: &str) -> Vec<(PathBuf, Vec<u8>)> {
    let entries = fs::read_dir(Path::new(CORPUS).join(of_pair::<P>(target))).expect("a folder");
    let mut paths: Vec<PathBuf> = entries.map(|entry| entry.expect("a file").path()).collect();
    paths.sort();
    let read = |path: PathBuf| {
        let bytes = fs::read(&path).expect("a file");
        (path, bytes)
    };
    paths.into_iter().map(read).collect()
}

fn each_frame_is_read_alike<P: Pair>() {
    if !is_in_a_clone("each_frame_is_read_alike") {
        return;
    }
    let frames = corpus::<P>("frame");
    let mut read_by = Frames::<P>::new();
    let mut read = [0; 4];
    let mut refused = 0;
    for (path, frame) in &frames {
        println!("{}", path.display());
        match read_by.compare(frame) {
            Some(_) => read[usize::from(frame[0])] += 1,
            None => refused += 1,
        }
    }
    println!("{} frames", frames.len());
    assert!(
        refused > 0 && read.iter().all(|count| *count > 0),
        "{refused}, {read:?}"
    );
}

fn each_list_of_calls_is_answered_as_by_the_model<P: Pair>() {
    if !is_in_a_clone("each_list_of_calls_is_answered_as_by_the_model") {
        return;
    }
    let lists = corpus::<P>("calls");
    let mut made = 0;
    for (path, bytes) in &lists {
        println!("{}", path.display());
        calls::compare::<P>(bytes, |_, _| made += 1);
    }
    println!("{made} calls in {} lists", lists.len());
    assert!(made > 0);
}

fn the_corpus_is_small<P: Pair>() {
    if !is_in_a_clone("the_corpus_is_small") {
        return;
    }
    let files = [corpus::<P>("frame"), corpus::<P>("calls")].concat();
    assert!(files.len() <= MOST_FILES, "{}", files.len());
    for (path, bytes) in files {
        assert!(bytes.len() <= MOST_BYTES, "{}", path.display());
    }
}

fn valgrind_finds_nothing<P: Pair>() {
    if !is_in_a_clone("valgrind_finds_nothing") {
        return;
    }
    valgrind::finds_nothing::<P>(&[
        "each_frame_is_read_alike",
        "each_list_of_calls_is_answered_as_by_the_model",
    ]);
}

/// Writes the initial corpus for fuzzing into the folder that `FUZZ_SEEDS` names, for
/// `tools/fuzz.sh`.
fn writes_seeds<P: Pair>() {
    let folder = PathBuf::from(env::var_os("FUZZ_SEEDS").expect("a folder"));
    let lists = (1..=32)
        .map(|seed| random::bytes(seed, MOST_BYTES))
        .collect();
    for (target, seeds) in [("frame", seeds::frames::<P>()), ("calls", lists)] {
        let folder = folder.join(of_pair::<P>(target));
        fs::create_dir_all(&folder).expect("a folder");
        for (place, seed) in seeds.iter().enumerate() {
            fs::write(folder.join(place.to_string()), seed).expect("a file");
        }
    }
}
