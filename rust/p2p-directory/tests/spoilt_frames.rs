//! Mutated frames: the library and this crate's own decoder return the same value for each, or the
//! same error.

#[macro_use]
mod each_pair;
mod frames;
mod random;
mod seeds;
mod widened;

use frames::Frames;
use p2p_directory::sized::Pair;
use random::Draws;

tests_of_two_pairs! { both_decoders_read_the_same_of_spoilt_frames }

const FRAMES: u32 = 100_000;

fn both_decoders_read_the_same_of_spoilt_frames<P: Pair>() {
    let frames = seeds::frames::<P>();
    let mut read_by = Frames::<P>::new();
    let mut draws = Draws(7);
    let mut refused = 0;
    let mut read = [0; 4];
    for _ in 0..FRAMES {
        let chosen = draws.below(frames.len() as u64 + 1) as usize;
        let frame = match frames.get(chosen) {
            Some(frame) => draws.spoilt(frame),
            None => (0..draws.below(24)).map(|_| draws.byte()).collect(),
        };
        match read_by.compare(&frame) {
            Some(_) => read[usize::from(frame[0])] += 1,
            None => refused += 1,
        }
    }
    assert!(refused > FRAMES / 4, "{refused}");
    assert!(read.iter().all(|count| *count > FRAMES / 40), "{read:?}");
}
