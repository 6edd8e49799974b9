//! How long calls take from Rust.
//!
//! - `SCENARIO N SAMPLES` measures a call so often, with N peers. It prints the minimum and the
//!   median in nanoseconds, and how much was done. A further word is the size of the keys in bytes:
//!   32 unless it is 33, 48 or 96.
//! - `times` prints how the times of some calls grow with sets and with blocks.
//! - Without a word, each call is made with few peers, and what was done is printed.
//!
//! `cargo bench --bench timing -- SCENARIO N SAMPLES`. The program `timing` of the repository has
//! the same words, for what no export reaches.

use std::env;
use std::error::Error;
use std::process::ExitCode;

mod measured;
mod times;

use p2p_directory::Keys32_64;
use p2p_directory::keys33_64::Keys33_64;
use p2p_directory::keys48_96::Keys48_96;
use p2p_directory::keys96_48::Keys96_48;
use times::Times;

type Outcome<T> = Result<T, Box<dyn Error>>;

/// The measurements with keys of one pair of sizes.
struct Measured {
    key_size: usize,
    measure_few: fn() -> Outcome<()>,
    measure_growth: fn() -> Outcome<()>,
    times_of: fn(&str, usize, usize) -> Outcome<Times>,
}

const PAIRS: [Measured; 4] = [
    measured::of::<Keys32_64>(),
    measured::of::<Keys33_64>(),
    measured::of::<Keys48_96>(),
    measured::of::<Keys96_48>(),
];

fn measure(words: &[&str]) -> Outcome<()> {
    let (words, size) = match words {
        [scenario @ .., size] if scenario.len() == 3 => (scenario, size.parse()?),
        _ => (words, 32),
    };
    let mut pairs = PAIRS.iter();
    let pair = pairs
        .find(|pair| pair.key_size == size)
        .ok_or("keys have 32, 33, 48 or 96 bytes")?;
    match words {
        [] => (pair.measure_few)(),
        ["times"] => (pair.measure_growth)(),
        [name, count, samples] => {
            let times = (pair.times_of)(name, count.parse()?, samples.parse()?)?;
            println!("{times}");
            Ok(())
        }
        _ => Err("the words are: SCENARIO N SAMPLES [SIZE], or times".into()),
    }
}

fn main() -> ExitCode {
    let words: Vec<String> = env::args().skip(1).collect();
    // `cargo bench` adds a word of its own.
    let words: Vec<&str> = words.iter().map(String::as_str).collect();
    let words: Vec<&str> = words
        .into_iter()
        .filter(|word| *word != "--bench")
        .collect();
    match measure(&words) {
        Ok(()) => ExitCode::SUCCESS,
        Err(error) => {
            eprintln!("{error}");
            ExitCode::FAILURE
        }
    }
}
