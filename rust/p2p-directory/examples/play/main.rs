//! Lines that are typed to nodes: `echo 'track 0 1,2' | cargo run --example play`, or
//! `--check FILE ..`.
//!
//! The lines, their replies and the exit status are those of the program `play` (`docs/PLAY.md`),
//! without the toolchain. Frames have other bytes: a key has 32, the last 8 of which are the peer's
//! number, and a signature has 64. `decode` and `recode` accept a payload, an info and an ingress.

mod player;

use p2p_directory::Keys32_64;
use player::{Mode, Tally, play};
use std::env;
use std::fs::File;
use std::io::{self, BufReader, Write};
use std::process::ExitCode;

const HELP: &str = "play [--check] [FILE ..]: serves the lines of the files, or of standard input.\n\
                    docs/PLAY.md has all lines, words and settings.";

fn main() -> ExitCode {
    let words: Vec<String> = env::args().skip(1).collect();
    let mut out = io::stdout().lock();
    match follow(&words, &mut out) {
        Ok(true) => ExitCode::SUCCESS,
        Err(error) if error.kind() == io::ErrorKind::OutOfMemory => ExitCode::from(3),
        Ok(false) | Err(_) => ExitCode::FAILURE,
    }
}

// Whether all replies were as expected, and each line could be parsed.
fn follow(words: &[String], out: &mut impl Write) -> io::Result<bool> {
    let (mode, files) = match words {
        [word, files @ ..] if word == "--check" => (Mode::Checks, files),
        files => (Mode::Replies, files),
    };
    match files {
        [] => {
            let tally = play::<Keys32_64>(io::stdin().lock(), out, mode)?;
            report(out, mode, "", &tally)
        }
        [word] if word == "--help" => {
            writeln!(out, "{HELP}")?;
            Ok(true)
        }
        files => files
            .iter()
            .try_fold(true, |good, name| Ok(play_file(name, out, mode)? && good)),
    }
}

// Plays a file from new nodes.
fn play_file(name: &str, out: &mut impl Write, mode: Mode) -> io::Result<bool> {
    let Ok(file) = File::open(name) else {
        writeln!(out, "{name}: not readable, expected a file")?;
        return Ok(false);
    };
    let tally = play::<Keys32_64>(BufReader::new(file), out, mode)?;
    report(out, mode, &format!("{name}: "), &tally)
}

fn report(out: &mut impl Write, mode: Mode, of: &str, tally: &Tally) -> io::Result<bool> {
    if mode == Mode::Checks {
        writeln!(out, "{of}{tally}")?;
    }
    Ok(tally.is_good())
}
