//! The program `p2p-node`.

#![deny(unsafe_code)]

use p2p_node::identity::Identity;
use p2p_node::settings::{self, Settings};
use p2p_node::sodium::Sodium;
use p2p_node::{node, simulate};
use std::env;
use std::io::{self, Write};
use std::path::Path;
use std::process::ExitCode;

/// What `--help` prints.
const HELP: &str = "\
p2p-node: a node whose peers find each other by signed gossip

WARNING: frames after the handshake are neither encrypted nor authenticated.
Run it in networks that you trust.

  p2p-node key FILE        makes a secret key, and prints the public one
  p2p-node run FLAGS       runs a node; see p2p-node run --help
  p2p-node simulate FLAGS  simulates a network; see p2p-node simulate --help
";

fn perform(words: &[String]) -> Result<(), String> {
    match words.split_first() {
        None => Err("no word: see p2p-node --help".to_owned()),
        Some((word, rest)) => match word.as_str() {
            "run" => run(rest),
            "key" => create_key(rest),
            "simulate" => simulate::run(rest),
            "--help" | "-h" => print(HELP),
            _ => Err(format!("unknown word {word}: see p2p-node --help")),
        },
    }
}

fn print(text: &str) -> Result<(), String> {
    let printed = io::stdout().write_all(text.as_bytes());
    printed.map_err(|error| format!("the standard output: {error}"))
}

fn run(words: &[String]) -> Result<(), String> {
    match Settings::parse(words)? {
        Some(settings) => node::run(settings),
        None => print(settings::HELP),
    }
}

fn create_key(words: &[String]) -> Result<(), String> {
    let [path] = words else {
        return Err("key: it takes one word, the FILE to create".to_owned());
    };
    let sodium = Sodium::new().map_err(|error| error.to_string())?;
    let identity = Identity::create(sodium, Path::new(path))?;
    print(&format!("{}\n", identity.public_key()))
}

fn main() -> ExitCode {
    let words: Vec<String> = env::args().skip(1).collect();
    match perform(&words) {
        Ok(()) => ExitCode::SUCCESS,
        Err(why) => {
            // Nobody may read it.
            let _ = writeln!(io::stderr(), "p2p-node: {why}");
            ExitCode::FAILURE
        }
    }
}
