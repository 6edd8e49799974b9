//! The program `testnet`: breaks networks of real nodes on purpose, and checks that they keep their
//! promises. `docs/TESTNET.md` of the repository describes it.

#![deny(unsafe_code)]

mod attack;
mod bounds;
mod broken;
mod checks;
mod clock;
mod ledger;
mod loss;
mod namespaces;
mod network;
mod phases;
mod place;
mod process;
mod proxy;
mod runs;
mod scan;
mod traffic;
mod weather;

use broken::Scenario;
use place::Place;
use std::env;
use std::path::PathBuf;
use std::process::ExitCode;

/// What `--help` prints.
const HELP: &str = "\
testnet: breaks a network of real nodes on purpose, and checks their promises

  testnet [FLAGS]           the long form
  testnet --short [FLAGS]   six nodes, about a minute, with two broken runs
  testnet --broken [FLAGS]  shows that each check fails where it must

  --node FILE         the program p2p-node                [next to this one]
  --broken-node FILE  p2p-node, built with the feature `broken`
  --replay FILE       the program p2p-replay
  --folder FOLDER     where files are written                    [in /tmp]
  --nodes COUNT       honest nodes of the long form                   [30]
  --namespaces        each node of the long form has a network namespace:
                      needs root, ip and tc
  --load FACTOR       by which bounds on times are longer       [measured]
  --keep              keeps the files
  --only NUMBER       of the broken runs this one alone, counted from 1
";

/// What the flags say.
#[derive(Clone, Debug)]
pub struct Flags {
    /// The form of the run.
    pub form: Form,
    /// The program `p2p-node`.
    pub node: PathBuf,
    /// The same, built with the feature `broken`.
    pub broken_node: PathBuf,
    /// The program `p2p-replay`.
    pub replay: PathBuf,
    /// The folder of files.
    pub folder: PathBuf,
    /// The number of honest nodes.
    pub nodes: usize,
    /// By how much bounds on times are longer.
    pub load: f64,
    /// Whether the files are kept.
    pub is_kept: bool,
    /// The number of the broken run that is made alone.
    pub only: Option<usize>,
    /// Whether namespaces are made for the nodes.
    pub makes_namespaces: bool,
    /// Where the nodes run.
    pub place: Place,
}

/// What is run.
#[derive(Clone, Copy, Debug, PartialEq, Eq)]
pub enum Form {
    /// All phases.
    Long,
    /// Some phases, and some broken runs.
    Short,
    /// Each broken run.
    Broken,
}

fn parse(words: &[String]) -> Result<Option<Flags>, String> {
    let name = format!("p2p-testnet-{}", std::process::id());
    let mut flags = Flags {
        form: Form::Long,
        node: PathBuf::from("p2p-node"),
        broken_node: PathBuf::from("p2p-node"),
        replay: PathBuf::from("p2p-replay"),
        folder: env::temp_dir().join(name),
        nodes: 30,
        load: bounds::measured_load(),
        is_kept: false,
        only: None,
        makes_namespaces: false,
        place: Place::Loopback,
    };
    let mut words = words.iter();
    while let Some(word) = words.next() {
        let mut value = || {
            words
                .next()
                .ok_or_else(|| format!("{word}: it has no value"))
        };
        match word.as_str() {
            "--help" => return Ok(None),
            "--short" => flags.form = Form::Short,
            "--broken" => flags.form = Form::Broken,
            "--keep" => flags.is_kept = true,
            "--namespaces" => flags.makes_namespaces = true,
            // The program is run so by itself, in namespaces that it has made.
            "--within" => flags.place = Place::Namespaces(value()?.clone()),
            "--node" => flags.node = value()?.into(),
            "--broken-node" => flags.broken_node = value()?.into(),
            "--replay" => flags.replay = value()?.into(),
            "--folder" => flags.folder = value()?.into(),
            "--nodes" => flags.nodes = number(word, value()?)?,
            "--only" => flags.only = Some(number(word, value()?)?),
            "--load" => flags.load = number(word, value()?)?,
            _ => return Err(format!("{word}: no such flag: see testnet --help")),
        }
    }
    if flags.makes_namespaces && flags.form != Form::Long {
        return Err("--namespaces: the long form alone has them".to_owned());
    }
    match flags.nodes {
        6..=200 if flags.load > 0.0 && flags.load.is_finite() => Ok(Some(flags)),
        _ => Err("--nodes: from 6 to 200; --load: more than 0".to_owned()),
    }
}

fn number<T: std::str::FromStr>(word: &str, text: &str) -> Result<T, String> {
    text.parse()
        .map_err(|_| format!("{word} {text}: not a number"))
}

/// The scenario of this number, or all of them.
fn scenarios(only: Option<usize>) -> Result<&'static [Scenario], String> {
    const ALL: &[Scenario] = &Scenario::ALL;
    let Some(number) = only else { return Ok(ALL) };
    let found = number
        .checked_sub(1)
        .and_then(|place| ALL.get(place..number));
    found.ok_or_else(|| format!("--only {number}: from 1 to {}", ALL.len()))
}

fn run() -> Result<bool, String> {
    let words: Vec<String> = env::args().skip(1).collect();
    let Some(flags) = parse(&words)? else {
        print!("{HELP}");
        return Ok(true);
    };
    // The run in them is one of this program, too.
    let is_outside = flags.makes_namespaces && flags.place == Place::Loopback;
    let held = match flags.form {
        Form::Long if is_outside => namespaces::run(&flags, &words),
        Form::Long => runs::long(&flags),
        Form::Short => runs::short(&flags),
        Form::Broken => broken::all(&flags, scenarios(flags.only)?),
    };
    if !flags.is_kept {
        // What isn't there needn't be removed.
        let _ = std::fs::remove_dir_all(&flags.folder);
    } else if !is_outside {
        println!("files: {}", flags.folder.display());
    }
    held
}

fn main() -> ExitCode {
    match run() {
        Ok(true) => ExitCode::SUCCESS,
        Ok(false) => ExitCode::FAILURE,
        Err(why) => {
            eprintln!("testnet: {why}");
            ExitCode::FAILURE
        }
    }
}
