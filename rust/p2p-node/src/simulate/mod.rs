//! A simulation of networks on virtual time: how gossip behaves where no test network reaches.
//!
//! Each simulated node is a [`Node`](p2p_directory::Node) of the crate, in a host of its own kind: it
//! dials once in each tick, peers that are drawn at random, and may end connections after some time.
//! `p2p-node run` dials as soon as it may, in the order of keys, and ends none: it comes to know
//! less. The network between them delivers frames after a latency, or loses them. Nothing depends on
//! a clock, so the same parameters give the same bytes.

mod behaviour;
mod chart;
mod connections;
mod cost;
mod events;
mod figures;
mod gossip;
mod hops;
mod ledger;
mod members;
mod network;
mod page;
mod parameters;
mod random;
mod record;
mod rows;
mod stored;

pub use behaviour::Lie;
pub use chart::{Axis, Chart, Scale, Series, escaped, svg};
pub use cost::Cost;
pub use ledger::Ledger;
pub use network::{Counts, Network};
pub use page::page;
pub use parameters::{Outputs, Parameters};
pub use random::Random;
pub use record::{Age, Grant, NodeState, Record, cells_csv, details_csv};
pub use rows::{COLUMNS, Row, csv};
pub use stored::{Stored, StoredRow, read_run, read_runs};

use std::fs;
use std::path::Path;
use std::time::Duration;

/// A run that has ended.
#[derive(Debug)]
pub struct Run {
    /// A row for each tick.
    pub rows: Vec<Row>,
    /// The state of each tick, if it was asked for.
    pub record: Option<Record>,
    /// How each node lies, if it does.
    pub lies: Vec<Option<Lie>>,
}

/// Runs a network for as many ticks as the parameters say.
///
/// # Errors
///
/// Says that there is no memory.
pub fn simulate(parameters: &Parameters, is_recorded: bool) -> Result<Run, String> {
    let mut network = Network::new(parameters.clone());
    network.record = is_recorded.then(|| Record::new(parameters.nodes));
    let mut rows = Vec::new();
    for tick in 1..=parameters.ticks {
        let end = parameters.tick.as_nanos() * u128::from(tick);
        let end = u64::try_from(end).map_err(|_| "the run is longer than 500 years".to_owned())?;
        network.run_until(Duration::from_nanos(end))?;
        rows.push(Row::take(&mut network, tick));
        record::record_tick(&mut network)?;
    }
    Ok(Run {
        rows,
        record: network.record.take(),
        lies: network.lies(),
    })
}

/// Runs the simulation that these words ask for.
///
/// # Errors
///
/// Says why the words ask for none, or what can't be written.
pub fn run(words: &[String]) -> Result<(), String> {
    if words.iter().any(|word| word == "--help" || word == "-h") {
        print!("{}", parameters::HELP);
        return Ok(());
    }
    if let Some((word, rest)) = words.split_first()
        && word == "draw"
    {
        return match rest {
            [folder] => figures::draw(Path::new(folder)),
            _ => Err("draw takes one folder: see p2p-node simulate --help".to_owned()),
        };
    }
    let (parameters, outputs) = Parameters::read(words)?;
    let run = simulate(&parameters, outputs.are_drawn())?;
    write_outputs(&parameters, &outputs, &run)?;
    if outputs.cost {
        match Cost::read() {
            Some(cost) => eprintln!("{cost}"),
            None => return Err("the system doesn't tell the cost of the run".to_owned()),
        }
    }
    Ok(())
}

fn write_outputs(parameters: &Parameters, outputs: &Outputs, run: &Run) -> Result<(), String> {
    let table = csv(parameters, &run.rows);
    match &outputs.csv {
        Some(path) => write(path, &table)?,
        None => print!("{table}"),
    }
    let Some(record) = &run.record else {
        return Ok(());
    };
    if let Some(path) = &outputs.cells {
        write(path, &cells_csv(record))?;
    }
    if let Some(path) = &outputs.details {
        write(path, &details_csv(record))?;
    }
    if let Some(path) = &outputs.html {
        write(path, &page(parameters, &run.lies, &run.rows, record))?;
    }
    Ok(())
}

fn write(path: &Path, text: &str) -> Result<(), String> {
    fs::write(path, text).map_err(|error| format!("{}: {error}", path.display()))
}
