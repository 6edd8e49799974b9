//! The long and the short form of a run.

use crate::attack::Attack;
use crate::broken::{self, Scenario};
use crate::checks;
use crate::loss::Loss;
use crate::network::{Network, Options};
use crate::phases::{self, Lengths, Settled};
use crate::weather::Weather;
use crate::{Flags, Form};
use p2p_node::sodium::Sodium;
use std::time::{Duration, Instant};

/// The number of honest nodes of the short form.
const FEW: usize = 6;

/// The weather in which segments are lost.
const LOSSY: Weather = Weather::Lossy(Loss::FIFTH);

impl Lengths {
    /// How long the phases of a form are.
    fn of(form: Form) -> Lengths {
        let seconds = Duration::from_secs;
        match form {
            Form::Long => Lengths {
                parted: seconds(10),
                rough: seconds(20),
                targets: 6,
                sets: 12,
                memory: seconds(10),
            },
            Form::Short | Form::Broken => Lengths {
                parted: seconds(3),
                rough: seconds(5),
                targets: 2,
                sets: 3,
                memory: seconds(3),
            },
        }
    }
}

/// Runs all phases, and checks.
///
/// # Errors
///
/// Says what could not be run.
pub fn long(flags: &Flags) -> Result<bool, String> {
    let lengths = Lengths::of(Form::Long);
    let mut network = network(flags, flags.nodes, Attack::ALL.len())?;
    let mut settled = common(&mut network, &lengths)?;
    let weathers = [Weather::Rough, Weather::Cuts, LOSSY];
    settled.push(phases::disturb(&mut network, &weathers, lengths.rough)?);
    settled.push(phases::attack(
        &mut network,
        &Attack::ALL,
        lengths.targets,
        None,
    )?);
    settled.push(phases::starve(&mut network, lengths.memory)?);
    settled.push(phases::change(&mut network, lengths.sets)?);
    finish(network, &settled)
}

/// Runs some phases with few nodes, checks, and shows that two of the checks can fail.
///
/// # Errors
///
/// Says what could not be run.
pub fn short(flags: &Flags) -> Result<bool, String> {
    let lengths = Lengths::of(Form::Short);
    let mut network = network(flags, FEW, Attack::ALL.len())?;
    let mut settled = common(&mut network, &lengths)?;
    settled.push(phases::disturb(&mut network, &[LOSSY], lengths.rough)?);
    settled.push(phases::attack(
        &mut network,
        &Attack::ALL,
        lengths.targets,
        None,
    )?);
    settled.push(phases::leave_out(&mut network, &[FEW - 1])?);
    let held = finish(network, &settled)?;
    let shown = broken::all(flags, &[Scenario::BlocksAtRandom, Scenario::StolenKey])?;
    Ok(held && shown)
}

fn network(flags: &Flags, nodes: usize, attackers: usize) -> Result<Network, String> {
    let options = Options {
        folder: flags.folder.clone(),
        node: flags.node.clone(),
        replay: flags.replay.clone(),
        nodes,
        attackers,
        load: flags.load,
        place: flags.place.clone(),
        broken: None,
    };
    let sodium = Sodium::new().map_err(|error| error.to_string())?;
    let network = Network::new(options, sodium)?;
    println!("{nodes} nodes, {attackers} attackers\n{}", network.bounds);
    Ok(network)
}

/// The phases of both forms.
fn common(network: &mut Network, lengths: &Lengths) -> Result<Vec<Settled>, String> {
    Ok(vec![
        phases::start(network)?,
        phases::restart(network, true)?,
        phases::part(network, lengths.parted, true)?,
    ])
}

/// Ends the network, and checks it.
fn finish(mut network: Network, settled: &[Settled]) -> Result<bool, String> {
    network.end();
    let begin = Instant::now();
    let verdicts = checks::all(&network, settled)?;
    for verdict in &verdicts {
        println!("{verdict}");
    }
    println!(
        "{}; checked in {:.1} s",
        network.proxies.losses(),
        begin.elapsed().as_secs_f64()
    );
    Ok(verdicts.iter().all(|verdict| verdict.faults.is_empty()))
}
