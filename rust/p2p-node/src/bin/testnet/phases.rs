//! What is done to a network.

use crate::attack::{Attack, Knowledge, make};
use crate::checks::knowledge::{self, Missing};
use crate::ledger::Ledger;
use crate::network::Network;
use crate::weather::Weather;
use p2p_directory::{Info, Key};
use p2p_node::identity::Identity;
use p2p_node::sodium::Sodium;
use std::collections::BTreeSet;
use std::sync::atomic::{AtomicUsize, Ordering};
use std::thread;
use std::time::Duration;

/// How long the network runs under each fault.
#[derive(Clone, Copy, Debug)]
pub struct Lengths {
    /// While it is cut in two.
    pub parted: Duration,
    /// While connections are slow, held or refused, are cut, or lose segments, each.
    pub rough: Duration,
    /// How many nodes each attacker attacks.
    pub targets: usize,
    /// How many sets are written, one in each second.
    pub sets: usize,
    /// How long the memory of nodes is bounded.
    pub memory: Duration,
}

/// What a phase found.
#[derive(Clone, Debug)]
pub struct Settled {
    /// The phase.
    pub phase: &'static str,
    /// How long after its last fault each node knew each newest info, if that was within the bound.
    pub after: Option<Duration>,
    /// What was missing at the end of the bound.
    pub missing: Vec<Missing>,
}

/// Waits until each node knows the newest infos.
pub fn settle(network: &mut Network, phase: &'static str) -> Settled {
    let within = network.bounds.knowledge;
    let after = network.wait_for(within, |network| knowledge::missing(network).is_empty());
    let missing = match after {
        Some(_) => Vec::new(),
        None => knowledge::missing(network),
    };
    let bound = within.as_secs_f64();
    match after {
        Some(after) => {
            let after = after.as_secs_f64();
            println!("{phase}: all is known after {after:.1} s, of {bound:.1} s");
        }
        None => println!(
            "{phase}: after {bound:.1} s {} infos are missing",
            missing.len()
        ),
    }
    Settled {
        phase,
        after,
        missing,
    }
}

/// Starts all nodes, of which each knows the first or the second.
///
/// # Errors
///
/// Says which node doesn't start.
pub fn start(network: &mut Network) -> Result<Settled, String> {
    for number in 0..network.members.len() {
        network.start(number, None)?;
    }
    Ok(settle(network, "(a) start"))
}

/// Kills every third node, and starts it anew, unless they are to stay dead.
///
/// # Errors
///
/// Says which node doesn't start.
pub fn restart(network: &mut Network, comes_back: bool) -> Result<Settled, String> {
    let killed: Vec<usize> = (0..network.members.len()).step_by(3).collect();
    for number in &killed {
        network.kill(*number);
    }
    network.wait(Duration::from_secs(1));
    if comes_back {
        for number in &killed {
            network.start(*number, None)?;
        }
    }
    Ok(settle(network, "(b) restart"))
}

/// Cuts the network in two, in each half starts a node anew, and joins them, unless they are to
/// stay apart.
///
/// # Errors
///
/// Says which node doesn't start.
pub fn part(network: &mut Network, time: Duration, joins: bool) -> Result<Settled, String> {
    let half = network.members.len() / 2;
    let keys: BTreeSet<Key> = network
        .members
        .iter()
        .take(half)
        .map(|member| member.key)
        .collect();
    network.proxies.set_weather(Weather::Halves(keys));
    for number in [half - 1, half] {
        network.kill(number);
        network.start(number, None)?;
    }
    network.wait(time);
    let missing = knowledge::missing(network).len();
    println!("    while it is cut {missing} infos are missing");
    if joins {
        network.proxies.set_weather(Weather::Clear);
    }
    Ok(settle(network, "(c) halves"))
}

/// Lets the network have each of these kinds of weather for so long. In each one every fifth node is
/// started anew, so that there are newer infos.
///
/// # Errors
///
/// Says which node doesn't start.
pub fn disturb(
    network: &mut Network,
    weathers: &[Weather],
    time: Duration,
) -> Result<Settled, String> {
    for (step, weather) in weathers.iter().enumerate() {
        network.proxies.set_weather(weather.clone());
        let keys: Vec<Key> = network.members.iter().map(|member| member.key).collect();
        // What is connected has no faults, so it is made to connect anew.
        keys.iter().for_each(|key| network.proxies.disconnect(key));
        network.wait(time.mul_f64(0.8));
        for number in (step..keys.len()).step_by(5) {
            network.kill(number);
            network.start(number, None)?;
        }
        network.wait(time.mul_f64(0.2));
        let missing = knowledge::missing(network).len();
        println!("    {missing} infos are missing under these faults");
    }
    network.proxies.set_weather(Weather::Clear);
    let faults = network.proxies.faults();
    println!("    {faults} connections were refused, slowed, held or cut");
    println!("    {}", network.proxies.losses());
    Ok(settle(network, "(d) bad connections"))
}

/// Makes these attacks, each by an attacker of its own, and then starts a node anew. The keys of a
/// node may have been stolen.
///
/// # Errors
///
/// Says which attack could not be made on any node.
pub fn attack(
    network: &mut Network,
    attacks: &[Attack],
    targets: usize,
    stolen: Option<&Identity>,
) -> Result<Settled, String> {
    let sodium = Sodium::new().map_err(|error| error.to_string())?;
    let old = replaced(network);
    let set = (network.latest_index(), network.largest());
    let members = network.members.iter();
    let places: Vec<_> = members
        .map(|member| (member.key, member.proxy.address))
        .collect();
    // The attacker of a number attacks so many nodes from the next one on.
    let known = |number: usize, step: usize| {
        let place = number + 1 + step;
        let [target, other] = [place, place + 1].map(|place| places[place % places.len()]);
        let other = stolen.map_or(other.0, Identity::public_key);
        Knowledge {
            sodium,
            target,
            other: (other, stolen),
            set,
            old: &old,
        }
    };
    let made = launch(network, attacks, targets, known);
    report(attacks, &made, targets)?;
    // Attackers have told infos of all kinds: a newer one has to arrive all the same.
    let last = network.members.len() - 1;
    network.kill(last);
    network.start(last, None)?;
    Ok(settle(network, "(e) attackers"))
}

/// Makes each attack by a thread of its own, and returns how often each was made. The closure says
/// what the attacker of a number knows when it attacks the first node, the second one and so on.
fn launch<'k>(
    network: &mut Network,
    attacks: &[Attack],
    targets: usize,
    known: impl Fn(usize, usize) -> Knowledge<'k> + Sync,
) -> Vec<AtomicUsize> {
    let made: Vec<AtomicUsize> = attacks.iter().map(|_| AtomicUsize::new(0)).collect();
    let within = network.bounds.start;
    let attackers = std::mem::take(&mut network.attackers);
    thread::scope(|scope| {
        let mut threads = Vec::new();
        let each = attacks.iter().zip(&attackers).zip(&made);
        for (number, ((attack, identity), made)) in each.enumerate() {
            let known = &known;
            threads.push(scope.spawn(move || {
                for step in 0..targets {
                    if make(*attack, identity, &known(number, step), within).is_ok() {
                        made.fetch_add(1, Ordering::Relaxed);
                    }
                }
            }));
        }
        while threads.iter().any(|thread| !thread.is_finished()) {
            network.wait(Duration::from_millis(100));
        }
    });
    network.attackers = attackers;
    made
}

/// Says how often each attack was made, and fails if one was never made.
fn report(attacks: &[Attack], made: &[AtomicUsize], targets: usize) -> Result<(), String> {
    for (attack, made) in attacks.iter().zip(made) {
        let made = made.load(Ordering::Relaxed);
        println!("    {attack}: made {made} of {targets} times");
        if made == 0 {
            return Err(format!("the attack '{attack}' could not be made"));
        }
    }
    Ok(())
}

/// Infos that honest nodes sent, and their owners have replaced since.
fn replaced(network: &Network) -> Vec<Info> {
    let traffic = network.proxies.traffic();
    let infos = traffic
        .shared
        .iter()
        .filter_map(|info| Info::decode(info).ok());
    let is_old = |info: &Info| {
        let mut members = network.members.iter();
        let owner = members.find(|member| member.key == info.public_key);
        let own = owner.and_then(|owner| owner.ledger()?.own());
        own.is_some_and(|(_, timestamp, _)| info.timestamp < *timestamp)
    };
    infos.filter(is_old).collect()
}

/// Writes another set in each second, moves two nodes to other addresses, and leaves the last node
/// out in the end.
///
/// # Errors
///
/// Says which node doesn't start.
pub fn change(network: &mut Network, sets: usize) -> Result<Settled, String> {
    let count = network.members.len();
    let mut moves = [2, 3].into_iter().filter(|number| *number < count);
    for step in 0..sets {
        let out: Vec<usize> = (2..count)
            .filter(|number| (number + step) % 4 == 0)
            .collect();
        network.write_set(&out)?;
        if step % 3 == 1
            && let Some(number) = moves.next()
        {
            network.kill(number);
            network.move_elsewhere(number)?;
            network.start(number, None)?;
        }
        network.wait(Duration::from_secs(1));
    }
    leave_out(network, &[count - 1])
}

/// Writes a set without these nodes, and lets pass the time after which they are disconnected.
///
/// # Errors
///
/// That of the system.
pub fn leave_out(network: &mut Network, out: &[usize]) -> Result<Settled, String> {
    network.write_set(out)?;
    let settled = settle(network, "(f) sets and addresses");
    let time = network.bounds.dropped + Duration::from_secs(2);
    network.wait(time);
    Ok(settled)
}

/// How much virtual memory a node gets, in KiB: one has room for the threads of some peers, and the
/// other for hardly more than its start.
const LITTLE: [(usize, u64); 2] = [(1, 24_000), (4, 10_000)];

/// Starts two nodes anew with little memory, lets them go on or end, and then starts them anew as
/// before.
///
/// # Errors
///
/// Says which node doesn't start.
pub fn starve(network: &mut Network, time: Duration) -> Result<Settled, String> {
    for (number, limit) in LITTLE {
        network.kill(number);
        let listens = network.start(number, Some(limit))?;
        let word = if listens { "starts" } else { "can't start" };
        println!("    node {number} gets {limit} KiB, and {word}");
    }
    network.wait(time);
    for (number, _) in LITTLE {
        let Some(member) = network.members.get(number) else {
            continue;
        };
        let (connected, refused) = member.ledger().map_or((0, 0), connections);
        let word = if member.process.is_some() {
            "goes on"
        } else {
            "has ended"
        };
        println!(
            "    node {number} {word}: {connected} peers are connected, {refused} grants led to nothing"
        );
        network.kill(number);
        network.start(number, None)?;
    }
    Ok(settle(network, "(g) memory"))
}

/// How many connections a ledger says are open, and how many grants led to none.
fn connections(ledger: &Ledger) -> (usize, usize) {
    let count = |name| ledger.of(name).count();
    let open = count("connected").saturating_sub(count("disconnected"));
    (open, count("not_connected"))
}
