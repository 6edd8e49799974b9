//! Network namespaces: one for each node, and one for all else, which a bridge connects.

use crate::Flags;
use crate::place::{Place, SUBNET};
use crate::process::terminate;
use p2p_node::sodium::stop_on_signals;
use std::env;
use std::fmt;
use std::io::ErrorKind;
use std::process::{Child, Command};
use std::sync::atomic::{AtomicBool, Ordering};
use std::thread;
use std::time::{Duration, Instant};

/// How many of 100 packets are lost on each way to and from a node.
const LOST: u64 = 2;

/// The time that a packet takes on each of these ways, where the kernel can delay packets.
const LATENCY: &str = "5ms";

/// A program of the kernel's packet filter. It draws 32 bits, and drops the packet (2) if the number
/// is below the bound that stands for `BOUND`, or else lets it pass (0).
const FILTER: &str = "4,32 0 0 4294963256,53 1 0 BOUND,6 0 0 2,6 0 0 0";

/// How long the run inside may take to end after a signal.
const PATIENCE: Duration = Duration::from_secs(10);

/// How packets are lost.
#[derive(Clone, Copy, Debug, PartialEq, Eq)]
enum PacketLoss {
    /// By the emulator of networks, which delays packets, too.
    Emulator,
    /// By a filter, since the kernel has no emulator.
    Filter,
    /// Not at all, since the kernel has neither.
    None,
}

impl PacketLoss {
    /// Each kind, the best one first.
    const ALL: [PacketLoss; 3] = [PacketLoss::Emulator, PacketLoss::Filter, PacketLoss::None];

    /// Begins to lose packets on their way out of a device or, by the filter, into it.
    fn begin(self, namespace: &str, device: &str) -> Result<(), String> {
        let tc = |words: &[&str]| {
            let words = words.iter().copied();
            call("tc", ["-n", namespace].into_iter().chain(words)).map(drop)
        };
        let of_device = ["add", "dev", device];
        match self {
            PacketLoss::Emulator => {
                let loss = format!("{LOST}%");
                let emulator = ["root", "netem", "delay", LATENCY, "loss", &loss];
                tc(&[&["qdisc"], &of_device[..], &emulator].concat())
            }
            PacketLoss::Filter => {
                let bound = (1_u64 << 32) * LOST / 100;
                let program = FILTER.replace("BOUND", &bound.to_string());
                let filter = ["ingress", "bpf", "da", "bytecode", &program];
                tc(&[&["qdisc"], &of_device[..], &["clsact"]].concat())?;
                tc(&[&["filter"], &of_device[..], &filter].concat())
            }
            PacketLoss::None => Ok(()),
        }
    }
}

impl fmt::Display for PacketLoss {
    fn fmt(&self, f: &mut fmt::Formatter<'_>) -> fmt::Result {
        match self {
            PacketLoss::Emulator => write!(
                f,
                "packets are lost by the kernel, {LOST} of 100 on each way, and take {LATENCY}"
            ),
            PacketLoss::Filter => write!(
                f,
                "the kernel has no netem: packets are lost by a filter, {LOST} of 100 on each way, \
                 and there is no latency"
            ),
            PacketLoss::None => f.write_str("the kernel has no netem, and no filter: no loss"),
        }
    }
}

/// Namespaces that are removed when they are dropped, with all processes in them.
#[derive(Debug)]
struct Namespaces {
    prefix: String,
    made: Vec<String>,
    loss: PacketLoss,
}

impl Namespaces {
    /// Makes the namespaces of so many nodes.
    fn new(prefix: &str, nodes: usize) -> Result<Namespaces, String> {
        for program in ["ip", "tc"] {
            call(program, ["-V"])?;
        }
        let mut namespaces = Namespaces {
            prefix: prefix.to_owned(),
            made: Vec::new(),
            loss: PacketLoss::None,
        };
        let place = Place::Namespaces(prefix.to_owned());
        let hub = format!("{prefix}-hub");
        namespaces.add(&hub).map_err(|why| {
            format!(
                "--namespaces needs the right to make network namespaces, as root has it: {why}"
            )
        })?;
        ip(&format!("-n {hub} link add bridge type bridge"))?;
        let address = place.of_proxies();
        ip(&format!("-n {hub} addr add {address}/{SUBNET} dev bridge"))?;
        ip(&format!("-n {hub} link set bridge up"))?;
        for number in 0..nodes {
            namespaces.add_node(&hub, number, &place)?;
        }
        Ok(namespaces)
    }

    /// Makes a namespace that has no device but loopback.
    fn add(&mut self, name: &str) -> Result<(), String> {
        ip(&format!("netns add {name}"))?;
        self.made.push(name.to_owned());
        ip(&format!("-n {name} link set lo up"))
    }

    /// Makes the namespace of a node, and connects it with the bridge. Neither device of the pair is
    /// ever in the namespace of the machine.
    fn add_node(&mut self, hub: &str, number: usize, place: &Place) -> Result<(), String> {
        let name = format!("{}-{number}", self.prefix);
        self.add(&name)?;
        let outer = format!("node{number}");
        ip(&format!(
            "-n {hub} link add {outer} type veth peer name eth0 netns {name}"
        ))?;
        ip(&format!("-n {hub} link set {outer} master bridge up"))?;
        let address = place.of_node(number);
        ip(&format!("-n {name} addr add {address}/{SUBNET} dev eth0"))?;
        ip(&format!("-n {name} link set eth0 up"))?;
        if number == 0 {
            let mut kinds = PacketLoss::ALL.into_iter();
            let works = |kind: &PacketLoss| kind.begin(hub, &outer).is_ok();
            self.loss = kinds.find(works).unwrap_or(PacketLoss::None);
        } else {
            self.loss.begin(hub, &outer)?;
        }
        self.loss.begin(&name, "eth0")
    }

    /// How many packets were lost. One that the kernel cuts only at the other end counts as one.
    fn lost_packets(&self) -> u64 {
        let lost = self.made.iter().map(|name| {
            // What can't be asked for any more isn't counted.
            let text = call("tc", ["-s", "-n", name, "qdisc", "show"]).unwrap_or_default();
            text.lines().filter_map(dropped).sum::<u64>()
        });
        lost.sum()
    }
}

/// How many packets were lost, if a line of `tc` says so.
fn dropped(line: &str) -> Option<u64> {
    let (_, rest) = line.split_once("(dropped ")?;
    rest.split(',').next()?.parse().ok()
}

impl Drop for Namespaces {
    fn drop(&mut self) {
        for name in &self.made {
            let pids = call("ip", ["netns", "pids", name]).unwrap_or_default();
            if !pids.is_empty() {
                // Those that have ended since need no signal.
                let _ = call("kill", ["-KILL"].into_iter().chain(pids.split_whitespace()));
            }
            if let Err(why) = ip(&format!("netns del {name}")) {
                eprintln!("testnet: {why}");
            }
        }
    }
}

/// Calls `ip` with the words of a line.
fn ip(line: &str) -> Result<(), String> {
    call("ip", line.split(' ')).map(drop)
}

/// What a program prints.
fn call<'w>(program: &str, words: impl IntoIterator<Item = &'w str>) -> Result<String, String> {
    let words: Vec<&str> = words.into_iter().collect();
    let output = Command::new(program).args(&words).output();
    let output = output.map_err(|error| match error.kind() {
        ErrorKind::NotFound => format!("{program} is not installed (Debian's package iproute2)"),
        _ => format!("{program}: {error}"),
    })?;
    if output.status.success() {
        return Ok(String::from_utf8_lossy(&output.stdout).into_owned());
    }
    let why = String::from_utf8_lossy(&output.stderr);
    Err(format!("{program} {}: {}", words.join(" "), why.trim()))
}

/// Makes namespaces, runs this program with the same words in that of the bridge, and removes them.
///
/// # Errors
///
/// Says what the system refused.
pub fn run(flags: &Flags, words: &[String]) -> Result<bool, String> {
    let stop = stop_on_signals().map_err(|error| format!("signals: {error}"))?;
    let prefix = format!("testnet-{}", std::process::id());
    let namespaces = Namespaces::new(&prefix, flags.nodes)?;
    println!("{} namespaces; {}", namespaces.made.len(), namespaces.loss);
    let program = env::current_exe().map_err(|error| error.to_string())?;
    let mut inside = Command::new("ip");
    inside
        .args(["netns", "exec", &format!("{prefix}-hub")])
        .arg(program)
        .args(words)
        .args(["--within", &prefix]);
    let inside = inside.spawn().map_err(|error| format!("ip: {error}"))?;
    let held = wait(inside, stop)?;
    let lost = namespaces.lost_packets();
    println!("{lost} packets were lost by the kernel");
    Ok(held)
}

/// Waits for the end of a process, and ends it at a signal. Returns whether it succeeded.
fn wait(mut inside: Child, stop: &AtomicBool) -> Result<bool, String> {
    let mut stopped: Option<Instant> = None;
    loop {
        if let Some(status) = inside.try_wait().map_err(|error| error.to_string())? {
            return Ok(status.success());
        }
        match stopped {
            None if stop.load(Ordering::Relaxed) => {
                terminate(inside.id());
                stopped = Some(Instant::now());
            }
            Some(begin) if begin.elapsed() > PATIENCE => {
                let _ = inside.kill();
            }
            _ => {}
        }
        thread::sleep(Duration::from_millis(50));
    }
}

#[cfg(test)]
mod tests {
    use super::*;

    #[test]
    fn reads_how_many_packets_were_lost() {
        let line = " Sent 43600 bytes 1008 pkt (dropped 311, overlimits 0 requeues 0) ";
        assert_eq!(dropped(line), Some(311));
        assert_eq!(dropped("qdisc clsact ffff: parent ffff:fff1"), None);
        assert_eq!(dropped(" backlog 0b 0p requeues 0"), None);
    }

    #[test]
    fn a_program_that_fails_says_why() {
        let failed = call("sh", ["-c", "echo no >&2; exit 1"]);
        assert_eq!(failed, Err("sh -c echo no >&2; exit 1: no".to_owned()));
        let missing = call("no-such-program", []).unwrap_err();
        assert!(missing.contains("not installed"), "{missing}");
    }
}
