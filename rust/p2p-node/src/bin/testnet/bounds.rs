//! The settings of a network, and the bounds that follow from them before it runs.

use std::fmt;
use std::fs;
use std::time::Duration;

/// The time between two grants of a peer.
pub const COOLDOWN: Duration = Duration::from_secs(1);

/// The time between two questions to a peer, and between two looks at the set.
pub const TICK: Duration = Duration::from_millis(200);

/// How long a peer may be silent.
pub const SILENCE: Duration = Duration::from_secs(3);

/// How long a dial and its handshake may take.
pub const HANDSHAKE: Duration = Duration::from_secs(2);

/// How many frames a peer may send at once, and in each further tick.
pub const FRAMES: (u64, u64) = (8, 4);

/// How many inbound handshakes a node has at a time.
pub const HANDSHAKES: u64 = 64;

/// How many times two nodes may fail to meet.
const ROUNDS: u32 = 12;

/// The parts of the bound on memory, in KiB: of a node without peers, of each peer and handshake,
/// and of frames of the maximum length.
const MEMORY: [u64; 3] = [24 << 10, 256, 8 << 10];

/// The bounds of a network.
#[derive(Clone, Debug)]
pub struct Bounds {
    /// By how much the bounds on times are longer, for the load of the machine.
    pub load: f64,
    /// The time from the end of the last fault until each node knows each newest info.
    pub knowledge: Duration,
    /// The time from a set without a peer until no frame passes to or from the peer.
    pub dropped: Duration,
    /// The time within which a node starts.
    pub start: Duration,
    /// The memory of a node, in KiB.
    pub memory: u64,
}

impl Bounds {
    /// The bounds of a network of so many peers.
    pub fn new(load: f64, peers: usize) -> Bounds {
        // A dial that fails begins a cooldown, to which a draw of up to as much is added. Of two
        // nodes that want to connect each round parts the draws.
        let round = 2 * COOLDOWN + TICK;
        // Loss needs no term: it ends with its weather, and a segment that was lost last either comes
        // within the silence, or its connection ends as a held one does.
        let knowledge = SILENCE + HANDSHAKE + ROUNDS * round;
        let [node, each, frames] = MEMORY;
        Bounds {
            load,
            knowledge: knowledge.mul_f64(load),
            dropped: (5 * TICK).mul_f64(load),
            start: Duration::from_secs(5).mul_f64(load),
            memory: node + each * (peers as u64 + HANDSHAKES) + frames,
        }
    }
}

impl fmt::Display for Bounds {
    fn fmt(&self, f: &mut fmt::Formatter<'_>) -> fmt::Result {
        let load = self.load;
        writeln!(
            f,
            "bounds, of which those on times are multiplied by {load:.1} for load:"
        )?;
        let (knowledge, dropped) = (self.knowledge.as_secs_f64(), self.dropped.as_secs_f64());
        writeln!(
            f,
            "  knowledge {knowledge:.1} s = {load:.1} * (silence {} + handshake {} + {ROUNDS} rounds of 2 cooldowns of {} and a tick of {})",
            SILENCE.as_secs_f64(),
            HANDSHAKE.as_secs_f64(),
            COOLDOWN.as_secs_f64(),
            TICK.as_secs_f64(),
        )?;
        writeln!(f, "  dropped   {dropped:.1} s = {load:.1} * 5 ticks")?;
        let [node, each, frames] = MEMORY;
        write!(
            f,
            "  memory    {} KiB = {node} + {each} for each peer and handshake + {frames} for frames",
            self.memory
        )
    }
}

/// By how much times are multiplied on this machine now: at least 4, and twice the processes that
/// want each processor.
pub fn measured_load() -> f64 {
    let text = fs::read_to_string("/proc/loadavg").unwrap_or_default();
    let average = text.split(' ').next().and_then(|word| word.parse().ok());
    let average: f64 = average.unwrap_or(0.0);
    let processors = std::thread::available_parallelism().map_or(1, usize::from);
    (2.0 * (1.0 + average) / processors as f64).clamp(4.0, 10.0)
}

#[cfg(test)]
mod tests {
    use super::*;

    #[test]
    fn the_bounds_are_those_of_the_documentation() {
        let bounds = Bounds::new(2.0, 42);
        // 2 * (3 + 2 + 12 * 2.2)
        assert_eq!(bounds.knowledge, Duration::from_millis(62_800));
        assert_eq!(bounds.dropped, Duration::from_secs(2));
        assert_eq!(bounds.memory, 59_904);
        assert!(measured_load() >= 4.0);
    }
}
