//! What a run took of the machine, as Linux tells it.

use std::fmt;
use std::fs;

/// The clock ticks of a second in `/proc`, which are the same on all processors.
const CLOCK: f64 = 100.0;

/// The processor time and the greatest memory of this process so far.
#[derive(Clone, Copy, Debug, PartialEq)]
pub struct Cost {
    /// Seconds of a processor. Other processes that run meanwhile count little.
    pub seconds: f64,
    /// The greatest memory, in megabytes.
    pub megabytes: u64,
}

impl Cost {
    /// Reads the cost of this process. `None` if the system doesn't tell it.
    #[must_use]
    pub fn read() -> Option<Cost> {
        let stat = fs::read_to_string("/proc/self/stat").ok()?;
        let status = fs::read_to_string("/proc/self/status").ok()?;
        // The name of the program is in parentheses, and may have spaces. The twelfth and the
        // thirteenth field after it are the time in the program and in the system for it.
        let (_, fields) = stat.rsplit_once(") ")?;
        let times = fields.split(' ').skip(11).take(2);
        let times: Result<Vec<f64>, _> = times.map(str::parse).collect();
        let line = status
            .lines()
            .find_map(|line| line.strip_prefix("VmHWM:"))?;
        let kilobytes: u64 = line.trim().strip_suffix(" kB")?.parse().ok()?;
        Some(Cost {
            seconds: times.ok()?.iter().sum::<f64>() / CLOCK,
            megabytes: kilobytes * 1024 / 1_000_000,
        })
    }
}

/// Formats the fields of a CSV.
impl fmt::Display for Cost {
    fn fmt(&self, f: &mut fmt::Formatter<'_>) -> fmt::Result {
        write!(f, "{:.1},{}", self.seconds, self.megabytes)
    }
}
