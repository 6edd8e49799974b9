//! The times of some calls, and how much they did.

use std::fmt;
use std::time::Duration;

/// The times of samples, and how much was done in all of them.
#[derive(Default)]
pub(crate) struct Times {
    nanos: Vec<u128>,
    /// How much was done.
    pub(crate) done: usize,
}

impl Times {
    /// Adds the time of a sample in which so much was done.
    pub(crate) fn add(&mut self, time: Duration, done: usize) {
        self.nanos.push(time.as_nanos());
        self.done += done;
    }

    /// The minimum and the median, in nanoseconds.
    pub(crate) fn least_and_median(&self) -> (u128, u128) {
        let mut nanos = self.nanos.clone();
        nanos.sort_unstable();
        let at = |place: usize| nanos.get(place).copied().unwrap_or(0);
        (at(0), at(nanos.len() / 2))
    }
}

impl fmt::Display for Times {
    fn fmt(&self, f: &mut fmt::Formatter<'_>) -> fmt::Result {
        let (least, median) = self.least_and_median();
        write!(f, "{least} {median} {}", self.done)
    }
}
