//! Loss of segments, as TCP shows it to a program: no byte is missing, but some come late, and all
//! behind them wait.

use p2p_node::simulate::Random;
use std::fmt;
use std::sync::atomic::{AtomicU64, Ordering};
use std::time::Duration;

/// The maximum number of bytes of a segment.
pub const SEGMENT: usize = 1460;

/// How segments are lost.
#[derive(Clone, Copy, Debug, PartialEq)]
pub struct Loss {
    /// The probability with which a segment is lost each time that it is sent.
    pub probability: f64,
    /// The time after which a lost segment is sent again. It doubles with each further loss.
    pub timeout: Duration,
    /// How many losses of one segment in a row break the connection.
    pub most: u32,
}

/// What becomes of a segment.
#[derive(Clone, Copy, Debug, PartialEq, Eq)]
pub struct Arrival {
    /// How often it is lost.
    pub lost: u32,
    /// The time from when it was sent first until it arrives, or the connection breaks.
    pub after: Duration,
    /// Whether it arrives.
    pub is_whole: bool,
}

impl Loss {
    /// Each fifth segment is lost, and times are those of TCP on Linux.
    pub const FIFTH: Loss = Loss {
        probability: 0.2,
        timeout: Duration::from_millis(200),
        most: 6,
    };

    /// What becomes of the next segment.
    pub fn arrival(&self, random: &mut Random) -> Arrival {
        let mut arrival = Arrival {
            lost: 0,
            after: Duration::ZERO,
            is_whole: true,
        };
        let mut timeout = self.timeout;
        while arrival.is_whole && random.happens(self.probability) {
            arrival.lost += 1;
            arrival.is_whole = arrival.lost < self.most;
            if arrival.is_whole {
                arrival.after += timeout;
                timeout = timeout.saturating_mul(2);
            }
        }
        arrival
    }
}

/// How many segments were lost so far.
#[derive(Debug, Default)]
pub struct Losses {
    segments: AtomicU64,
    lost: AtomicU64,
    broken: AtomicU64,
}

impl Losses {
    /// Counts a segment.
    pub fn count(&self, arrival: &Arrival) {
        self.segments.fetch_add(1, Ordering::Relaxed);
        let lost = u64::from(arrival.lost);
        self.lost.fetch_add(lost, Ordering::Relaxed);
        let broken = u64::from(!arrival.is_whole);
        self.broken.fetch_add(broken, Ordering::Relaxed);
    }

    /// How many segments were sent while some were lost, how often one was lost, and how many
    /// connections broke.
    pub fn counts(&self) -> [u64; 3] {
        [&self.segments, &self.lost, &self.broken].map(|count| count.load(Ordering::Relaxed))
    }
}

impl fmt::Display for Losses {
    fn fmt(&self, f: &mut fmt::Formatter<'_>) -> fmt::Result {
        let [segments, lost, broken] = self.counts();
        write!(
            f,
            "{lost} losses of {segments} segments, {broken} broken connections"
        )
    }
}

#[cfg(test)]
mod tests {
    use super::*;

    #[test]
    fn the_timeout_doubles_until_the_connection_breaks() {
        let mut random = Random::new(7);
        let mut seen = [None; 7];
        for _ in 0..10_000 {
            let arrival = Loss {
                probability: 0.5,
                ..Loss::FIFTH
            }
            .arrival(&mut random);
            let after = (arrival.after.as_millis(), arrival.is_whole);
            let before = seen[arrival.lost as usize].replace(after);
            assert!(before.is_none_or(|before| before == after));
        }
        let expected = [
            (0, true),
            (200, true),
            (600, true),
            (1400, true),
            (3000, true),
            (6200, true),
            (6200, false),
        ];
        assert_eq!(seen, expected.map(Some));
    }

    #[test]
    fn as_many_are_lost_as_the_probability_says() {
        let (mut random, losses) = (Random::new(1), Losses::default());
        for _ in 0..100_000 {
            losses.count(&Loss::FIFTH.arrival(&mut random));
        }
        // 100,000 * (1/5 + 1/25 + .. up to six), of which 6.4 break.
        let [segments, lost, broken] = losses.counts();
        assert_eq!(segments, 100_000);
        assert!((24_000..26_000).contains(&lost), "{lost}");
        assert!((1..20).contains(&broken), "{broken}");
    }
}
