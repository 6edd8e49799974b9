//! The two times of a host.

use p2p_directory::Moment;
use std::time::{Instant, SystemTime};

/// The wall clock, and a time that doesn't follow its jumps.
#[derive(Clone, Copy, Debug)]
pub struct Clock {
    wall: fn() -> SystemTime,
    at_start: Moment,
    start: Instant,
}

impl Clock {
    /// A clock that starts now, at the time that this wall clock tells.
    pub fn new(wall: fn() -> SystemTime) -> Clock {
        Clock {
            wall,
            at_start: told(wall),
            start: Instant::now(),
        }
    }

    /// The time for cooldowns, blocks and dials: the wall clock at the start, and what a monotonic
    /// clock has counted since. It never goes backwards.
    pub fn now(&self) -> Moment {
        self.at_start.saturating_add(self.start.elapsed())
    }

    /// The time for frames and infos, whose timestamps are those of wall clocks. It may jump.
    pub fn wall(&self) -> Moment {
        told(self.wall)
    }
}

/// What a wall clock tells. One before the epoch tells the epoch.
fn told(wall: fn() -> SystemTime) -> Moment {
    Moment::try_from(wall()).unwrap_or(Moment::EPOCH)
}
