//! The time, as ledgers have it: since the Unix epoch.

use std::time::{Duration, SystemTime, UNIX_EPOCH};

/// The present time.
pub fn now() -> Duration {
    let passed = SystemTime::now().duration_since(UNIX_EPOCH);
    passed.unwrap_or_default()
}

/// The present time in milliseconds.
pub fn milliseconds() -> u64 {
    u64::try_from(now().as_millis()).unwrap_or(u64::MAX)
}
