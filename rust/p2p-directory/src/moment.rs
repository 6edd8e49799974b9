//! Points in time.

use std::error;
use std::fmt;
use std::time::{Duration, SystemTime, UNIX_EPOCH};

/// A point in time, as the seconds and nanoseconds since the Unix epoch.
///
/// Calls that depend on time have an argument of this type, the present time. Draws and settings
/// are [`Duration`]s, so neither can replace the other.
///
/// # Examples
///
/// ```
/// use p2p_directory::Moment;
/// use std::time::{Duration, SystemTime};
///
/// let now = Moment::try_from(SystemTime::now())?;
/// assert!(now > Moment::EPOCH);
/// let due = now.saturating_add(Duration::from_secs(10));
/// assert_eq!(due.duration_since(now), Duration::from_secs(10));
/// # Ok::<(), p2p_directory::BeforeEpochError>(())
/// ```
///
/// A duration is no `Moment`:
///
/// ```compile_fail,E0308
/// # use p2p_directory::{Directory, Key}; use std::time::Duration;
/// fn block(directory: &mut Directory, peer: &Key) {
///     directory.block(peer, Duration::from_secs(100));
/// }
/// ```
#[derive(Clone, Copy, Debug, Default, PartialEq, Eq, PartialOrd, Ord, Hash)]
pub struct Moment(Duration);

/// A system time is before the Unix epoch, so it can't be converted to a [`Moment`].
///
/// # Examples
///
/// ```
/// use p2p_directory::{BeforeEpochError, Moment};
/// use std::time::{Duration, UNIX_EPOCH};
///
/// let before = UNIX_EPOCH - Duration::from_secs(1);
/// assert_eq!(Moment::try_from(before), Err(BeforeEpochError));
/// assert_eq!(BeforeEpochError.to_string(), "the time is before the Unix epoch");
/// ```
#[derive(Clone, Copy, Debug, PartialEq, Eq, Hash)]
pub struct BeforeEpochError;

impl Moment {
    /// The Unix epoch, the earliest time.
    ///
    /// # Examples
    ///
    /// ```
    /// # use p2p_directory::Moment;
    /// assert_eq!(Moment::EPOCH, Moment::default());
    /// ```
    pub const EPOCH: Moment = Moment(Duration::ZERO);

    /// The latest time. A sum that would be later, such as the end of a block, is capped at this
    /// one.
    ///
    /// # Examples
    ///
    /// ```
    /// # use p2p_directory::Moment; use std::time::Duration;
    /// assert_eq!(Moment::MAX.as_duration(), Duration::MAX);
    /// ```
    pub const MAX: Moment = Moment(Duration::MAX);

    /// Creates the time that is so many seconds after the epoch.
    ///
    /// # Examples
    ///
    /// ```
    /// # use p2p_directory::Moment; use std::time::Duration;
    /// assert_eq!(Moment::from_secs(100), Moment::from(Duration::from_secs(100)));
    /// ```
    #[must_use]
    #[inline]
    pub const fn from_secs(seconds: u64) -> Moment {
        Moment(Duration::from_secs(seconds))
    }

    /// The time since the epoch.
    ///
    /// # Examples
    ///
    /// The timestamp of an [`Info`](crate::Info) is in milliseconds.
    ///
    /// ```
    /// # use p2p_directory::Moment;
    /// assert_eq!(Moment::from_secs(100).as_duration().as_millis(), 100_000);
    /// ```
    #[must_use]
    #[inline]
    pub const fn as_duration(self) -> Duration {
        self.0
    }

    /// The system time, or `None` if the system can't represent it.
    ///
    /// # Examples
    ///
    /// ```
    /// # use p2p_directory::Moment;
    /// # use std::time::UNIX_EPOCH;
    /// assert_eq!(Moment::EPOCH.to_system_time(), Some(UNIX_EPOCH));
    /// assert_eq!(Moment::MAX.to_system_time(), None);
    /// ```
    #[must_use]
    pub fn to_system_time(self) -> Option<SystemTime> {
        UNIX_EPOCH.checked_add(self.0)
    }

    /// The time that is later by this duration, or `None` if it would be after [`Moment::MAX`].
    ///
    /// # Examples
    ///
    /// ```
    /// # use p2p_directory::Moment; use std::time::Duration;
    /// let second = Duration::from_secs(1);
    /// assert_eq!(Moment::EPOCH.checked_add(second), Some(Moment::from_secs(1)));
    /// assert_eq!(Moment::MAX.checked_add(second), None);
    /// ```
    #[must_use]
    #[inline]
    pub const fn checked_add(self, duration: Duration) -> Option<Moment> {
        match self.0.checked_add(duration) {
            Some(passed) => Some(Moment(passed)),
            None => None,
        }
    }

    /// The time that is earlier by this duration, or `None` if it would be before
    /// [`Moment::EPOCH`].
    ///
    /// # Examples
    ///
    /// ```
    /// # use p2p_directory::Moment; use std::time::Duration;
    /// let second = Duration::from_secs(1);
    /// assert_eq!(Moment::from_secs(1).checked_sub(second), Some(Moment::EPOCH));
    /// assert_eq!(Moment::EPOCH.checked_sub(second), None);
    /// ```
    #[must_use]
    #[inline]
    pub const fn checked_sub(self, duration: Duration) -> Option<Moment> {
        match self.0.checked_sub(duration) {
            Some(passed) => Some(Moment(passed)),
            None => None,
        }
    }

    /// The time that is later by this duration, at most [`Moment::MAX`]. The library computes the
    /// ends of cooldowns and blocks in this way.
    ///
    /// # Examples
    ///
    /// ```
    /// # use p2p_directory::Moment; use std::time::Duration;
    /// let second = Duration::from_secs(1);
    /// assert_eq!(Moment::EPOCH.saturating_add(second), Moment::from_secs(1));
    /// assert_eq!(Moment::MAX.saturating_add(second), Moment::MAX);
    /// ```
    #[must_use]
    #[inline]
    pub const fn saturating_add(self, duration: Duration) -> Moment {
        Moment(self.0.saturating_add(duration))
    }

    /// The time that has passed since `earlier`, or zero if that is later.
    ///
    /// # Examples
    ///
    /// ```
    /// # use p2p_directory::Moment; use std::time::Duration;
    /// let (earlier, later) = (Moment::from_secs(1), Moment::from_secs(3));
    /// assert_eq!(later.duration_since(earlier), Duration::from_secs(2));
    /// assert_eq!(earlier.duration_since(later), Duration::ZERO);
    /// ```
    #[must_use]
    #[inline]
    pub const fn duration_since(self, earlier: Moment) -> Duration {
        self.0.saturating_sub(earlier.0)
    }

    /// Its seconds and nanoseconds, as the library takes them.
    #[inline]
    pub(crate) fn parts(self) -> (u64, u32) {
        (self.0.as_secs(), self.0.subsec_nanos())
    }
}

impl From<Duration> for Moment {
    /// Creates the time that is so long after the epoch.
    #[inline]
    fn from(since_epoch: Duration) -> Moment {
        Moment(since_epoch)
    }
}

impl TryFrom<SystemTime> for Moment {
    type Error = BeforeEpochError;

    /// Converts a system time, and fails if it is before the Unix epoch.
    fn try_from(time: SystemTime) -> Result<Moment, BeforeEpochError> {
        let passed = time.duration_since(UNIX_EPOCH);
        passed.map(Moment).map_err(|_| BeforeEpochError)
    }
}

/// Formats the seconds since the epoch, with nine digits after the point.
impl fmt::Display for Moment {
    fn fmt(&self, f: &mut fmt::Formatter<'_>) -> fmt::Result {
        let (seconds, nanos) = self.parts();
        write!(f, "{seconds}.{nanos:09}")
    }
}

impl fmt::Display for BeforeEpochError {
    fn fmt(&self, f: &mut fmt::Formatter<'_>) -> fmt::Result {
        f.write_str("the time is before the Unix epoch")
    }
}

impl error::Error for BeforeEpochError {}
