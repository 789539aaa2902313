//! Times on the caller's clock.

use std::fmt;
use std::ops::{Add, AddAssign, Sub, SubAssign};
use std::time::Duration;

/// A time: the nanoseconds since a start that the caller chose.
///
/// Calls of a client take times from 0 to 2^62 ns, which is 146 years, and panic at others.
///
/// # Examples
///
/// ```
/// use std::time::Duration;
/// use yarrowdoor::stun::Instant;
///
/// let start = std::time::Instant::now();
/// let now = Instant::from_std(start);
/// assert!(now >= Instant::ZERO);
/// assert_eq!(Instant::from_nanos(1_500_000_000) - Instant::ZERO, Duration::from_millis(1500));
/// assert_eq!(Instant::from_nanos(1_500_000_000).to_string(), "1.500000000s");
/// ```
#[derive(Clone, Copy, Debug, Default, PartialEq, Eq, PartialOrd, Ord, Hash)]
pub struct Instant {
    nanos: i64,
}

impl Instant {
    /// The start of the caller's clock.
    pub const ZERO: Instant = Instant { nanos: 0 };

    /// The time that many nanoseconds after the start.
    #[must_use]
    pub fn from_nanos(nanos: i64) -> Instant {
        Instant { nanos }
    }

    /// The nanoseconds since the start.
    #[must_use]
    pub fn as_nanos(&self) -> i64 {
        self.nanos
    }

    /// The time now, on a clock that started at `base`.
    #[must_use]
    pub fn from_std(base: std::time::Instant) -> Instant {
        Instant::ZERO + base.elapsed()
    }

    /// This time on the system's clock, if this clock started at `base`.
    #[must_use]
    pub fn to_std(self, base: std::time::Instant) -> std::time::Instant {
        base + self.saturating_duration_since(Instant::ZERO)
    }

    /// How long after `earlier` this time is, or zero if it is before it.
    #[must_use]
    pub fn duration_since(&self, earlier: Instant) -> Duration {
        self.saturating_duration_since(earlier)
    }

    /// How long after `earlier` this time is, or `None` if it is before it.
    pub fn checked_duration_since(&self, earlier: Instant) -> Option<Duration> {
        let nanos = i128::from(self.nanos) - i128::from(earlier.nanos);
        u64::try_from(nanos).ok().map(Duration::from_nanos)
    }

    /// How long after `earlier` this time is, or zero if it is before it.
    #[must_use]
    pub fn saturating_duration_since(&self, earlier: Instant) -> Duration {
        self.checked_duration_since(earlier).unwrap_or_default()
    }

    /// The time that much later, or `None` if it is over the greatest time.
    pub fn checked_add(&self, duration: Duration) -> Option<Instant> {
        let nanos = i64::try_from(duration.as_nanos()).ok()?;
        self.nanos.checked_add(nanos).map(Instant::from_nanos)
    }

    /// The time that much earlier, or `None` if it is under the least time.
    pub fn checked_sub(&self, duration: Duration) -> Option<Instant> {
        let nanos = i64::try_from(duration.as_nanos()).ok()?;
        self.nanos.checked_sub(nanos).map(Instant::from_nanos)
    }
}

impl Add<Duration> for Instant {
    type Output = Instant;

    /// # Panics
    ///
    /// The sum is over the greatest time.
    fn add(self, duration: Duration) -> Instant {
        self.checked_add(duration)
            .expect("a sum of times is too great")
    }
}

impl AddAssign<Duration> for Instant {
    fn add_assign(&mut self, duration: Duration) {
        *self = *self + duration;
    }
}

impl Sub<Duration> for Instant {
    type Output = Instant;

    /// # Panics
    ///
    /// The difference is under the least time.
    fn sub(self, duration: Duration) -> Instant {
        self.checked_sub(duration)
            .expect("a difference of times is too small")
    }
}

impl SubAssign<Duration> for Instant {
    fn sub_assign(&mut self, duration: Duration) {
        *self = *self - duration;
    }
}

impl Sub for Instant {
    type Output = Duration;

    fn sub(self, earlier: Instant) -> Duration {
        self.saturating_duration_since(earlier)
    }
}

/// Seconds, a point, nine digits and an `s`.
impl fmt::Display for Instant {
    fn fmt(&self, f: &mut fmt::Formatter<'_>) -> fmt::Result {
        let sign = if self.nanos < 0 { "-" } else { "" };
        let nanos = self.nanos.unsigned_abs();
        write!(
            f,
            "{sign}{}.{:09}s",
            nanos / 1_000_000_000,
            nanos % 1_000_000_000
        )
    }
}
