//! How many grants a client keeps.

use crate::api::TurnConfig;
use crate::convert::{cadence_code, nanos_of};
use crate::sys;
use std::time::Duration;

/// What takes time before the expiry of grants that are all to be refreshed at one time, besides their refreshes. An allocation
/// counts as a grant, and so does each permission and each channel.
#[derive(Clone, Copy, Debug, Default, PartialEq, Eq, Hash)]
pub struct Load {
    /// How much too late a timer wakes the caller at most.
    pub late: Duration,
    /// How long the server's success takes at most, from when a request was made.
    pub delay: Duration,
    /// How many packets are queued at most when the first refresh is due.
    pub slots: u32,
    /// How many packets are retransmissions, or requests that are made again, at most, within the time ahead at which grants are
    /// refreshed.
    pub extras: u32,
}

impl From<Load> for sys::Load {
    fn from(load: Load) -> sys::Load {
        sys::Load {
            late: nanos_of(load.late),
            delay: nanos_of(load.delay),
            slots: load.slots,
            extras: load.extras,
        }
    }
}

impl TurnConfig {
    /// How many grants a client with this configuration keeps beside this load: none of that many is lost if the server answers,
    /// and one more may be. It is 0 if there is room for none, and `u64::MAX` if there is no pause and the caller is never
    /// late. A permission lasts 300 s and is refreshed after half of that at the earliest, so more than 150 s of
    /// [`refresh_ahead`](Self::refresh_ahead) count as 150 s. If the server grants an allocation for less than 300 s, set half
    /// of that.
    ///
    /// # Examples
    ///
    /// ```
    /// use std::time::Duration;
    /// use yarrowdoor::api::{Load, TurnConfig};
    /// use yarrowdoor::types::TurnCredentials;
    ///
    /// let config = TurnConfig::new(TurnCredentials::new("user", "pass"));
    /// let load = Load {
    ///     late: Duration::from_millis(2),
    ///     delay: Duration::from_millis(450),
    ///     slots: 1,
    ///     extras: 0,
    /// };
    /// // a packet each 52 ms within the minute, less the time of the last one and of its answer
    /// assert_eq!(config.kept_grants(load), 1144);
    /// ```
    #[must_use]
    pub fn kept_grants(&self, load: Load) -> u64 {
        let (cadence, ahead) = (self.request_cadence(), self.refresh_ahead());
        sys::yarrowdoor_kept_grants(&load.into(), cadence_code(cadence), nanos_of(ahead))
    }

    /// The longest [`request_cadence`](Self::request_cadence) at which `count` grants are kept with this load, each refreshed by
    /// the [`refresh_ahead`](Self::refresh_ahead) of this configuration. `None` if they are too many for any. No grant is taken
    /// as one.
    #[must_use]
    pub fn longest_cadence(&self, load: Load, count: u64) -> Option<Duration> {
        let ahead = nanos_of(self.refresh_ahead());
        match sys::yarrowdoor_longest_cadence(&load.into(), count, ahead) {
            0 => None,
            sys::NO_PAUSE => Some(Duration::ZERO),
            nanos => Some(Duration::from_nanos(nanos)),
        }
    }
}
