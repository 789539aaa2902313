//! How many grants a client keeps: the premise of the theorem, computed here from its text.

use std::time::Duration;
use yarrowdoor::api::{Load, TurnConfig};
use yarrowdoor::types::TurnCredentials;

/// No permission is refreshed before half of its lifetime is over (RFC 8656, section 9).
const HALF_OF_A_PERMISSION: Duration = Duration::from_secs(150);

/// `(count + slots + extras) * (cadence + late) + delay + late < ahead` (`HasRoomBehind`).
fn has_room(count: u64, load: Load, cadence: Duration, ahead: Duration) -> bool {
    let ahead = ahead.min(HALF_OF_A_PERMISSION);
    let packets = u128::from(count) + u128::from(load.slots) + u128::from(load.extras);
    let each = cadence.as_nanos() + load.late.as_nanos();
    packets * each + load.delay.as_nanos() + load.late.as_nanos() < ahead.as_nanos()
}

fn config(cadence: Duration, ahead: Duration) -> TurnConfig {
    let mut config = TurnConfig::new(TurnCredentials::new("user", "pass"));
    config.set_request_cadence(cadence);
    config.set_refresh_ahead(ahead);
    config
}

/// Loads and settings of which some leave no room, and some any.
fn cases() -> Vec<(Load, Duration, Duration)> {
    let times = [
        0,
        1,
        1_000_000,
        15_600_000,
        450_000_000,
        59_999_999_999,
        60_000_000_000,
    ];
    let mut cases = Vec::new();
    for late in [0, 1, 2_000_000, 15_600_000] {
        for delay in times {
            for cadence in [0, 1, 5_000_000, 50_000_000, 70_000_000_000] {
                for (slots, extras) in [(0, 0), (1, 0), (3, 1_000), (u32::MAX, u32::MAX)] {
                    for ahead in [
                        1_000_000_000,
                        60_000_000_000,
                        150_000_000_000,
                        200_000_000_000,
                    ] {
                        let load = Load {
                            late: Duration::from_nanos(late),
                            delay: Duration::from_nanos(delay),
                            slots,
                            extras,
                        };
                        cases.push((
                            load,
                            Duration::from_nanos(cadence),
                            Duration::from_nanos(ahead),
                        ));
                    }
                }
            }
        }
    }
    cases
}

#[test]
fn so_many_are_kept_and_not_one_more() {
    for (load, cadence, ahead) in cases() {
        let kept = config(cadence, ahead).kept_grants(load);
        assert!(
            kept == 0 || has_room(kept, load, cadence, ahead),
            "{load:?} {kept}"
        );
        assert!(
            kept == u64::MAX || !has_room(kept + 1, load, cadence, ahead),
            "{load:?} {kept}"
        );
    }
}

#[test]
fn at_the_longest_cadence_so_many_are_kept_and_at_a_longer_one_not() {
    for (load, cadence, ahead) in cases() {
        for count in [1, 2, 4_096, u64::MAX] {
            let longer = match config(cadence, ahead).longest_cadence(load, count) {
                None => Duration::ZERO,
                Some(longest) => {
                    assert!(
                        has_room(count, load, longest, ahead),
                        "{load:?} {longest:?}"
                    );
                    longest + Duration::from_nanos(1)
                }
            };
            assert!(!has_room(count, load, longer, ahead), "{load:?} {longer:?}");
        }
    }
}

#[test]
fn no_grant_is_taken_as_one() {
    let (load, config) = (
        Load::default(),
        config(Duration::ZERO, Duration::from_secs(60)),
    );
    assert_eq!(
        config.longest_cadence(load, 0),
        config.longest_cadence(load, 1)
    );
    assert_eq!(
        config.longest_cadence(load, 1),
        Some(Duration::from_nanos(59_999_999_999))
    );
}
