//! Values of this package from and to those of the library for C.

use crate::api::TurnConfig;
use crate::stun::auth::Feature;
use crate::stun::types::message::IntegrityAlgorithm;
use crate::stun::types::TransportType;
use crate::stun::Instant;
use crate::sys;
use crate::types::AddressFamily;
use std::net::{IpAddr, Ipv4Addr, Ipv6Addr, SocketAddr, SocketAddrV6};
use std::time::Duration;

/// A time: one under 0 is given as one over 2^62, which is refused.
#[inline]
pub(crate) fn nanos(now: Instant) -> u64 {
    u64::try_from(now.as_nanos()).unwrap_or(u64::MAX)
}

pub(crate) fn instant(nanos: u64) -> Instant {
    // the library's times are under 2^63
    Instant::from_nanos(i64::try_from(nanos).unwrap_or(i64::MAX))
}

#[inline]
pub(crate) fn transport_code(transport: TransportType) -> u32 {
    match transport {
        TransportType::Udp => sys::UDP,
        TransportType::Tcp => sys::TCP,
    }
}

#[inline]
pub(crate) fn transport(code: u32) -> TransportType {
    if code == sys::TCP {
        TransportType::Tcp
    } else {
        TransportType::Udp
    }
}

#[inline]
pub(crate) fn address(addr: SocketAddr) -> sys::Address {
    match addr {
        SocketAddr::V4(addr) => {
            let mut ip = [0; 16];
            ip[..4].copy_from_slice(&addr.ip().octets());
            sys::Address {
                ip,
                port: addr.port(),
                family: sys::IPV4,
                ..sys::Address::default()
            }
        }
        SocketAddr::V6(addr) => sys::Address {
            ip: addr.ip().octets(),
            flow: addr.flowinfo(),
            scope: addr.scope_id(),
            port: addr.port(),
            family: sys::IPV6,
            reserved: 0,
        },
    }
}

/// An IP address: its port does not count.
pub(crate) fn ip_address(ip: IpAddr) -> sys::Address {
    address(SocketAddr::new(ip, 0))
}

/// The address that the library gave: it has one wherever it is looked at.
#[inline]
pub(crate) fn socket(address: &sys::Address) -> SocketAddr {
    debug_assert_ne!(address.family, sys::NO_ADDRESS);
    if address.family == sys::IPV6 {
        let ip = Ipv6Addr::from(address.ip);
        SocketAddrV6::new(ip, address.port, address.flow, address.scope).into()
    } else {
        let [a, b, c, d, ..] = address.ip;
        SocketAddr::new(IpAddr::V4(Ipv4Addr::new(a, b, c, d)), address.port)
    }
}

fn family_code(family: AddressFamily) -> u32 {
    u32::from(match family {
        AddressFamily::IPV4 => sys::IPV4,
        AddressFamily::IPV6 => sys::IPV6,
    })
}

pub(crate) fn family(code: u32) -> AddressFamily {
    if code == u32::from(sys::IPV6) {
        AddressFamily::IPV6
    } else {
        AddressFamily::IPV4
    }
}

fn algorithm_code(algorithm: IntegrityAlgorithm) -> u32 {
    match algorithm {
        IntegrityAlgorithm::Sha1 => sys::SHA1,
        IntegrityAlgorithm::Sha256 => sys::SHA256,
    }
}

fn feature_code(feature: Feature) -> u32 {
    match feature {
        Feature::Auto => sys::AUTO,
        Feature::Required => sys::REQUIRED,
        Feature::Disabled => sys::DISABLED,
    }
}

/// The number of the element at this place, or 0 if there is none.
fn code_at<T: Copy>(list: &[T], place: usize, code: fn(T) -> u32) -> u32 {
    list.get(place).copied().map_or(0, code)
}

/// The nanoseconds of a time. A longer one is 2^64 - 1 ns.
pub(crate) fn nanos_of(duration: Duration) -> u64 {
    u64::try_from(duration.as_nanos()).unwrap_or(u64::MAX)
}

/// The pause between two requests. The library takes 0 for its default, and the greatest number for none.
pub(crate) fn cadence_code(cadence: Duration) -> u64 {
    match nanos_of(cadence) {
        0 => sys::NO_PAUSE,
        nanos => nanos.min(sys::NO_PAUSE - 1),
    }
}

/// The settings of a client over this transport, with these ends.
pub(crate) fn settings(
    transport: TransportType,
    local: SocketAddr,
    remote: SocketAddr,
    config: &TurnConfig,
) -> sys::Settings {
    let (families, algorithms) = (config.address_families(), config.supported_integrity());
    let mut settings = sys::Settings {
        transport: transport_code(transport),
        allocation_transport: transport_code(config.allocation_transport()),
        family: code_at(families, 0, family_code),
        other_family: code_at(families, 1, family_code),
        algorithm: code_at(algorithms, 0, algorithm_code),
        other_algorithm: code_at(algorithms, 1, algorithm_code),
        anonymous: feature_code(config.anonymous_username()),
        max_stale_nonces: config.max_stale_nonces().get(),
        timed_from_send: u16::from(config.requests_timed_from_send()),
        local: address(local),
        remote: address(remote),
        request_cadence: cadence_code(config.request_cadence()),
        // 0, for none, is no time that a configuration has
        keepalive: config.keepalive().map_or(0, nanos_of),
        refresh_ahead: nanos_of(config.refresh_ahead()),
        ..sys::Settings::none()
    };
    if let Some(times) = config.retransmits {
        settings.has_waits = 1;
        settings.wait_initial = times.initial;
        settings.wait_max = times.max;
        settings.wait_count = times.count;
        settings.wait_last = times.last;
    }
    settings
}
