//! What a TURN client has of TURN (RFC 8656), under the names of the crate `turn_types`.

pub use crate::stun::types as stun;
pub use crate::stun::types::TransportType;
pub use crate::stun::Instant;
pub use credentials::{CredentialsError, TurnCredentials};

mod credentials;
pub mod transmit;

use std::fmt;
use std::net::{IpAddr, SocketAddr};

/// The traits that a caller needs.
pub mod prelude {
    pub use super::transmit::DelayedTransmitBuild;
}

/// An IP version (RFC 8656, section 18.6).
#[derive(Clone, Copy, Debug, PartialEq, Eq, Hash, PartialOrd, Ord)]
pub enum AddressFamily {
    /// IPv4.
    IPV4,
    /// IPv6.
    IPV6,
}

/// The IP version of an address.
///
/// # Examples
///
/// ```
/// use std::net::SocketAddr;
/// use yarrowdoor::types::AddressFamily;
/// let peer: SocketAddr = "[2001:db8::1]:9000".parse().unwrap();
/// assert_eq!(AddressFamily::from(peer), AddressFamily::IPV6);
/// assert_eq!(AddressFamily::from(std::net::IpAddr::from([10, 0, 0, 1])), AddressFamily::IPV4);
/// ```
impl From<IpAddr> for AddressFamily {
    fn from(ip: IpAddr) -> AddressFamily {
        match ip {
            IpAddr::V4(_) => AddressFamily::IPV4,
            IpAddr::V6(_) => AddressFamily::IPV6,
        }
    }
}

/// The IP version of a socket's address.
impl From<SocketAddr> for AddressFamily {
    fn from(address: SocketAddr) -> AddressFamily {
        AddressFamily::from(address.ip())
    }
}

impl fmt::Display for AddressFamily {
    fn fmt(&self, f: &mut fmt::Formatter<'_>) -> fmt::Result {
        f.write_str(match self {
            AddressFamily::IPV4 => "IPV4",
            AddressFamily::IPV6 => "IPV6",
        })
    }
}
