//! The client over TCP.

pub use crate::api::{
    BindChannelError, CreatePermissionError, DeleteError, KeepError, SendError, TcpAllocateError,
    TurnEvent, TurnPollRet, TurnRecvRet,
};

use crate::api::TurnConfig;
use crate::handle::system_seed;
use crate::protocol::Protocol;
use crate::stun::types::TransportType;
use std::net::SocketAddr;

/// A TURN client over TCP.
#[derive(Debug)]
pub struct TurnClientTcp {
    protocol: Protocol,
}

impl TurnClientTcp {
    /// A client at this address, which requests relayed addresses from this server. It sends nothing until it is polled.
    ///
    /// Transaction IDs are made from a seed of the system's random numbers.
    ///
    /// # Panics
    ///
    /// The system has no random numbers.
    ///
    /// # Examples
    ///
    /// ```
    /// # use yarrowdoor::api::TurnConfig;
    /// # use yarrowdoor::prelude::*;
    /// # use yarrowdoor::tcp::TurnClientTcp;
    /// # use yarrowdoor::types::{TransportType, TurnCredentials};
    /// let credentials = TurnCredentials::new("tuser", "tpass");
    /// let mut config = TurnConfig::new(credentials);
    /// // what the server is to relay over
    /// config.set_allocation_transport(TransportType::Udp);
    /// let local_addr = "192.168.0.1:4000".parse().unwrap();
    /// let remote_addr = "10.0.0.1:3478".parse().unwrap();
    /// let client = TurnClientTcp::allocate(local_addr, remote_addr, config);
    /// assert_eq!(client.transport(), TransportType::Tcp);
    /// assert_eq!(client.local_addr(), local_addr);
    /// assert_eq!(client.remote_addr(), remote_addr);
    /// assert_eq!(client.relayed_addresses().count(), 0);
    /// ```
    #[must_use]
    pub fn allocate(
        local_addr: SocketAddr,
        remote_addr: SocketAddr,
        config: TurnConfig,
    ) -> TurnClientTcp {
        TurnClientTcp::allocate_with_seed(local_addr, remote_addr, config, system_seed())
    }

    /// The same, with this seed: 32 secret bytes, new for each client. The same seed and the same calls
    /// give the same packets.
    #[must_use]
    #[allow(clippy::needless_pass_by_value)] // as the original's `allocate`
    pub fn allocate_with_seed(
        local_addr: SocketAddr,
        remote_addr: SocketAddr,
        config: TurnConfig,
        seed: [u8; 32],
    ) -> TurnClientTcp {
        TurnClientTcp {
            protocol: Protocol::new(TransportType::Tcp, local_addr, remote_addr, &config, &seed),
        }
    }
}

crate::__delegate!(TurnClientTcp, self, __of_field => (protocol));
crate::client::own_calls!(TurnClientTcp, self, __of_field => (protocol));
