//! What a client makes of received bytes.

use crate::stun::agent::Transmit;
use crate::stun::types::TransportType;
use std::fmt::Debug;
use std::net::SocketAddr;
use std::ops::Range;

/// What [`recv`](crate::api::TurnClientApi::recv) returns.
#[derive(Debug)]
#[must_use = "it may have data of a peer"]
pub enum TurnRecvRet<T: AsRef<[u8]> + Debug> {
    /// The bytes were for the client itself.
    Handled,
    /// The bytes, over TCP the first message in them, are not shown to be the server's, or not for this client: here they are.
    Ignored(Transmit<T>),
    /// A peer sent data.
    PeerData(TurnPeerData<T>),
    /// An ICMP packet was received for data to a peer (RFC 8656, section 18.13).
    PeerIcmp {
        /// The transport of the allocation.
        transport: TransportType,
        /// The peer.
        peer: SocketAddr,
        /// The type of the ICMP packet.
        icmp_type: u8,
        /// The code of the ICMP packet.
        icmp_code: u8,
        /// What else the ICMP packet says.
        icmp_data: u32,
    },
}

/// Data that a peer sent.
#[derive(Debug)]
#[must_use = "it is data of a peer"]
pub struct TurnPeerData<T: AsRef<[u8]> + Debug> {
    pub(crate) data: DataRangeOrOwned<T>,
    /// The transport between the server and the peer.
    pub transport: TransportType,
    /// The peer.
    pub peer: SocketAddr,
}

impl<T: AsRef<[u8]> + Debug> TurnPeerData<T> {
    /// The same with bytes of its own, which are copied only if they are a range of others.
    pub fn into_owned<R: AsRef<[u8]> + Debug>(self) -> TurnPeerData<R> {
        TurnPeerData {
            data: self.data.into_owned(),
            transport: self.transport,
            peer: self.peer,
        }
    }

    /// The data.
    pub fn data(&self) -> &[u8] {
        self.data.as_ref()
    }
}

impl<T: AsRef<[u8]> + Debug> AsRef<[u8]> for TurnPeerData<T> {
    fn as_ref(&self) -> &[u8] {
        self.data()
    }
}

/// The data, copied only if it is a range of other bytes.
impl<T: AsRef<[u8]> + Debug> From<TurnPeerData<T>> for Vec<u8> {
    fn from(peer_data: TurnPeerData<T>) -> Vec<u8> {
        match peer_data.data {
            DataRangeOrOwned::Owned(bytes) => bytes,
            range @ DataRangeOrOwned::Range { .. } => range.as_ref().to_vec(),
        }
    }
}

/// A range of the bytes of a caller, or bytes of its own.
#[derive(Debug)]
#[must_use = "it is data of a peer"]
pub enum DataRangeOrOwned<T: AsRef<[u8]> + Debug> {
    /// A range of the bytes of a caller, which are not copied.
    Range {
        /// The bytes of the caller.
        data: T,
        /// Where the data lies in them.
        range: Range<usize>,
    },
    /// Bytes of its own.
    Owned(Vec<u8>),
}

impl<T: AsRef<[u8]> + Debug> DataRangeOrOwned<T> {
    pub(crate) fn into_owned<R: AsRef<[u8]> + Debug>(self) -> DataRangeOrOwned<R> {
        DataRangeOrOwned::Owned(match self {
            DataRangeOrOwned::Range { .. } => self.as_ref().to_vec(),
            DataRangeOrOwned::Owned(bytes) => bytes,
        })
    }
}

impl<T: AsRef<[u8]> + Debug> AsRef<[u8]> for DataRangeOrOwned<T> {
    fn as_ref(&self) -> &[u8] {
        match self {
            DataRangeOrOwned::Range { data, range } => &data.as_ref()[range.clone()],
            DataRangeOrOwned::Owned(bytes) => bytes,
        }
    }
}

/// A statement that drops data of a peer is warned of.
///
/// ```
/// #![deny(unused_must_use)]
/// use yarrowdoor::api::{Transmit, TurnClientApi, TurnRecvRet};
/// fn keep(client: &mut impl TurnClientApi, packet: Transmit<Vec<u8>>, now: yarrowdoor::stun::Instant) {
///     let _received = client.recv(packet, now);
///     let _more = client.poll_recv(now);
/// }
/// ```
///
/// ```compile_fail
/// #![deny(unused_must_use)]
/// use yarrowdoor::api::{Transmit, TurnClientApi, TurnRecvRet};
/// fn drop(client: &mut impl TurnClientApi, packet: Transmit<Vec<u8>>, now: yarrowdoor::stun::Instant) {
///     client.recv(packet, now);
/// }
/// ```
///
/// ```compile_fail
/// #![deny(unused_must_use)]
/// use yarrowdoor::api::{Transmit, TurnClientApi, TurnRecvRet};
/// fn drop(client: &mut impl TurnClientApi, packet: Transmit<Vec<u8>>, now: yarrowdoor::stun::Instant) {
///     client.poll_recv(now);
/// }
/// ```
#[cfg(doctest)]
struct DroppedData;
