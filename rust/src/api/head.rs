//! What stands around the data in a packet for a peer.

use crate::sys::MAX_OVERHEAD;
use std::fmt;

/// What stands around the data in a packet for a peer, which `send_head` of a client makes.
///
/// These bytes, the data from where it lies, and [`padding`](PacketHead::padding), sent as one packet, are what `send_to` makes of
/// the data. So none of it is copied: `sendmsg` and `sendmmsg` take the three as parts of a packet, and where the data has room
/// before it, as for GSO, the head is written there.
#[derive(Clone, PartialEq, Eq)]
pub struct PacketHead {
    bytes: [u8; MAX_OVERHEAD],
    len: usize,
    padding: usize,
}

impl PacketHead {
    /// The first `len` bytes, and the zeros behind the data, at most three.
    pub(crate) fn new(bytes: [u8; MAX_OVERHEAD], len: usize, padding: usize) -> PacketHead {
        PacketHead {
            bytes,
            len,
            padding,
        }
    }

    /// What precedes the data: 4 bytes to a peer with a channel, else 36 to an IPv4 and 48 to an IPv6 address, and for a data
    /// connection none.
    #[must_use]
    pub fn as_bytes(&self) -> &[u8] {
        &self.bytes[..self.len]
    }

    /// What follows the data: up to three bytes, all 0.
    #[must_use]
    pub fn padding(&self) -> &'static [u8] {
        &[0; 3][..self.padding]
    }
}

impl AsRef<[u8]> for PacketHead {
    fn as_ref(&self) -> &[u8] {
        self.as_bytes()
    }
}

impl fmt::Debug for PacketHead {
    fn fmt(&self, f: &mut fmt::Formatter<'_>) -> fmt::Result {
        f.debug_struct("PacketHead")
            .field("bytes", &self.as_bytes())
            .field("padding", &self.padding())
            .finish_non_exhaustive()
    }
}
