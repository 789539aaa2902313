//! Packets that are built when they are sent.

use crate::stun::agent::Transmit;
use crate::stun::types::TransportType;
use std::fmt::Debug;
use std::marker::PhantomData;
use std::net::SocketAddr;

/// The bytes of a packet that is still to be built.
pub trait DelayedTransmitBuild {
    /// The bytes, in a vector.
    fn build(self) -> Vec<u8>;

    /// How many bytes there will be.
    fn len(&self) -> usize;

    /// Whether there will be no bytes.
    fn is_empty(&self) -> bool {
        self.len() == 0
    }

    /// Writes the bytes to the front of `data`, and returns how many these are.
    ///
    /// # Panics
    ///
    /// `data` is shorter than `len()`.
    fn write_into(self, data: &mut [u8]) -> usize;
}

/// Writes bytes to the front of `data`, and returns how many these are.
pub(crate) fn write(bytes: &[u8], data: &mut [u8]) -> usize {
    data[..bytes.len()].copy_from_slice(bytes);
    bytes.len()
}

/// Declares a packet to the server that the client has built.
macro_rules! built {
    ($(#[$doc:meta])* $name:ident) => {
        $(#[$doc])*
        #[derive(Debug)]
        pub struct $name<T: AsRef<[u8]> + Debug> {
            bytes: Vec<u8>,
            of: PhantomData<T>,
        }

        impl<T: AsRef<[u8]> + Debug> $name<T> {
            pub(crate) fn of(bytes: Vec<u8>) -> $name<T> {
                $name { bytes, of: PhantomData }
            }
        }

        impl<T: AsRef<[u8]> + Debug> AsRef<[u8]> for $name<T> {
            fn as_ref(&self) -> &[u8] {
                &self.bytes
            }
        }

        impl<T: AsRef<[u8]> + Debug> DelayedTransmitBuild for $name<T> {
            fn build(self) -> Vec<u8> {
                self.bytes
            }

            fn len(&self) -> usize {
                self.bytes.len()
            }

            fn write_into(self, data: &mut [u8]) -> usize {
                write(&self.bytes, data)
            }
        }
    };
}

built! {
    /// Data for a peer as a `ChannelData` message (RFC 8656, section 12.4), built by a client.
    DelayedChannel
}

built! {
    /// Data for a peer in a Send indication (RFC 8656, section 11.1), built by a client.
    DelayedMessage
}

/// A packet whose bytes are still to be built.
#[derive(Debug)]
#[must_use = "the packet is to be sent"]
pub struct TransmitBuild<T: DelayedTransmitBuild + Debug> {
    /// The bytes.
    pub data: T,
    /// What carries them.
    pub transport: TransportType,
    /// The source.
    pub from: SocketAddr,
    /// The destination.
    pub to: SocketAddr,
}

impl<T: DelayedTransmitBuild + Debug> TransmitBuild<T> {
    /// A packet with these bytes.
    pub fn new(
        data: T,
        transport: TransportType,
        from: SocketAddr,
        to: SocketAddr,
    ) -> TransmitBuild<T> {
        TransmitBuild {
            data,
            transport,
            from,
            to,
        }
    }

    /// The packet, in a vector.
    pub fn build(self) -> Transmit<Vec<u8>> {
        Transmit::new(self.data.build(), self.transport, self.from, self.to)
    }

    /// The packet, at the front of `dest`.
    ///
    /// # Panics
    ///
    /// `dest` is shorter than the packet.
    pub fn write_into(self, dest: &mut [u8]) -> Transmit<&mut [u8]> {
        let len = self.data.write_into(dest);
        Transmit::new(&mut dest[..len], self.transport, self.from, self.to)
    }
}
