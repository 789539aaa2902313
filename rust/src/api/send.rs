//! The packet that carries data to a peer.

use crate::types::transmit::{write, DelayedChannel, DelayedMessage, DelayedTransmitBuild};
use std::fmt::Debug;
use std::ops::Range;

/// The packet that carries data to a peer.
///
/// The client of this package builds it in the call: [`build`](DelayedTransmitBuild::build) returns those bytes without a copy.
/// It is a `Channel` or a `Message` if the allocation relays over UDP, and `Data` if it relays over TCP.
#[derive(Debug)]
pub enum DelayedMessageOrChannelSend<T: AsRef<[u8]> + Debug> {
    /// A `ChannelData` message (RFC 8656, section 12.4), since the peer has a channel.
    Channel(DelayedChannel<T>),
    /// A Send indication (RFC 8656, section 11.1), since the peer has none.
    Message(DelayedMessage<T>),
    /// The data itself.
    Data(T),
    /// A packet that is built already. The client of this package returns none.
    OwnedData(Vec<u8>),
}

impl<T: AsRef<[u8]> + Debug> AsRef<[u8]> for DelayedMessageOrChannelSend<T> {
    fn as_ref(&self) -> &[u8] {
        match self {
            DelayedMessageOrChannelSend::Channel(channel) => channel.as_ref(),
            DelayedMessageOrChannelSend::Message(message) => message.as_ref(),
            DelayedMessageOrChannelSend::Data(data) => data.as_ref(),
            DelayedMessageOrChannelSend::OwnedData(bytes) => bytes,
        }
    }
}

impl<T: AsRef<[u8]> + Debug> DelayedTransmitBuild for DelayedMessageOrChannelSend<T> {
    fn build(self) -> Vec<u8> {
        match self {
            DelayedMessageOrChannelSend::Channel(channel) => channel.build(),
            DelayedMessageOrChannelSend::Message(message) => message.build(),
            DelayedMessageOrChannelSend::Data(data) => data.as_ref().to_vec(),
            DelayedMessageOrChannelSend::OwnedData(bytes) => bytes,
        }
    }

    fn len(&self) -> usize {
        self.as_ref().len()
    }

    fn write_into(self, data: &mut [u8]) -> usize {
        write(self.as_ref(), data)
    }
}

/// A range of bytes, as a packet that is still to be built. No call of this package returns one, as none of the original does.
#[derive(Debug)]
pub struct DelayedTransmit<T: AsRef<[u8]> + Debug> {
    data: T,
    range: Range<usize>,
}

impl<T: AsRef<[u8]> + Debug> AsRef<[u8]> for DelayedTransmit<T> {
    fn as_ref(&self) -> &[u8] {
        &self.data.as_ref()[self.range.clone()]
    }
}

impl<T: AsRef<[u8]> + Debug> DelayedTransmitBuild for DelayedTransmit<T> {
    fn build(self) -> Vec<u8> {
        self.as_ref().to_vec()
    }

    fn len(&self) -> usize {
        self.range.len()
    }

    fn write_into(self, data: &mut [u8]) -> usize {
        write(self.as_ref(), data)
    }
}

#[test]
fn a_range_is_built() {
    let range = || DelayedTransmit {
        data: b"some bytes",
        range: 5..10,
    };
    let mut place = [0; 7];
    assert_eq!(range().len(), 5);
    assert_eq!(range().build(), b"bytes");
    assert_eq!(range().write_into(&mut place), 5);
    assert_eq!(&place, b"bytes\0\0");
}
