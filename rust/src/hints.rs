//! What the packets of a server say, read beside a client: hints, which are not verified.
//!
//! A client passes over an error response that is not signed, as the 401 to a wrong password, and no event has a code.
//!
//! # Examples
//!
//! ```
//! use yarrowdoor::hints::{self, Frame};
//! use yarrowdoor::types::TransportType;
//!
//! // an error response to an ALLOCATE, with the code 403
//! let packet = [
//!     0x01, 0x13, 0x00, 0x08, 0x21, 0x12, 0xa4, 0x42, 0, 0, 0, 0, 0, 0, 0, 0, 0, 0, 0, 7, 0x00, 0x09, 0x00, 0x04, 0, 0, 4, 3,
//! ];
//! let Ok(Some(Frame::Message(said))) = hints::read(TransportType::Udp, &packet) else { panic!("a message") };
//! assert_eq!((said.method, said.error.map(|error| error.code)), (3, Some(403)));
//! ```

use crate::convert::{socket, transport_code};
use crate::stun::types::TransportType;
use crate::sys;
use std::error::Error;
use std::fmt;
use std::net::SocketAddr;

/// The first frame of some bytes.
#[derive(Clone, Copy, Debug, PartialEq, Eq)]
#[non_exhaustive]
pub enum Frame<'a> {
    /// A STUN message.
    Message(Message<'a>),
    /// A `ChannelData` message (RFC 8656, section 12.4).
    ChannelData {
        /// Its bytes, over TCP with the padding.
        len: usize,
        /// The channel number, from 0x4000 to 0x7fff.
        channel: u16,
    },
}

/// What a STUN message says.
#[derive(Clone, Copy, Debug, PartialEq, Eq)]
#[non_exhaustive]
pub struct Message<'a> {
    /// Its bytes.
    pub len: usize,
    /// The method: RFC 8489, section 18.2, RFC 8656, section 17, and RFC 6062, section 6.1. Allocate is 3.
    pub method: u16,
    /// The class.
    pub class: MessageClass,
    /// The transaction ID: that of the request, in a response.
    pub id: [u8; 12],
    /// ERROR-CODE, if there is one that is not malformed.
    pub error: Option<ErrorCode<'a>>,
    /// The first REALM.
    pub realm: Option<&'a [u8]>,
    /// XOR-MAPPED-ADDRESS, the address at which the server sees the client, if there is one that is not malformed.
    pub mapped: Option<SocketAddr>,
    /// ALTERNATE-SERVER, likewise.
    pub alternate: Option<SocketAddr>,
}

/// The class of a message (RFC 8489, section 5).
#[derive(Clone, Copy, Debug, PartialEq, Eq, Hash)]
pub enum MessageClass {
    /// A request.
    Request,
    /// An indication, which has no response.
    Indication,
    /// A success response.
    Success,
    /// An error response.
    Error,
}

/// What an ERROR-CODE says (RFC 8489, section 14.8).
#[derive(Clone, Copy, Debug, PartialEq, Eq)]
#[non_exhaustive]
pub struct ErrorCode<'a> {
    /// The code, from 300 to 699.
    pub code: u16,
    /// The reason, as the server wrote it.
    pub reason: &'a [u8],
}

/// The bytes begin no frame, or the message is malformed; over UDP also what is cut short, and bytes behind a STUN message.
#[derive(Clone, Copy, Debug, PartialEq, Eq)]
pub struct NoFrame;

impl fmt::Display for NoFrame {
    fn fmt(&self, f: &mut fmt::Formatter<'_>) -> fmt::Result {
        f.write_str("the bytes begin no STUN message and no ChannelData")
    }
}

impl Error for NoFrame {}

/// Reads the first frame of bytes that came from the server over this transport: a datagram, or what a stream brought. It is
/// `None` if more bytes are needed, only over TCP.
///
/// # Errors
///
/// `NoFrame`: there is none.
pub fn read(transport: TransportType, bytes: &[u8]) -> Result<Option<Frame<'_>>, NoFrame> {
    let mut said = sys::Message::default();
    // SAFETY: each pointer is that of a reference or a slice, so it is not null, and is valid for its length. `said` is borrowed
    // mutably, so it overlaps nothing.
    unsafe {
        sys::yarrowdoor_read_message(
            transport_code(transport),
            bytes.as_ptr(),
            bytes.len(),
            &raw mut said,
        );
    }
    match said.kind {
        sys::MESSAGE => Ok(Some(Frame::Message(message(&said, bytes)))),
        sys::CHANNEL_DATA => Ok(Some(Frame::ChannelData {
            len: len_of(said.len),
            channel: said.channel,
        })),
        sys::NOTHING => Ok(None),
        _ => Err(NoFrame),
    }
}

/// The value of the first attribute of this type in the STUN message that these bytes are, or begin with. Attributes that do
/// not count, since they stand behind the message's integrity (RFC 8489, sections 14.5 and 14.6), are passed over.
///
/// # Examples
///
/// ```
/// // a Binding indication with SOFTWARE
/// let packet = b"\x00\x11\x00\x08\x21\x12\xa4\x42............\x80\x22\x00\x04text";
/// assert_eq!(yarrowdoor::hints::attribute(packet, 0x8022), Some(&b"text"[..]));
/// assert_eq!(yarrowdoor::hints::attribute(packet, 0x0006), None);
/// ```
#[must_use]
pub fn attribute(bytes: &[u8], kind: u16) -> Option<&[u8]> {
    let (mut start, mut len) = (0, 0);
    // SAFETY: each pointer is that of a reference or a slice, so it is not null, and is valid for its length. Both places are
    // borrowed mutably, so they overlap nothing.
    let answer = unsafe {
        sys::yarrowdoor_read_attribute(
            bytes.as_ptr(),
            bytes.len(),
            kind,
            &raw mut start,
            &raw mut len,
        )
    };
    (answer == sys::YES).then(|| &bytes[start..start + len])
}

fn message<'a>(said: &sys::Message, bytes: &'a [u8]) -> Message<'a> {
    let part = |at: u32, len: u32| {
        let start = len_of(at.into());
        &bytes[start..start + len_of(len.into())]
    };
    Message {
        len: len_of(said.len),
        method: said.method,
        class: class(said.class),
        id: said.id,
        error: (said.code != 0).then(|| ErrorCode {
            code: said.code,
            reason: part(said.reason_at, said.reason_len),
        }),
        realm: (said.realm_at != 0).then(|| part(said.realm_at, said.realm_len)),
        mapped: address(&said.mapped),
        alternate: address(&said.alternate),
    }
}

/// A length in bytes that are in memory.
fn len_of(len: u64) -> usize {
    usize::try_from(len).expect("a length of memory")
}

fn class(code: u16) -> MessageClass {
    match code {
        sys::CLASS_REQUEST => MessageClass::Request,
        sys::CLASS_INDICATION => MessageClass::Indication,
        sys::CLASS_SUCCESS => MessageClass::Success,
        _ => MessageClass::Error,
    }
}

fn address(found: &sys::Address) -> Option<SocketAddr> {
    (found.family != sys::NO_ADDRESS).then(|| socket(found))
}
