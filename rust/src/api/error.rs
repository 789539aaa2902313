//! Why a client refuses a call: one enum for each call. A refused call leaves the client as it was, but that `NoAllocation`
//! for an allocation past its expiry marks it: it is not used again.

use crate::stun::Instant;
use std::error::Error;
use std::fmt;
use std::io;

/// Declares an error, with the text of each variant.
macro_rules! error {
    ($(#[$doc:meta])* $name:ident { $($(#[$inner:meta])* $variant:ident $(($time:ident: $of:ty))? => $text:literal,)+ }) => {
        $(#[$doc])*
        #[derive(Clone, Copy, Debug, PartialEq, Eq)]
        #[non_exhaustive]
        pub enum $name {
            $($(#[$inner])* $variant $(($of))?,)+
        }

        impl fmt::Display for $name {
            fn fmt(&self, f: &mut fmt::Formatter<'_>) -> fmt::Result {
                match self {
                    $($name::$variant $(($time))? => write!(f, $text $(, $time)?),)+
                }
            }
        }

        impl Error for $name {}

        /// An error of the kind `Other`, with this one in it.
        impl From<$name> for io::Error {
            fn from(error: $name) -> io::Error {
                io::Error::other(error)
            }
        }
    };
}

error! {
    /// Why a channel is not bound.
    BindChannelError {
        /// The peer has an active or a pending channel, or all channel numbers are taken.
        AlreadyExists => "The channel identifier already exists and cannot be recreated.",
        /// The peer had a channel, and may have another only after this time (RFC 8656, section 12).
        ExpiredChannelExists(time: Instant) =>
            "The channel for requested peer address has expired and cannot be recreated until {}.",
        /// No allocation relays over this transport to addresses of the peer's IP version, or it has expired.
        NoAllocation => "There is no connection to the TURN server that can handle this channel.",
    }
}

error! {
    /// Why a permission is not requested.
    CreatePermissionError {
        /// The permission is active or pending.
        AlreadyExists => "The permission already exists and cannot be recreated.",
        /// No allocation relays over this transport to addresses of the peer's IP version, or it has expired.
        NoAllocation => "There is no connection to the TURN server that can handle this permission",
    }
}

error! {
    /// Why the allocations are not deleted.
    DeleteError {
        /// The server has not granted an allocation yet, or the client has ended (not by the expiry of its allocations).
        NoAllocation => "There is no connection to the TURN server",
    }
}

error! {
    /// Why a permission or a channel is neither kept nor released.
    KeepError {
        /// The peer has no permission, or no channel, that is pending or active, or the allocations do not relay over this
        /// transport.
        NotGranted => "There is no such permission or channel",
    }
}

error! {
    /// Why data is not sent to a peer.
    SendError {
        /// There is no allocation. The clients of this package return `NoPermission` then.
        NoAllocation => "There is no connection to the TURN server",
        /// No allocation of this transport has a permission for the peer.
        NoPermission => "There is no permission installed for the requested peer",
        /// The allocation relays over TCP, and no data connection to the peer is bound (RFC 6062, section 4.4).
        NoTcpSocket => "There is no local TCP socket for the requested peer",
        /// The data has over 65,504 bytes, and the allocation relays over UDP.
        PayloadTooLong => "The data is too long for a packet to the TURN server",
    }
}

error! {
    /// Why no connection to a peer is requested.
    TcpConnectError {
        /// A data connection to the peer exists, is pending, or is offered to the caller.
        AlreadyExists => "The TCP connection already exists and cannot be recreated.",
        /// No allocation relays over TCP to addresses of the peer's IP version, or it has expired.
        NoAllocation => "There is no connection to the TURN server that can handle this TCP socket.",
        /// The allocation has no permission for the peer.
        NoPermission => "There is no permission installed for the requested peer",
    }
}

error! {
    /// Why a data connection that the caller opened is not accepted.
    TcpAllocateError {
        /// The local address is that of the control connection or of another data connection.
        AlreadyExists => "The TCP connection already exists and cannot be recreated.",
        /// The client has no such connection offer.
        NoAllocation => "There is no connection to the TURN server that can handle this TCP socket.",
    }
}
