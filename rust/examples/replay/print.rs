//! Answers as text.

use crate::parse::Ends;
use std::fmt::Write;
use std::net::{IpAddr, SocketAddr};
use yarrowdoor::api::{
    BindChannelError, CreatePermissionError, DeleteError, KeepError, SendError, TcpAllocateError,
    TcpConnectError, TurnEvent, TurnPollRet,
};
use yarrowdoor::types::{AddressFamily, TransportType};

/// The text of a value in a line.
pub trait Text {
    fn text(&self) -> String;
}

fn hex(bytes: &[u8]) -> String {
    bytes.iter().fold(String::new(), |mut text, byte| {
        // a string takes all that is written
        let _ = write!(text, "{byte:02x}");
        text
    })
}

/// Bytes, or `-` for none.
pub fn bytes_text(bytes: &[u8]) -> String {
    if bytes.is_empty() {
        "-".into()
    } else {
        hex(bytes)
    }
}

impl Text for TransportType {
    fn text(&self) -> String {
        match self {
            TransportType::Udp => "udp".into(),
            TransportType::Tcp => "tcp".into(),
        }
    }
}

impl Text for IpAddr {
    fn text(&self) -> String {
        match self {
            IpAddr::V4(ip) => ip.to_string(),
            IpAddr::V6(ip) => format!("[{}]", hex(&ip.octets())),
        }
    }
}

impl Text for SocketAddr {
    fn text(&self) -> String {
        format!("{}:{}", self.ip().text(), self.port())
    }
}

impl Text for Ends {
    fn text(&self) -> String {
        format!(
            "{} {} {}",
            self.transport.text(),
            self.from.text(),
            self.to.text()
        )
    }
}

/// The words of errors: each error by its variants.
macro_rules! words {
    ($($error:ident { $($variant:ident => $word:literal),+ })+) => {
        $(impl Text for $error {
            fn text(&self) -> String {
                match self {
                    $($error::$variant => $word.into(),)+
                    other => other.to_string(),
                }
            }
        })+
    };
}

words! {
    CreatePermissionError { AlreadyExists => "already-exists", NoAllocation => "no-allocation" }
    DeleteError { NoAllocation => "no-allocation" }
    KeepError { NotGranted => "not-granted" }
    SendError { NoAllocation => "no-allocation", NoPermission => "no-permission", NoTcpSocket => "no-socket" }
    TcpConnectError {
        AlreadyExists => "already-exists", NoAllocation => "no-allocation", NoPermission => "no-permission"
    }
    TcpAllocateError { AlreadyExists => "already-exists", NoAllocation => "no-allocation" }
}

impl Text for BindChannelError {
    fn text(&self) -> String {
        match self {
            BindChannelError::AlreadyExists => "already-exists".into(),
            BindChannelError::NoAllocation => "no-allocation".into(),
            BindChannelError::ExpiredChannelExists(time) => format!("expired {}", time.as_nanos()),
            other => other.to_string(),
        }
    }
}

pub fn poll_text(polled: &TurnPollRet) -> String {
    match *polled {
        TurnPollRet::WaitUntil(time) => format!("wait {}", time.as_nanos()),
        TurnPollRet::AllocateTcpSocket {
            id,
            socket,
            peer_addr,
        } => {
            let ends = Ends {
                transport: socket.transport,
                from: socket.from,
                to: socket.to,
            };
            format!("socket {id} {} {}", ends.text(), peer_addr.text())
        }
        TurnPollRet::TcpClose {
            local_addr,
            remote_addr,
        } => format!("close {} {}", local_addr.text(), remote_addr.text()),
        TurnPollRet::Closed => "closed".into(),
    }
}

pub fn event_text(event: &TurnEvent) -> String {
    let about = |word: &str, transport: TransportType, peer: &dyn Text| {
        format!("{word} {} {}", transport.text(), peer.text())
    };
    match *event {
        TurnEvent::AllocationCreated(transport, relayed) => about("allocated", transport, &relayed),
        TurnEvent::AllocationCreateFailed(AddressFamily::IPV4) => "allocate-failed 4".into(),
        TurnEvent::AllocationCreateFailed(AddressFamily::IPV6) => "allocate-failed 6".into(),
        TurnEvent::PermissionCreated(transport, ip) => about("permitted", transport, &ip),
        TurnEvent::PermissionCreateFailed(transport, ip) => about("permit-failed", transport, &ip),
        TurnEvent::ChannelCreated(transport, peer) => about("bound", transport, &peer),
        TurnEvent::ChannelCreateFailed(transport, peer) => about("bind-failed", transport, &peer),
        TurnEvent::TcpConnected(peer) => format!("connected {}", peer.text()),
        TurnEvent::TcpConnectFailed(peer) => format!("connect-failed {}", peer.text()),
    }
}

/// How many there are, and each of them.
pub fn listed(list: impl Iterator<Item = String>) -> String {
    let list: Vec<String> = list.collect();
    let mut text = format!("list {}", list.len());
    for it in list {
        text = text + " " + &it;
    }
    text
}
