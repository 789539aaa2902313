//! Traces as calls.

use std::net::{IpAddr, Ipv4Addr, Ipv6Addr, SocketAddr};
use std::time::Duration;
use yarrowdoor::api::{Socket5Tuple, TurnConfig};
use yarrowdoor::stun::auth::Feature;
use yarrowdoor::stun::types::message::IntegrityAlgorithm;
use yarrowdoor::stun::Instant;
use yarrowdoor::types::{AddressFamily, TransportType, TurnCredentials};

const MAX_TRACE: usize = 1_048_576;
const MAX_CALLS: usize = 10_000;
const MAX_PAYLOAD: usize = 65_504;
const FROM_SEND: &str = "timed_from_send";

/// A transport and two ends.
#[derive(Clone, Copy)]
pub struct Ends {
    pub transport: TransportType,
    pub from: SocketAddr,
    pub to: SocketAddr,
}

impl Ends {
    pub fn tuple(&self) -> Socket5Tuple {
        Socket5Tuple {
            transport: self.transport,
            from: self.from,
            to: self.to,
        }
    }
}

/// A client and its server.
pub struct Head {
    pub ends: Ends,
    pub config: TurnConfig,
    pub seed: [u8; 32],
}

/// A call, but for its time.
pub enum Call {
    Poll,
    Transmit,
    Event,
    Recv(Ends, Vec<u8>),
    PollRecv,
    Send(TransportType, SocketAddr, Vec<u8>),
    Permit(TransportType, IpAddr),
    Bind(TransportType, SocketAddr),
    Connect(SocketAddr),
    Socket(u32, Ends, SocketAddr, Option<SocketAddr>),
    Delete,
    Closed(SocketAddr, SocketAddr),
    Error,
    Relayed,
    Permissions(TransportType, SocketAddr),
    Have(TransportType, IpAddr),
    PermissionKept(TransportType, IpAddr, bool),
    ChannelKept(TransportType, SocketAddr, bool),
}

/// The fields of a line.
struct Fields<'a>(std::str::Split<'a, char>);

fn decimal(text: &str, most: u64) -> Option<u64> {
    let is_plain = text.bytes().all(|byte| byte.is_ascii_digit());
    let has_leading_zero = text.len() > 1 && text.starts_with('0');
    let value = if is_plain && !has_leading_zero {
        text.parse().ok()?
    } else {
        None?
    };
    (value <= most).then_some(value)
}

fn number(text: &str) -> Option<u32> {
    u32::try_from(decimal(text, u64::from(u32::MAX))?).ok()
}

fn hex(text: &str) -> Option<Vec<u8>> {
    let is_lower = text
        .bytes()
        .all(|byte| matches!(byte, b'0'..=b'9' | b'a'..=b'f'));
    if !is_lower || text.len() % 2 == 1 {
        return None;
    }
    let pairs = (0..text.len()).step_by(2);
    pairs
        .map(|at| u8::from_str_radix(&text[at..at + 2], 16).ok())
        .collect()
}

fn ip_of(text: &str) -> Option<IpAddr> {
    if let Some(digits) = text
        .strip_prefix('[')
        .and_then(|text| text.strip_suffix(']'))
    {
        let octets: [u8; 16] = hex(digits)?.try_into().ok()?;
        return Some(Ipv6Addr::from(octets).into());
    }
    let parts: Option<Vec<u8>> = text
        .split('.')
        .map(|part| u8::try_from(decimal(part, 255)?).ok())
        .collect();
    let octets: [u8; 4] = parts?.try_into().ok()?;
    Some(Ipv4Addr::from(octets).into())
}

fn address_of(text: &str) -> Option<SocketAddr> {
    let (ip, port) = text.split_once(':')?;
    let port = u16::try_from(decimal(port, 65_535)?).ok()?;
    Some(SocketAddr::new(ip_of(ip)?, port))
}

impl Fields<'_> {
    fn transport(&mut self) -> Option<TransportType> {
        match self.0.next()? {
            "udp" => Some(TransportType::Udp),
            "tcp" => Some(TransportType::Tcp),
            _ => None,
        }
    }

    fn address(&mut self) -> Option<SocketAddr> {
        address_of(self.0.next()?)
    }

    fn ip(&mut self) -> Option<IpAddr> {
        ip_of(self.0.next()?)
    }

    fn ends(&mut self) -> Option<Ends> {
        Some(Ends {
            transport: self.transport()?,
            from: self.address()?,
            to: self.address()?,
        })
    }

    fn bytes(&mut self) -> Option<Vec<u8>> {
        match self.0.next()? {
            "-" => Some(Vec::new()),
            "" => None,
            digits => hex(digits),
        }
    }

    /// An address, or none; `Err` is neither.
    fn address_or_none(&mut self) -> Result<Option<SocketAddr>, ()> {
        match self.0.next().ok_or(())? {
            "-" => Ok(None),
            text => address_of(text).map(Some).ok_or(()),
        }
    }
}

fn set_families(config: &mut TurnConfig, text: &str) -> Option<()> {
    let (first, other) = match text {
        "4" => (AddressFamily::IPV4, None),
        "6" => (AddressFamily::IPV6, None),
        "4,6" => (AddressFamily::IPV4, Some(AddressFamily::IPV6)),
        "6,4" => (AddressFamily::IPV6, Some(AddressFamily::IPV4)),
        _ => return None,
    };
    config.set_address_family(first);
    if let Some(family) = other {
        config.add_address_family(family);
    }
    Some(())
}

fn set_integrity(config: &mut TurnConfig, text: &str) -> Option<()> {
    let (first, other) = match text {
        "sha1" => (IntegrityAlgorithm::Sha1, None),
        "sha256" => (IntegrityAlgorithm::Sha256, None),
        "sha1,sha256" => (IntegrityAlgorithm::Sha1, Some(IntegrityAlgorithm::Sha256)),
        "sha256,sha1" => (IntegrityAlgorithm::Sha256, Some(IntegrityAlgorithm::Sha1)),
        _ => return None,
    };
    config.set_supported_integrity(first);
    if let Some(algorithm) = other {
        config.add_supported_integrity(algorithm);
    }
    Some(())
}

fn set_waits(config: &mut TurnConfig, text: &str) -> Option<()> {
    let parts: Vec<&str> = text.split(',').collect();
    let [initial, max, count, last] = parts[..] else {
        return None;
    };
    let wait = |text| decimal(text, u64::MAX).map(Duration::from_nanos);
    let count = number(count)?;
    config.set_request_retransmits(wait(initial)?, wait(max)?, count, wait(last)?);
    Some(())
}

/// The times, if there is a field for them, and the word for requests that are timed from when they are sent, if it is the last.
fn set_timing(config: &mut TurnConfig, fields: &mut Fields<'_>) -> Option<()> {
    let mut field = fields.0.next();
    if let Some(waits) = field.filter(|&text| text != FROM_SEND) {
        set_waits(config, waits)?;
        field = fields.0.next();
    }
    config.set_requests_timed_from_send(field.is_some());
    field.is_none_or(|text| text == FROM_SEND).then_some(())
}

fn parse_head(line: &str) -> Option<Head> {
    let mut fields = Fields(line.split(' '));
    let ends = fields.ends()?;
    let allocation = fields.transport()?;
    let (families, integrity) = (fields.0.next()?, fields.0.next()?);
    let feature = match fields.0.next()? {
        "auto" => Feature::Auto,
        "required" => Feature::Required,
        "disabled" => Feature::Disabled,
        _ => return None,
    };
    let (user, password) = (fields.bytes()?, fields.bytes()?);
    let mut config = TurnConfig::new(TurnCredentials::try_new(user, password).ok()?);
    config.set_allocation_transport(allocation);
    config.set_anonymous_username(feature);
    set_families(&mut config, families)?;
    set_integrity(&mut config, integrity)?;
    let seed = hex(fields.0.next()?)?.try_into().ok()?;
    set_timing(&mut config, &mut fields)?;
    let is_over_tcp = ends.transport == TransportType::Tcp || allocation == TransportType::Udp;
    (is_over_tcp && fields.0.next().is_none()).then_some(Head { ends, config, seed })
}

fn parse_arguments(name: &str, fields: &mut Fields<'_>) -> Option<Call> {
    let call = match name {
        "poll" => Call::Poll,
        "transmit" => Call::Transmit,
        "event" => Call::Event,
        "recv" => Call::Recv(fields.ends()?, fields.bytes()?),
        "poll_recv" => Call::PollRecv,
        "send" => Call::Send(fields.transport()?, fields.address()?, fields.bytes()?),
        "permit" => Call::Permit(fields.transport()?, fields.ip()?),
        "bind" => Call::Bind(fields.transport()?, fields.address()?),
        "connect" => Call::Connect(fields.address()?),
        "socket" => Call::Socket(
            number(fields.0.next()?)?,
            fields.ends()?,
            fields.address()?,
            fields.address_or_none().ok()?,
        ),
        "delete" => Call::Delete,
        "closed" => Call::Closed(fields.address()?, fields.address()?),
        "error" => Call::Error,
        "relayed" => Call::Relayed,
        "permissions" => Call::Permissions(fields.transport()?, fields.address()?),
        "have" => Call::Have(fields.transport()?, fields.ip()?),
        "release" => take_kept(fields, false)?,
        "keep" => take_kept(fields, true)?,
        _ => return None,
    };
    fields.0.next().is_none().then_some(call)
}

/// The permission, or with a port the channel, that is kept or let go.
fn take_kept(fields: &mut Fields<'_>, is_kept: bool) -> Option<Call> {
    let (transport, grantee) = (fields.transport()?, fields.0.next()?);
    Some(match ip_of(grantee) {
        Some(ip) => Call::PermissionKept(transport, ip, is_kept),
        None => Call::ChannelKept(transport, address_of(grantee)?, is_kept),
    })
}

const NAMES: [&str; 18] = [
    "poll",
    "transmit",
    "event",
    "recv",
    "poll_recv",
    "send",
    "permit",
    "bind",
    "connect",
    "socket",
    "delete",
    "closed",
    "error",
    "relayed",
    "permissions",
    "have",
    "release",
    "keep",
];

fn parse_call(allocation: TransportType, line: &str) -> Result<(Instant, Call), &'static str> {
    let mut fields = Fields(line.split(' '));
    let time = fields
        .0
        .next()
        .and_then(|text| i64::try_from(decimal(text, 1 << 62)?).ok())
        .ok_or("moment")?;
    let name = fields
        .0
        .next()
        .filter(|name| NAMES.contains(name))
        .ok_or("call")?;
    let call = parse_arguments(name, &mut fields).ok_or("argument")?;
    match &call {
        Call::Send(_, _, data) if allocation == TransportType::Udp && data.len() > MAX_PAYLOAD => {
            Err("payload")
        }
        _ => Ok((Instant::from_nanos(time), call)),
    }
}

type Trace = (Head, Vec<(Instant, Call)>);

/// The client and the calls, or the number of the first bad line, and which kind it is.
pub fn parse_trace(text: &[u8]) -> Result<Trace, (usize, &'static str)> {
    if text.len() > MAX_TRACE {
        return Err((0, "size"));
    }
    // what is no text is no head and no call either, so how it is replaced does not matter
    let text = String::from_utf8_lossy(text);
    let mut lines = text.strip_suffix('\n').unwrap_or(&text).split('\n');
    let head = lines.next().and_then(parse_head).ok_or((1, "head"))?;
    let mut calls = Vec::new();
    for line in lines {
        let number = calls.len() + 2;
        if calls.len() == MAX_CALLS {
            return Err((number, "size"));
        }
        let call = parse_call(head.config.allocation_transport(), line);
        calls.push(call.map_err(|kind| (number, kind))?);
    }
    Ok((head, calls))
}
