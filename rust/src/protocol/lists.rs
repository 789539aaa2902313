//! The lists of a client, an address for each call.

use super::{timeless, unexpected};
use crate::convert::{address, socket, transport, transport_code};
use crate::handle::Handle;
use crate::stun::types::TransportType;
use crate::sys;
use std::net::{IpAddr, SocketAddr};

/// The addresses of a list that a request names.
#[derive(Debug)]
struct Addresses<'a> {
    handle: &'a Handle,
    request: Request,
}

/// A request for the next address.
struct Request(sys::Request);

impl std::fmt::Debug for Request {
    fn fmt(&self, f: &mut std::fmt::Formatter<'_>) -> std::fmt::Result {
        write!(f, "{}", self.0.id)
    }
}

impl Addresses<'_> {
    /// The address that the request names. The next one is named by the number that `next` makes of the request's number and
    /// of the answer.
    fn next(&mut self, next: impl FnOnce(u32, &sys::Answer) -> u32) -> Option<sys::Answer> {
        let answer = self.handle.look(&self.request.0);
        match answer.kind {
            sys::NOTHING => None,
            sys::ADDRESS => {
                self.request.0.id = next(self.request.0.id, &answer);
                Some(answer)
            }
            _ => unexpected(&answer),
        }
    }
}

/// The relayed addresses.
#[derive(Debug)]
pub(crate) struct RelayedAddresses<'a>(Addresses<'a>);

impl<'a> RelayedAddresses<'a> {
    pub(super) fn new(handle: &'a Handle) -> RelayedAddresses<'a> {
        let request = Request(timeless(sys::CALL_RELAYED_ADDRESSES));
        RelayedAddresses(Addresses { handle, request })
    }
}

impl Iterator for RelayedAddresses<'_> {
    type Item = (TransportType, SocketAddr);

    fn next(&mut self) -> Option<(TransportType, SocketAddr)> {
        let answer = self.0.next(|index, _| index + 1)?;
        Some((transport(answer.transport), socket(&answer.peer)))
    }
}

/// The peers that have a permission in one allocation.
#[derive(Debug)]
pub(crate) struct Permissions<'a>(Addresses<'a>);

impl<'a> Permissions<'a> {
    pub(super) fn new(
        handle: &'a Handle,
        relayed: TransportType,
        at: SocketAddr,
    ) -> Permissions<'a> {
        let request = Request(sys::Request {
            transport: transport_code(relayed),
            from: address(at),
            ..timeless(sys::CALL_NEXT_PERMISSION)
        });
        Permissions(Addresses { handle, request })
    }
}

impl Iterator for Permissions<'_> {
    type Item = IpAddr;

    fn next(&mut self) -> Option<IpAddr> {
        let answer = self.0.next(|_, answer| answer.id)?;
        Some(socket(&answer.peer).ip())
    }
}
