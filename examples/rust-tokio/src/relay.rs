//! A client over a socket of tokio.

use std::io;
use std::net::{Ipv4Addr, Ipv6Addr, SocketAddr};
use std::time::Duration;
use tokio::net::UdpSocket;
use tokio::time::timeout_at;
use yarrowdoor::api::{Transmit, TurnConfig, TurnEvent, TurnPollRet, TurnRecvRet};
use yarrowdoor::hints::{self, Frame, MessageClass};
use yarrowdoor::prelude::*;
use yarrowdoor::stun::Instant;
use yarrowdoor::types::TransportType;
use yarrowdoor::udp::TurnClientUdp;

/// What has happened.
pub enum Next {
    Event(TurnEvent),
    /// Data of a peer.
    Data(SocketAddr, Vec<u8>),
    /// The client has ended. Nothing happens any more.
    Closed,
}

pub struct Relay {
    client: TurnClientUdp,
    socket: UdpSocket,
    start: std::time::Instant,
    bytes: Vec<u8>,
    /// The ID of the request that was challenged first.
    challenged: Option<[u8; 12]>,
}

/// The longest time without a look at the clock.
const LONGEST_WAIT: Duration = Duration::from_secs(1_000);

impl Relay {
    /// A client of this server. It sends nothing until `next` is awaited.
    pub async fn new(server: SocketAddr, config: TurnConfig) -> io::Result<Relay> {
        let any = match server {
            SocketAddr::V4(_) => SocketAddr::from((Ipv4Addr::UNSPECIFIED, 0)),
            SocketAddr::V6(_) => SocketAddr::from((Ipv6Addr::UNSPECIFIED, 0)),
        };
        let socket = UdpSocket::bind(any).await?;
        socket.connect(server).await?;
        Ok(Relay {
            client: TurnClientUdp::allocate(socket.local_addr()?, server, config),
            socket,
            start: std::time::Instant::now(),
            bytes: vec![0; 65_536],
            challenged: None,
        })
    }

    fn now(&self) -> Instant {
        Instant::from_std(self.start)
    }

    /// The client, for calls that only look. Such a reference may be held across an await.
    pub fn client(&self) -> &TurnClientUdp {
        &self.client
    }

    /// Requests a permission for a peer. An event tells the outcome.
    pub fn permit(&mut self, transport: TransportType, peer: SocketAddr) -> io::Result<()> {
        let now = self.now();
        Ok(self.client.create_permission(transport, peer.ip(), now)?)
    }

    /// Requests that the server delete the allocation. The client has ended when it has.
    pub fn delete(&mut self) -> io::Result<()> {
        let now = self.now();
        Ok(self.client.delete(now)?)
    }

    /// Sends data to a peer. As over any UDP, it may be lost.
    pub async fn send(
        &mut self,
        transport: TransportType,
        peer: SocketAddr,
        data: &[u8],
    ) -> io::Result<()> {
        let now = self.now();
        if let Some(packet) = self.client.send_to(transport, peer, data, now)? {
            self.transmit(&packet.build().data).await;
        }
        Ok(())
    }

    /// A packet that is lost, or that the socket does not take, is retransmitted by the client.
    async fn transmit(&self, packet: &[u8]) {
        if let Err(error) = self.socket.send(packet).await {
            eprintln!("echo: not sent: {error}");
        }
    }

    /// Drives the client up to the next thing that has happened.
    ///
    /// It may be cancelled: nothing that was received is lost then, and a packet that was not sent is sent again.
    ///
    /// # Errors
    ///
    /// `PermissionDenied`: the server says that the user name or the password is wrong. Nobody has verified that it was the
    /// server who said so.
    pub async fn next(&mut self) -> io::Result<Next> {
        loop {
            while let Some(packet) = self.client.poll_transmit(self.now()) {
                self.transmit(&packet.data).await;
            }
            let polled = self.client.poll(self.now());
            if let Some(event) = self.client.poll_event() {
                return Ok(Next::Event(event));
            }
            let until = match polled {
                TurnPollRet::WaitUntil(time) => time.min(self.now() + LONGEST_WAIT),
                TurnPollRet::Closed => return Ok(Next::Closed),
                // only of an allocation over TCP
                _ => continue,
            };
            let until = until.to_std(self.start).into();
            match timeout_at(until, self.socket.recv(&mut self.bytes)).await {
                Ok(Ok(len)) => {
                    if let Some(next) = self.receive(len)? {
                        return Ok(next);
                    }
                }
                // nobody listens there now: the client goes on until it gives up
                Ok(Err(error)) => eprintln!("echo: no answer: {error}"),
                // the wake-up time
                Err(_) => {}
            }
        }
    }

    /// Passes in a datagram, of so many bytes.
    fn receive(&mut self, len: usize) -> io::Result<Option<Next>> {
        let (from, to, now) = (
            self.client.remote_addr(),
            self.client.local_addr(),
            self.now(),
        );
        let bytes = &self.bytes[..len];
        let packet = Transmit::new(bytes, TransportType::Udp, from, to);
        match self.client.recv(packet, now) {
            TurnRecvRet::PeerData(sent) => Ok(Some(Next::Data(sent.peer, sent.into()))),
            TurnRecvRet::Ignored(_) if is_refused(bytes, self.challenged) => Err(io::Error::new(
                io::ErrorKind::PermissionDenied,
                "the server says that the user name or the password is wrong",
            )),
            TurnRecvRet::Handled => {
                self.challenged = self.challenged.or(unauthorized(bytes));
                Ok(None)
            }
            _ => Ok(None),
        }
    }
}

/// The request to which these bytes are the error response 401.
fn unauthorized(bytes: &[u8]) -> Option<[u8; 12]> {
    match hints::read(TransportType::Udp, bytes) {
        Ok(Some(Frame::Message(said))) if said.class == MessageClass::Error => said
            .error
            .filter(|error| error.code == 401)
            .map(|_| said.id),
        _ => None,
    }
}

/// Whether a signed request was refused: another one than the one that was challenged, of which copies may come.
fn is_refused(bytes: &[u8], challenged: Option<[u8; 12]>) -> bool {
    challenged.is_some() && unauthorized(bytes).is_some_and(|id| Some(id) != challenged)
}
