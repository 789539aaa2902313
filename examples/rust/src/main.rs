//! Sends a text to a peer through a TURN server over UDP, prints what the peer sends back, deletes the allocation and ends.
//!
//! usage: `echo SERVER:PORT USER PASSWORD PEER:PORT TEXT`
//!
//! It is the whole caller of the package: a socket and a clock. `docs/start/RUST.md` says how to run it.

use std::env;
use std::error::Error;
use std::io::ErrorKind;
use std::net::{Ipv4Addr, Ipv6Addr, SocketAddr, ToSocketAddrs, UdpSocket};
use std::time::Duration;
use yarrowdoor::api::{Transmit, TurnConfig, TurnEvent, TurnPollRet, TurnRecvRet};
use yarrowdoor::hints::{self, Frame};
use yarrowdoor::prelude::*;
use yarrowdoor::stun::Instant;
use yarrowdoor::types::{AddressFamily, TransportType, TurnCredentials};
use yarrowdoor::udp::TurnClientUdp;

type Result<T> = std::result::Result<T, Box<dyn Error>>;

struct Caller {
    client: TurnClientUdp,
    socket: UdpSocket,
    start: std::time::Instant,
    peer: SocketAddr,
    text: String,
    /// The request that the server challenged first.
    challenged: Option<[u8; 12]>,
    /// When what is awaited is given up, and why: the echo ten seconds after the text was sent, and then the client's end.
    give_up: Option<(Instant, &'static str)>,
}

fn resolve(name: &str) -> Result<SocketAddr> {
    Ok(name.to_socket_addrs()?.next().ok_or("no such address")?)
}

/// A socket to the server.
fn connect(server: SocketAddr) -> Result<UdpSocket> {
    let any = match server {
        SocketAddr::V4(_) => SocketAddr::from((Ipv4Addr::UNSPECIFIED, 0)),
        SocketAddr::V6(_) => SocketAddr::from((Ipv6Addr::UNSPECIFIED, 0)),
    };
    let socket = UdpSocket::bind(any)?;
    socket.connect(server)?;
    Ok(socket)
}

impl Caller {
    fn new(server: &str, user: &str, password: &str, peer: &str, text: &str) -> Result<Caller> {
        let (server, peer) = (resolve(server)?, resolve(peer)?);
        let socket = connect(server)?;
        let mut config = TurnConfig::new(TurnCredentials::try_new(user, password)?);
        // the relayed address has the peer's IP version
        config.set_address_family(AddressFamily::from(peer));
        // a NAT forgets a path that is silent for a while, some after 30 s, and with it the server's way to this socket
        config.set_keepalive(Some(Duration::from_secs(15)));
        // grants are refreshed two and a half minutes before they expire, so that a link that is down for one loses none
        config.set_refresh_ahead(Duration::from_secs(150));
        Ok(Caller {
            client: TurnClientUdp::allocate(socket.local_addr()?, server, config),
            socket,
            start: std::time::Instant::now(),
            peer,
            text: text.into(),
            challenged: None,
            give_up: None,
        })
    }

    fn now(&self) -> Instant {
        Instant::from_std(self.start)
    }

    /// A packet that is lost, or that the socket does not take, is retransmitted by the client.
    fn send(&self, packet: &[u8]) {
        if let Err(error) = self.socket.send(packet) {
            eprintln!("echo: not sent: {error}");
        }
    }

    fn handle_event(&mut self, event: &TurnEvent) -> Result<()> {
        let now = self.now();
        match *event {
            TurnEvent::AllocationCreated(transport, relayed) => {
                println!("relayed at port {}", relayed.port());
                self.client
                    .create_permission(transport, self.peer.ip(), now)?;
            }
            TurnEvent::PermissionCreated(transport, _) => {
                let packet =
                    self.client
                        .send_to(transport, self.peer, self.text.as_bytes(), now)?;
                if let Some(packet) = packet {
                    let packet = packet.build();
                    self.send(&packet.data);
                }
                let until = now + Duration::from_secs(10);
                self.give_up = Some((until, "the peer sent nothing back within 10 s"));
            }
            TurnEvent::AllocationCreateFailed(_) => Err("the server gives no relayed address")?,
            TurnEvent::PermissionCreateFailed(..) => Err("the server does not permit the peer")?,
            _ => {}
        }
        Ok(())
    }

    /// Sends what is due, handles what has happened, and returns the wake-up time, or `None` when the client has ended.
    fn drive(&mut self) -> Result<Option<Instant>> {
        loop {
            while let Some(packet) = self.client.poll_transmit(self.now()) {
                self.send(&packet.data);
            }
            if let Some(event) = self.client.poll_event() {
                self.handle_event(&event)?;
                continue;
            }
            match self.client.poll(self.now()) {
                TurnPollRet::WaitUntil(time) if time > self.now() => return Ok(Some(time)),
                TurnPollRet::Closed => return Ok(None),
                // something is due; data connections are only for an allocation over TCP
                _ => {}
            }
        }
    }

    /// Names what the client passes over or tells without a reason: that a signed request was not authenticated, and the code
    /// of an error. Nobody has verified it: a caller with more at stake than this one waits for the client.
    fn name_error(&mut self, packet: &[u8]) -> Result<()> {
        let Ok(Some(Frame::Message(said))) = hints::read(TransportType::Udp, packet) else {
            return Ok(());
        };
        let Some(error) = said.error else {
            return Ok(());
        };
        if error.code != 401 {
            let reason = String::from_utf8_lossy(error.reason);
            eprintln!("echo: the server answers {} {reason}", error.code);
        } else if *self.challenged.get_or_insert(said.id) != said.id {
            // the 401 is to another request than the first
            Err("the user name or the password is wrong")?;
        }
        Ok(())
    }

    /// Waits for a packet of the server, up to a time.
    fn receive(&mut self, until: Instant) -> Result<()> {
        let mut bytes = vec![0; 65_536];
        let wait = (until - self.now()).max(Duration::from_millis(1));
        self.socket.set_read_timeout(Some(wait))?;
        let len = match self.socket.recv(&mut bytes) {
            Ok(len) => len,
            Err(error) if matches!(error.kind(), ErrorKind::WouldBlock | ErrorKind::TimedOut) => {
                return Ok(())
            }
            Err(error) => {
                eprintln!("echo: no answer: {error}");
                return Ok(());
            }
        };
        self.name_error(&bytes[..len])?;
        let (from, to, now) = (
            self.client.remote_addr(),
            self.client.local_addr(),
            self.now(),
        );
        let packet = Transmit::new(&bytes[..len], TransportType::Udp, from, to);
        if let TurnRecvRet::PeerData(sent) = self.client.recv(packet, now) {
            println!("{}", String::from_utf8_lossy(sent.data()));
            self.client.delete(now)?;
            // the server's answer ends the client, or 39.5 s without one; where it refuses to delete, nothing does
            let until = now + Duration::from_secs(40);
            self.give_up = Some((until, "the server does not delete the allocation"));
        }
        Ok(())
    }

    /// Goes on up to this time, or until what is awaited is given up.
    fn wait(&mut self, until: Instant) -> Result<()> {
        match self.give_up {
            Some((end, why)) if end <= self.now() => Err(why)?,
            Some((end, _)) => self.receive(until.min(end)),
            None => self.receive(until),
        }
    }
}

fn main() -> Result<()> {
    let words: Vec<String> = env::args().skip(1).collect();
    let [server, user, password, peer, text] = &words[..] else {
        Err("usage: echo SERVER:PORT USER PASSWORD PEER:PORT TEXT")?
    };
    let mut caller = Caller::new(server, user, password, peer, text)?;
    while let Some(time) = caller.drive()? {
        caller.wait(time)?;
    }
    Ok(())
}
