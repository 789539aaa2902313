//! Runs a client by the calls of a trace, and prints the answer of each call, as `turn_replay` does.
//!
//! usage: `replay [OUT FILE..]`: the trace of standard input, or of each FILE, whose answers go into a file of its name in
//! the folder OUT. `docs/rattle/LINES.md` has the format.

mod parse;
mod print;

use parse::{parse_trace, Call, Ends, Head};
use print::{bytes_text, event_text, listed, poll_text, Text};
use std::fmt::Debug;
use std::io::{Read, Write};
use std::path::Path;
use std::{env, fs, io};
use yarrowdoor::api::{Transmit, TurnRecvRet};
use yarrowdoor::client::TurnClient;
use yarrowdoor::prelude::*;
use yarrowdoor::stun::Instant;
use yarrowdoor::tcp::TurnClientTcp;
use yarrowdoor::types::TransportType;
use yarrowdoor::udp::TurnClientUdp;

fn new_client(head: Head) -> TurnClient {
    let Ends {
        transport,
        from: local,
        to: remote,
    } = head.ends;
    match transport {
        TransportType::Udp => {
            TurnClientUdp::allocate_with_seed(local, remote, head.config, head.seed).into()
        }
        TransportType::Tcp => {
            TurnClientTcp::allocate_with_seed(local, remote, head.config, head.seed).into()
        }
    }
}

/// The text of a call that is done or refused.
fn done<E: Text>(result: Result<(), E>) -> String {
    match result {
        Ok(()) => "ok".into(),
        Err(error) => format!("refused {}", error.text()),
    }
}

fn packet<T: AsRef<[u8]>>(packet: &Transmit<T>) -> String {
    let ends = Ends {
        transport: packet.transport,
        from: packet.from,
        to: packet.to,
    };
    format!("send {} {}", ends.text(), bytes_text(packet.data.as_ref()))
}

fn peer_data(transport: TransportType, peer: std::net::SocketAddr, data: &[u8]) -> String {
    format!(
        "data {} {} {}",
        transport.text(),
        peer.text(),
        bytes_text(data)
    )
}

fn received<T: AsRef<[u8]> + Debug>(outcome: TurnRecvRet<T>) -> String {
    match outcome {
        TurnRecvRet::Handled => "handled".into(),
        TurnRecvRet::Ignored(_) => "ignored".into(),
        TurnRecvRet::PeerData(data) => peer_data(data.transport, data.peer, data.data()),
        TurnRecvRet::PeerIcmp {
            transport,
            peer,
            icmp_type,
            icmp_code,
            icmp_data,
        } => format!(
            "icmp {} {} {icmp_type} {icmp_code} {icmp_data}",
            transport.text(),
            peer.text()
        ),
    }
}

/// A packet for a peer. It is built in one way for each other length, so that both are tried.
fn sent(
    client: &mut TurnClient,
    ends: (TransportType, std::net::SocketAddr),
    data: &[u8],
    now: Instant,
) -> String {
    match client.send_to(ends.0, ends.1, data, now) {
        Err(error) => format!("refused {}", error.text()),
        Ok(None) => "no packet".into(),
        Ok(Some(build)) if data.len() % 2 == 0 => packet(&build.build()),
        Ok(Some(build)) => {
            let mut place = vec![0xee; build.data.len() + 3];
            packet(&build.write_into(&mut place))
        }
    }
}

/// Makes a call, and returns its line.
fn answer(client: &mut TurnClient, call: &Call, now: Instant) -> String {
    match call {
        Call::Poll => poll_text(&client.poll(now)),
        Call::Transmit => client
            .poll_transmit(now)
            .map_or("none".into(), |it| packet(&it)),
        Call::Event => client
            .poll_event()
            .map_or("none".into(), |event| event_text(&event)),
        Call::Recv(ends, bytes) => {
            let transmit = Transmit::new(bytes.as_slice(), ends.transport, ends.from, ends.to);
            received(client.recv(transmit, now))
        }
        Call::PollRecv => client.poll_recv(now).map_or("none".into(), |it| {
            peer_data(it.transport, it.peer, it.data())
        }),
        Call::Send(transport, peer, data) => sent(client, (*transport, *peer), data, now),
        Call::Permit(transport, ip) => done(client.create_permission(*transport, *ip, now)),
        Call::Bind(transport, peer) => done(client.bind_channel(*transport, *peer, now)),
        Call::Connect(peer) => done(client.tcp_connect(*peer, now)),
        Call::Socket(id, ends, peer, local) => {
            done(client.allocated_tcp_socket(*id, ends.tuple(), *peer, *local, now))
        }
        Call::PermissionKept(transport, ip, is_kept) => {
            done(client.set_permission_kept(*transport, *ip, *is_kept))
        }
        Call::ChannelKept(transport, peer, is_kept) => {
            done(client.set_channel_kept(*transport, *peer, *is_kept))
        }
        Call::Delete => done(client.delete(now)),
        Call::Closed(local, remote) => {
            client.tcp_closed(*local, *remote, now);
            "ok".into()
        }
        Call::Error => {
            client.protocol_error();
            "ok".into()
        }
        Call::Relayed => listed(
            client
                .relayed_addresses()
                .map(|(transport, at)| format!("{} {}", transport.text(), at.text())),
        ),
        Call::Permissions(transport, relayed) => {
            listed(client.permissions(*transport, *relayed).map(|ip| ip.text()))
        }
        Call::Have(transport, ip) => if client.have_permission(*transport, *ip) {
            "yes"
        } else {
            "no"
        }
        .into(),
    }
}

/// The text that answers a trace.
fn run(text: &[u8]) -> String {
    match parse_trace(text) {
        Err((number, kind)) => format!("line {number}: bad {kind}\n"),
        Ok((head, calls)) => {
            let mut client = new_client(head);
            calls
                .iter()
                .map(|(now, call)| answer(&mut client, call, *now) + "\n")
                .collect()
        }
    }
}

fn main() -> io::Result<()> {
    let words: Vec<String> = env::args().skip(1).collect();
    let Some((out, files)) = words.split_first() else {
        let mut text = Vec::new();
        io::stdin().read_to_end(&mut text)?;
        return io::stdout().write_all(run(&text).as_bytes());
    };
    for file in files {
        let name = Path::new(file).file_name().unwrap_or_default();
        fs::write(Path::new(out).join(name), run(&fs::read(file)?))?;
    }
    Ok(())
}
