//! Sends a text to a peer through a TURN server over UDP, prints what the peer sends back, deletes the allocation and ends.
//!
//! usage: `echo-tokio SERVER:PORT USER PASSWORD PEER:PORT TEXT`
//!
//! The socket and the clock are tokio's. `examples/README.md` says how to run it.

mod relay;

use relay::{Next, Relay};
use std::error::Error;
use std::net::SocketAddr;
use std::time::Duration;
use tokio::net::lookup_host;
use tokio::runtime;
use tokio::time::timeout;
use yarrowdoor::api::{TurnConfig, TurnEvent};
use yarrowdoor::prelude::*;
use yarrowdoor::types::{AddressFamily, TurnCredentials};

type Result<T> = std::result::Result<T, Box<dyn Error>>;

/// How long the peer may take to send the text back, and the server to delete the allocation.
const PATIENCE: Duration = Duration::from_secs(10);

/// An allocation with a permission for the peer, or why there is none.
async fn open(server: SocketAddr, credentials: TurnCredentials, peer: SocketAddr) -> Result<Relay> {
    let mut config = TurnConfig::new(credentials);
    // the relayed address has the peer's IP version
    config.set_address_family(AddressFamily::from(peer));
    let mut relay = Relay::new(server, config).await?;
    loop {
        match relay.next().await? {
            Next::Event(TurnEvent::AllocationCreated(transport, relayed)) => {
                println!("relayed at port {}", relayed.port());
                relay.permit(transport, peer)?;
            }
            Next::Event(TurnEvent::PermissionCreated(..)) => return Ok(relay),
            Next::Event(TurnEvent::AllocationCreateFailed(_)) => {
                Err("the server gives no relayed address")?;
            }
            Next::Event(TurnEvent::PermissionCreateFailed(..)) => {
                Err("the server does not permit the peer")?;
            }
            Next::Closed => Err("the server does not answer")?,
            Next::Event(_) | Next::Data(..) => {}
        }
    }
}

/// The next data of this peer.
async fn data_of(relay: &mut Relay, peer: SocketAddr) -> Result<Vec<u8>> {
    loop {
        match relay.next().await? {
            Next::Data(from, data) if from == peer => return Ok(data),
            Next::Closed => Err("the allocation has ended")?,
            Next::Event(_) | Next::Data(..) => {}
        }
    }
}

/// Waits until the client has ended.
async fn ended(relay: &mut Relay) -> Result<()> {
    while !matches!(relay.next().await?, Next::Closed) {}
    Ok(())
}

async fn echo(
    server: SocketAddr,
    credentials: TurnCredentials,
    peer: SocketAddr,
    text: &str,
) -> Result<()> {
    let mut relay = open(server, credentials, peer).await?;
    let (transport, _) = relay
        .client()
        .relayed_addresses()
        .next()
        .ok_or("the allocation has ended")?;
    relay.send(transport, peer, text.as_bytes()).await?;
    let data = timeout(PATIENCE, data_of(&mut relay, peer))
        .await
        .map_err(|_| "the peer sent nothing back within 10 s")??;
    println!("{}", String::from_utf8_lossy(&data));
    relay.delete()?;
    timeout(PATIENCE, ended(&mut relay))
        .await
        .map_err(|_| "the server does not delete the allocation")?
}

/// Tries each address of the server's name, and tells why the last one does not serve.
async fn run(words: Vec<String>) -> Result<()> {
    let [server, user, password, peer, text] = &words[..] else {
        Err("usage: echo-tokio SERVER:PORT USER PASSWORD PEER:PORT TEXT")?
    };
    let peer = lookup_host(peer).await?.next().ok_or("no such peer")?;
    let mut result = Err("no such server".into());
    for server in lookup_host(server).await? {
        let credentials = TurnCredentials::try_new(user, password)?;
        result = echo(server, credentials, peer, text).await;
        match &result {
            Ok(()) => break,
            Err(error) => eprintln!("echo: {server}: {error}"),
        }
    }
    result
}

fn main() -> Result<()> {
    let words = std::env::args().skip(1).collect();
    runtime::Builder::new_current_thread()
        .enable_all()
        .build()?
        .block_on(run(words))
}
