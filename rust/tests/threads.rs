//! A client that is shared: several threads look at it, and a future holds a reference to it while it waits.

mod server;

use server::{allocated, at, grant, next};
use std::future::{ready, Future};
use std::net::IpAddr;
use std::pin::pin;
use std::sync::Arc;
use std::task::{Context, Poll, Wake};
use std::thread;
use yarrowdoor::prelude::*;
use yarrowdoor::types::TransportType;
use yarrowdoor::udp::TurnClientUdp;

const UDP: TransportType = TransportType::Udp;

fn peer(number: u8) -> IpAddr {
    IpAddr::from([10, 0, 1, number])
}

/// A client with an allocation, and with permissions for the first nine peers.
fn client() -> TurnClientUdp {
    let mut client = allocated();
    for number in 1..10 {
        let now = at(u64::from(number) + 1);
        client.create_permission(UDP, peer(number), now).unwrap();
        let request = next(&mut client, now).unwrap();
        grant(&mut client, &request, &[], now);
    }
    client
}

/// What a thread sees of the client.
fn look(client: &TurnClientUdp) {
    let relayed: Vec<_> = client.relayed_addresses().collect();
    assert_eq!(relayed, [(UDP, "10.0.0.2:50000".parse().unwrap())]);
    let permitted: Vec<_> = client.permissions(UDP, relayed[0].1).collect();
    assert_eq!(permitted, (1..10).map(peer).collect::<Vec<_>>());
    for number in 1..20 {
        assert_eq!(client.have_permission(UDP, peer(number)), number < 10);
    }
}

#[test]
fn threads_look_at_once() {
    let client = client();
    thread::scope(|scope| {
        for _ in 0..4 {
            scope.spawn(|| (0..500).for_each(|_| look(&client)));
        }
    });
    look(&client);
}

/// Wakes nothing.
struct Idle;

impl Wake for Idle {
    fn wake(self: Arc<Self>) {}
}

#[test]
fn a_reference_is_held_across_an_await() {
    async fn later(client: &TurnClientUdp) -> usize {
        let before = client.relayed_addresses().count();
        ready(()).await;
        before + client.relayed_addresses().count()
    }

    // what a runtime with several threads asks of a task
    fn spawn<T>(task: impl Future<Output = T> + Send) -> Poll<T> {
        pin!(task).poll(&mut Context::from_waker(&Arc::new(Idle).into()))
    }

    assert_eq!(spawn(later(&client())), Poll::Ready(2));
}
