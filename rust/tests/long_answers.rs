//! Data of a peer that is longer than what one answer of the library has room for (65,556 bytes).

mod server;

use server::tcp::{bind, client, PEER};
use server::{answer, at};
use yarrowdoor::api::{TurnEvent, TurnRecvRet};
use yarrowdoor::prelude::*;

// The data lies behind the response in one piece, so that the library has to keep it. No two of its rows of 251 are the same.
#[test]
fn all_of_a_long_answer_is_read() {
    for len in [1, 65_555, 65_556, 65_557, 131_112, 131_113, 400_000] {
        let data: Vec<u8> = (0..len)
            .map(|at: usize| (at % 251 + at / 251).to_le_bytes()[0])
            .collect();
        let mut client = client();
        let bind = bind(&mut client);
        let mut piece = server::success(&bind, &[]);
        piece.extend_from_slice(&data);
        let mut found = Vec::new();
        match answer(&mut client, &bind, piece, at(4)) {
            TurnRecvRet::PeerData(peer_data) => found.extend_from_slice(peer_data.data()),
            TurnRecvRet::Handled => {}
            other => panic!("{other:?}"),
        }
        while let Some(peer_data) = client.poll_recv(at(4)) {
            assert_eq!(peer_data.peer, PEER.parse().unwrap());
            found.extend_from_slice(peer_data.data());
        }
        assert_eq!(
            client.poll_event(),
            Some(TurnEvent::TcpConnected(PEER.parse().unwrap()))
        );
        assert!(found == data, "{} of {len} bytes", found.len());
    }
}
