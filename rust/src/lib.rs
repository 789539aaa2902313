//! A TURN client that does no I/O (RFC 8656, 6062 and 6156): sockets and clock are the program's.
//!
//! This package gives the surface of the crate `turn-client-proto` 0.7.3, by its names, over the library for C that
//! `tools/build/library` builds. The client in that library is proved; this package and its caller are not. It needs no other
//! package.
//!
//! # Getting started
//!
//! A client over UDP is [`udp::TurnClientUdp`], and one over TCP [`tcp::TurnClientTcp`]; [`client::TurnClient`] is either
//! of them. The trait of all clients is [`api::TurnClientApi`]; the module [`api`] has an exchange, and `examples/rust` of the
//! repository a whole program.
//!
//! ```
//! use yarrowdoor::api::TurnConfig;
//! use yarrowdoor::types::TurnCredentials;
//! use yarrowdoor::udp::TurnClientUdp;
//!
//! let turn_server_address = "127.0.0.1:3478".parse().unwrap();
//! let local_address = "127.0.0.1:1000".parse().unwrap();
//! let credentials = TurnCredentials::new("username", "password");
//! let config = TurnConfig::new(credentials);
//!
//! let client = TurnClientUdp::allocate(local_address, turn_server_address, config);
//! ```
//!
//! # In place of the original crate
//!
//! In a program that uses `turn-client-proto` one line of `Cargo.toml` changes. The original's own paths stay; those of the
//! crates below it are under [`types`] and [`stun`].
//!
//! ```toml
//! turn-client-proto = { package = "yarrowdoor", path = "CLONE/rust" }
//! ```
//!
//! # Differences from the original crate
//!
//! - Times are from 0 to 2^62 ns, and each call panics at others. A user name has 1 to 508 bytes and a password at most
//!   65,535, and [`types::TurnCredentials::new`] panics at others; `try_new` returns an error.
//! - [`api::SendError`] has the variant `PayloadTooLong`: data of over 65,504 bytes fits into no datagram to the server.
//! - A packet of `send_to` is built by the call: [`api::DelayedMessageOrChannelSend`] holds its bytes. Neither
//!   [`types::transmit::DelayedChannel`] nor [`types::transmit::DelayedMessage`] is made otherwise.
//! - [`api::TurnConfig`] has five setters more: `set_max_stale_nonces`, `set_request_cadence`, `set_keepalive`,
//!   `set_refresh_ahead` and `set_requests_timed_from_send`, and `kept_grants` and `longest_cadence`, which say how many grants a client keeps beside an
//!   [`api::Load`]. Each client has `set_permission_kept` and `set_channel_kept` beside the trait, with the error
//!   [`api::KeepError`], `send_head`, which makes an [`api::PacketHead`], and `abandon`, for who closes a socket at once.
//! - `allocate_with_seed` takes the seed of the transaction IDs; `allocate` draws one from the system.
//! - [`stun`] and [`types`] have only what a caller of a client uses, and nothing that reads or writes messages: [`hints`] reads
//!   what a server says.
//! - What a client does differently is in the repository's `docs/DIFFERENCES.md`, under *Behaviour*.
//! - If memory allocation fails, the process ends, as everywhere in Rust (`std::alloc::handle_alloc_error`).
//! - A client is `Send` and `Sync`, by arguments that nothing proves (`handle.rs`): it moves to another thread, and a `&client`,
//!   with which several threads may look at once, is held across an await.

pub mod api;
pub mod client;
mod convert;
#[expect(unsafe_code, reason = "it calls the library")]
mod handle;
#[expect(unsafe_code, reason = "it calls the library")]
pub mod hints;
mod protocol;
#[expect(unsafe_code, reason = "it overwrites what is freed next")]
mod secret;
pub mod stun;
#[allow(unsafe_code, reason = "it declares what the library exports")]
mod sys;
pub mod tcp;
pub mod types;
pub mod udp;

/// The traits that a caller needs.
pub mod prelude {
    pub use crate::api::TurnClientApi;
    pub use crate::types::prelude::DelayedTransmitBuild;
}
