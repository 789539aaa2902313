//! What a TURN client has of STUN (RFC 8489), under the names of the crate `stun_proto`.

pub use instant::Instant;

mod instant;

/// Packets.
pub mod agent {
    use super::types::data::Data;
    use super::types::TransportType;
    use std::net::SocketAddr;

    /// A packet: bytes with their transport, source and destination.
    #[derive(Clone, Copy, Debug, PartialEq, Eq)]
    pub struct Transmit<T> {
        /// The bytes.
        pub data: T,
        /// What carries them.
        pub transport: TransportType,
        /// The source.
        pub from: SocketAddr,
        /// The destination.
        pub to: SocketAddr,
    }

    impl<T> Transmit<T> {
        /// A packet with these bytes.
        pub fn new(
            data: T,
            transport: TransportType,
            from: SocketAddr,
            to: SocketAddr,
        ) -> Transmit<T> {
            Transmit {
                data,
                transport,
                from,
                to,
            }
        }
    }

    impl Transmit<Data<'_>> {
        /// The packet with bytes of its own.
        #[must_use]
        pub fn into_owned(self) -> Transmit<Data<'static>> {
            Transmit::new(self.data.into_owned(), self.transport, self.from, self.to)
        }
    }
}

/// Long-term credentials.
pub mod auth {
    /// Whether something that a server may lack is used.
    #[derive(Clone, Copy, Debug, Default, PartialEq, Eq)]
    pub enum Feature {
        /// As the client sees the server offer it: never, so far.
        #[default]
        Auto,
        /// Always.
        Required,
        /// Never.
        Disabled,
    }
}

/// Messages and what is in them, under the names of the crate `stun_types`.
pub mod types {
    use std::fmt;

    pub use super::Instant;

    /// A transport.
    #[derive(Clone, Copy, Debug, PartialEq, Eq, Hash, PartialOrd, Ord)]
    pub enum TransportType {
        /// Datagrams.
        Udp,
        /// A stream of bytes.
        Tcp,
    }

    impl fmt::Display for TransportType {
        fn fmt(&self, f: &mut fmt::Formatter<'_>) -> fmt::Result {
            f.write_str(match self {
                TransportType::Udp => "UDP",
                TransportType::Tcp => "TCP",
            })
        }
    }

    /// Bytes, borrowed or owned.
    pub mod data {
        use std::borrow::Cow;
        use std::ops::Deref;

        /// Bytes, borrowed or owned.
        #[derive(Clone, Debug, PartialEq, Eq)]
        pub enum Data<'a> {
            /// Bytes of another owner.
            Borrowed(&'a [u8]),
            /// Bytes of its own.
            Owned(Box<[u8]>),
        }

        impl Data<'_> {
            /// The bytes, copied only if they are borrowed.
            #[must_use]
            pub fn into_owned(self) -> Data<'static> {
                match self {
                    Data::Borrowed(bytes) => Data::Owned(bytes.into()),
                    Data::Owned(bytes) => Data::Owned(bytes),
                }
            }
        }

        impl Deref for Data<'_> {
            type Target = [u8];

            fn deref(&self) -> &[u8] {
                match self {
                    Data::Borrowed(bytes) => bytes,
                    Data::Owned(bytes) => bytes,
                }
            }
        }

        impl AsRef<[u8]> for Data<'_> {
            fn as_ref(&self) -> &[u8] {
                self
            }
        }

        impl<'a> From<&'a [u8]> for Data<'a> {
            fn from(bytes: &'a [u8]) -> Data<'a> {
                Data::Borrowed(bytes)
            }
        }

        impl From<Vec<u8>> for Data<'static> {
            fn from(bytes: Vec<u8>) -> Data<'static> {
                Data::Owned(bytes.into())
            }
        }

        /// The bytes, copied only if they are borrowed.
        impl From<Data<'_>> for Vec<u8> {
            fn from(data: Data<'_>) -> Vec<u8> {
                match data {
                    Data::Borrowed(bytes) => bytes.to_vec(),
                    Data::Owned(bytes) => bytes.into(),
                }
            }
        }

        impl<'a> From<Cow<'a, [u8]>> for Data<'a> {
            fn from(bytes: Cow<'a, [u8]>) -> Data<'a> {
                match bytes {
                    Cow::Borrowed(bytes) => Data::Borrowed(bytes),
                    Cow::Owned(bytes) => Data::Owned(bytes.into()),
                }
            }
        }

        impl From<Box<[u8]>> for Data<'static> {
            fn from(bytes: Box<[u8]>) -> Data<'static> {
                Data::Owned(bytes)
            }
        }
    }

    /// How messages are signed.
    pub mod message {
        /// How messages are signed (RFC 8489, sections 14.5 and 14.6).
        #[derive(Clone, Copy, Debug, PartialEq, Eq, Hash, PartialOrd, Ord)]
        pub enum IntegrityAlgorithm {
            /// MESSAGE-INTEGRITY.
            Sha1,
            /// MESSAGE-INTEGRITY-SHA256.
            Sha256,
        }
    }
}
