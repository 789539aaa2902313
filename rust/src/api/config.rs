//! The configuration of a client.

use crate::convert::nanos_of;
use crate::stun::auth::Feature;
use crate::stun::types::message::IntegrityAlgorithm;
use crate::stun::types::TransportType;
use crate::types::{AddressFamily, TurnCredentials};
use std::num::NonZeroU16;
use std::time::Duration;

/// What a client requests, and how.
#[derive(Clone, Debug, PartialEq, Eq)]
pub struct TurnConfig {
    allocation_transport: TransportType,
    // Neither list is ever empty, and neither has anything twice.
    address_families: Vec<AddressFamily>,
    credentials: TurnCredentials,
    supported_integrity: Vec<IntegrityAlgorithm>,
    anonymous_username: Feature,
    pub(crate) retransmits: Option<Retransmits>,
    max_stale_nonces: NonZeroU16,
    request_cadence: Duration,
    // Neither time is under a second.
    keepalive: Option<Duration>,
    refresh_ahead: Duration,
    requests_timed_from_send: bool,
}

/// How many challenges in a row are answered unless `set_max_stale_nonces` says otherwise.
const DEFAULT_MAX_STALE_NONCES: NonZeroU16 = match NonZeroU16::new(9) {
    Some(limit) => limit,
    None => unreachable!(),
};

/// When requests are retransmitted, in nanoseconds.
#[derive(Clone, Copy, Debug, PartialEq, Eq)]
pub(crate) struct Retransmits {
    pub(crate) initial: u64,
    pub(crate) max: u64,
    pub(crate) count: u32,
    pub(crate) last: u64,
}

/// Adds an element if the list does not have it yet.
fn add<T: PartialEq>(list: &mut Vec<T>, element: T) {
    if !list.contains(&element) {
        list.push(element);
    }
}

/// The shortest time after which a path is kept alive, and before an expiry that a grant is refreshed.
const LEAST: Duration = Duration::from_secs(1);

impl TurnConfig {
    /// A client with these credentials, which requests an IPv4 address relayed over UDP, and signs with SHA-1.
    ///
    /// # Examples
    ///
    /// ```
    /// # use yarrowdoor::api::TurnConfig;
    /// # use yarrowdoor::types::{AddressFamily, TransportType, TurnCredentials};
    /// let credentials = TurnCredentials::new("user", "pass");
    /// let config = TurnConfig::new(credentials.clone());
    /// assert_eq!(config.credentials(), &credentials);
    /// assert_eq!(config.allocation_transport(), TransportType::Udp);
    /// assert_eq!(config.address_families(), &[AddressFamily::IPV4]);
    /// ```
    #[must_use]
    pub fn new(credentials: TurnCredentials) -> TurnConfig {
        TurnConfig {
            allocation_transport: TransportType::Udp,
            address_families: vec![AddressFamily::IPV4],
            credentials,
            supported_integrity: vec![IntegrityAlgorithm::Sha1],
            anonymous_username: Feature::Auto,
            retransmits: None,
            max_stale_nonces: DEFAULT_MAX_STALE_NONCES,
            request_cadence: Duration::from_millis(50),
            keepalive: None,
            refresh_ahead: Duration::from_secs(60),
            requests_timed_from_send: false,
        }
    }

    /// Sets what the server is to relay over. A client over UDP has only allocations over UDP.
    ///
    /// # Examples
    ///
    /// ```
    /// # use yarrowdoor::api::TurnConfig;
    /// # use yarrowdoor::types::{TransportType, TurnCredentials};
    /// let mut config = TurnConfig::new(TurnCredentials::new("user", "pass"));
    /// config.set_allocation_transport(TransportType::Tcp);
    /// assert_eq!(config.allocation_transport(), TransportType::Tcp);
    /// ```
    pub fn set_allocation_transport(&mut self, allocation_transport: TransportType) {
        self.allocation_transport = allocation_transport;
    }

    /// What the server is to relay over.
    #[must_use]
    pub fn allocation_transport(&self) -> TransportType {
        self.allocation_transport
    }

    /// Requests an address of this family too. One that is requested already is ignored.
    ///
    /// # Examples
    ///
    /// ```
    /// # use yarrowdoor::api::TurnConfig;
    /// # use yarrowdoor::types::{AddressFamily, TurnCredentials};
    /// let mut config = TurnConfig::new(TurnCredentials::new("user", "pass"));
    /// config.add_address_family(AddressFamily::IPV4);
    /// assert_eq!(config.address_families(), &[AddressFamily::IPV4]);
    /// config.add_address_family(AddressFamily::IPV6);
    /// assert_eq!(config.address_families(), &[AddressFamily::IPV4, AddressFamily::IPV6]);
    /// ```
    pub fn add_address_family(&mut self, family: AddressFamily) {
        add(&mut self.address_families, family);
    }

    /// Requests an address of this family, and of no other.
    ///
    /// # Examples
    ///
    /// ```
    /// # use yarrowdoor::api::TurnConfig;
    /// # use yarrowdoor::types::{AddressFamily, TurnCredentials};
    /// let mut config = TurnConfig::new(TurnCredentials::new("user", "pass"));
    /// config.set_address_family(AddressFamily::IPV6);
    /// assert_eq!(config.address_families(), &[AddressFamily::IPV6]);
    /// ```
    pub fn set_address_family(&mut self, family: AddressFamily) {
        self.address_families = vec![family];
    }

    /// The families of the addresses that are requested.
    #[must_use]
    pub fn address_families(&self) -> &[AddressFamily] {
        &self.address_families
    }

    /// The credentials.
    #[must_use]
    pub fn credentials(&self) -> &TurnCredentials {
        &self.credentials
    }

    /// Accepts this algorithm too. One that is accepted already is ignored.
    pub fn add_supported_integrity(&mut self, integrity: IntegrityAlgorithm) {
        add(&mut self.supported_integrity, integrity);
    }

    /// Accepts this algorithm, and no other.
    pub fn set_supported_integrity(&mut self, integrity: IntegrityAlgorithm) {
        self.supported_integrity = vec![integrity];
    }

    /// The algorithms that the client accepts. In any order it uses SHA-256 if the server offers that, and else SHA-1.
    #[must_use]
    pub fn supported_integrity(&self) -> &[IntegrityAlgorithm] {
        &self.supported_integrity
    }

    /// Sets whether requests hide the user name (USERHASH; RFC 8489, section 14.4). `Auto` never does.
    pub fn set_anonymous_username(&mut self, anon: Feature) {
        self.anonymous_username = anon;
    }

    /// Whether requests hide the user name.
    #[must_use]
    pub fn anonymous_username(&self) -> Feature {
        self.anonymous_username
    }

    /// Sets when requests are retransmitted (RFC 8489, section 6.2.1). Without this call they are by the RFC's times.
    ///
    /// - `initial`: from when the request is made to the second transmission; it is doubled for each further one.
    /// - `max`: the longest time between two transmissions.
    /// - `retransmits`: the number of transmissions, with the first.
    /// - `final_retransmit_timeout`: from the last transmission to the end of the request.
    ///
    /// Over TCP a request is transmitted once, and times out after the sum of these times. A time of over 2^64 - 1 ns
    /// is that long.
    pub fn set_request_retransmits(
        &mut self,
        initial: Duration,
        max: Duration,
        retransmits: u32,
        final_retransmit_timeout: Duration,
    ) {
        self.retransmits = Some(Retransmits {
            initial: nanos_of(initial),
            max: nanos_of(max),
            count: retransmits,
            last: nanos_of(final_retransmit_timeout),
        });
    }

    /// Sets how many challenges in a row the client answers: the next one ends it. The count begins anew with a signed reply
    /// for a permission, a channel or a CONNECT, or a refresh that takes effect, and not with the allocation. By default they
    /// are 9, and in C, by `yarrowdoor_settings_of`, 256. The original crate has no such setter.
    ///
    /// Set more for many peers over a slow link: refreshes that leave before the first answer returns have one nonce,
    /// and if the server has changed it, each of them is challenged and counts.
    pub fn set_max_stale_nonces(&mut self, max_stale_nonces: NonZeroU16) {
        self.max_stale_nonces = max_stale_nonces;
    }

    /// How many challenges in a row the client answers.
    #[must_use]
    pub fn max_stale_nonces(&self) -> NonZeroU16 {
        self.max_stale_nonces
    }

    /// Sets the pause between two requests (RFC 8656 names none): so long after a packet that
    /// [`poll_transmit`](crate::api::TurnClientApi::poll_transmit) returned, no request is sent for the first time, so that a
    /// server is not flooded. A reply to the server may leave within the pause, and a retransmission does not wait for it. With
    /// 0 there is no pause. By default it is 50 ms. The original crate has no such setter.
    ///
    /// Set less for many permissions and channels: those that were granted together are refreshed together, one in each pause,
    /// all of them within the minute before they expire. The shorter the pause is, the more answers may be under way at once,
    /// and each may be a challenge: see [`set_max_stale_nonces`](Self::set_max_stale_nonces).
    pub fn set_request_cadence(&mut self, request_cadence: Duration) {
        self.request_cadence = request_cadence;
    }

    /// The pause between two requests.
    #[must_use]
    pub fn request_cadence(&self) -> Duration {
        self.request_cadence
    }

    /// Sets after how long without a packet the client keeps its path to the server alive, or with `None` that it never does,
    /// as by default. A NAT forgets a path over UDP that nothing takes for a while, which may be as soon as two minutes (RFC
    /// 4787, section 4.3). The original crate has no such setter.
    ///
    /// While there is an allocation, so long after [`poll_transmit`](crate::api::TurnClientApi::poll_transmit) last returned a
    /// packet it returns a Binding indication (RFC 8489, section 5), to which no reply is awaited. A packet of `send_to` does
    /// not count, since the client does not know whether it was sent. Less than a second is taken as a second. For a NAT, 15 s
    /// are usual (RFC 8445, section 11).
    pub fn set_keepalive(&mut self, keepalive: Option<Duration>) {
        self.keepalive = keepalive.map(|wait| wait.max(LEAST));
    }

    /// After how long without a packet the client keeps its path to the server alive, or `None` if it never does.
    #[must_use]
    pub fn keepalive(&self) -> Option<Duration> {
        self.keepalive
    }

    /// Sets how long before its expiry a grant is refreshed (RFC 8656, section 8, suggests about a minute), but not before half
    /// of its lifetime is over: a permission at most 150 s before, a channel at most 300 s, and an allocation at most half of
    /// its first lifetime, and 300 s. Less than a second is taken as a second. By default it is a minute. The original crate
    /// has no such setter.
    ///
    /// Set more for a link that loses answers for a minute or longer, or for more permissions and channels than leave in a
    /// minute (see [`set_request_cadence`](Self::set_request_cadence)).
    pub fn set_refresh_ahead(&mut self, refresh_ahead: Duration) {
        self.refresh_ahead = refresh_ahead.max(LEAST);
    }

    /// How long before its expiry a grant is refreshed.
    #[must_use]
    pub fn refresh_ahead(&self) -> Duration {
        self.refresh_ahead
    }

    /// Sets whether a queued request waits for its response from when `poll_transmit` returns its first copy (RFC 8489, section
    /// 6.2.1: a request is retransmitted from when it was sent), and not from when it is made. Of a burst each request then
    /// leaves once, in its turn; else all that have not left after half a second leave in one instant, as retransmissions. As
    /// long as its first copy is not taken, a request does not time out, and what it requests stays pending, at the latest until
    /// the allocation is removed. After `delete` that is once the REFRESH was answered or timed out, or, if it is not taken or
    /// the server refuses it, at a `poll` its first lifetime later, or 600 s if that is more. By default requests wait from when
    /// they are made. The original crate has no such setter.
    pub fn set_requests_timed_from_send(&mut self, timed_from_send: bool) {
        self.requests_timed_from_send = timed_from_send;
    }

    /// Whether a queued request waits for its response from when its first copy is returned.
    #[must_use]
    pub fn requests_timed_from_send(&self) -> bool {
        self.requests_timed_from_send
    }
}
