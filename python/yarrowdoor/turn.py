"""A relayed address for asyncio: what users call."""
from __future__ import annotations

import asyncio
import socket
import ssl as tls
from typing import Callable, List, Optional, Tuple, Union

from .address import Address, AddressLike, SocketAddress, checked_ip, checked_peer
from .client import Buffer, Client, Times
from .clock import Clock
from .credentials import Credentials, CredentialsLike, Text, ask, one_source
from .errors import Refused
from .guesses import explained
from .inbox import Inbox, Receiver
from .lifetime import Lifetime
from .link import Link
from .notices import Lost, Notices, Told
from .path import Check
from .room import Room
from .servers import Server
from .session import Session
from .settings import check_seconds, check_times, checked_families
from .streams import Pair
from .uri import TurnUri, parse

__all__ = ["Lost", "TurnClient"]

# The most bytes that a datagram over IPv4 carries, and coturn reads no longer message of a stream: the connection then hangs.
MAX_MESSAGE = 65_507


def size_of(data: Buffer) -> int:
    """How many bytes data has: a memoryview may have items of several."""
    return len(data) if type(data) is bytes else memoryview(data).nbytes


class TurnClient(Told, Lifetime):
    """A relayed address of a TURN server.

        async with TurnClient("turn:turn.example.org", "user", "password") as relay:
            await relay.send(b"hello", ("192.0.2.7", 9000))
            async for data, peer in relay:
                ...

    Peers are IP addresses with ports; names are not resolved. What is counted and reported:

    - `dropped`: packets of peers that came and were dropped, since `queue` of them were waiting.
    - `unsent`: packets to peers that the socket did not take. Losses further on are not counted.
    - `lost`: the last 1,024 permissions and channels that the server no longer renews, as `Lost`; `on_lost`, if it is set, is
      called with each.
    - `on_error`, if it is set, is called with each error of a socket over UDP that does not end the client, such as a lost network.

    Entering it raises `AllocationFailed` if there is no relayed address, and `WrongCredentials` if that is because of user name or
    password. Both have `code` and `phrase`, what an error response said. Over TCP and TLS the connection comes before: the system
    gives up on it after about two minutes, and asyncio on the handshake of TLS after 60 s. It is used in one event loop. If the
    server's name has several addresses, an attempt with the next one begins after 250 ms (RFC 8305), and the first one that
    answers is used.

    Over UDP the relay ends when the system refuses several packets in a row. A silent server is reported by `on_lost`, at most
    five minutes after the last renewal of a permission, and `closed` becomes True when the relayed address expires, up to half an
    hour after its last renewal; with `probe=15` within a minute. Over TCP and TLS a silent server ends the relay within a minute,
    and a route that is gone within 20 s. `address` keeps its last value.

    Making it raises `ValueError` or `TypeError`, which says what is wrong; for `anonymous` and `max_stale_nonces`, for an empty
    user, and for a user or password that is too long, opening it does.

    :param uri: the server's (RFC 7065), as text or parsed: `turn:HOST`, `turn:HOST:PORT?transport=tcp`, `turns:HOST`.
    :param user: the user name; text is encoded as UTF-8.
    :param password: the password; text is encoded as UTF-8.
    :param credentials: in place of user and password both as a pair, or a function that returns both, async or not: it is called
        when the client is opened.
    :param relay: the transport between server and peers: `"udp"`, or `"tcp"` for streams (`connect`, `accept`; RFC 6062), which
        needs a URI over TCP or TLS.
    :param family: that of the relayed address, and so of its peers: 4, 6, or both as `(4, 6)`. Then there are up to two,
        `addresses`, of which the server has to grant one.
    :param ssl: the context for `turns:` URIs, by default `ssl.create_default_context()`.
    :param times: how long a request waits for its response (`Times`), by default 39.5 s in all.
    :param queue: how many packets of peers may wait to be taken; a further one is dropped and counted.
    :param receiver: a function that is called with data and peer, in place of the queue. It runs in the event loop, and must not
        block. What it raises goes to the event loop's exception handler.
    :param probe: how often the path to the server is checked, in seconds: three checks in a row without an answer, nor one to a
        signed request, end the relay. None: never.
    :param keepalive: after this many seconds without a packet one is sent, so that a NAT in between keeps its mapping. 0: never.
    :param pause: the least time between two requests, in seconds.
    :param refresh_ahead: how long before its expiry a permission or channel is refreshed, in seconds.
    :param anonymous: whether the user name is hidden (RFC 8489, section 14.4): `"required"` always, `"disabled"` never, and
        `"auto"` never so far.
    :param max_stale_nonces: how many challenges in a row are answered. It should be greater than the number of permissions and
        channels: their refreshes may all be challenged at once, and that of the relayed address too.
    :param idle: after how many seconds without data in either direction a peer is released, until there is some again. None: never.
    :param redirects: how often a server that names another one is followed (RFC 8489, section 10), over TLS with a certificate for
        the name in `uri`. That answer is unsigned: anyone who sees the first request may send it.
    :param sock: a connected socket to the server, over what the URI says: the name is not looked up. The client uses it from `open`
        on, and closes it.
    :param local_addr: the local address of the socket to the server, as in asyncio.
    :param socket_family: the family of the socket to the server, which asyncio calls `family`.
    :param open_timeout: how many seconds opening may take in all. None: no limit.
    :param close_timeout: how many seconds `close` waits for the server. None: two.
    :param clock: the clock, for tests.
    """

    @explained
    def __init__(self, uri: Union[str, TurnUri], user: Optional[Text] = None, password: Optional[Text] = None, *,
                 credentials: Optional[CredentialsLike] = None, relay: str = "udp", family: Union[int, Tuple[int, int]] = 4,
                 ssl: Optional[tls.SSLContext] = None, times: Optional[Times] = None, queue: int = 1024,
                 receiver: Optional[Receiver] = None, probe: Optional[float] = None, keepalive: float = 15.0,
                 pause: float = 0.005, refresh_ahead: float = 150.0, anonymous: str = "auto", max_stale_nonces: int = 256,
                 idle: Optional[float] = None, redirects: int = 0, sock: Optional[socket.socket] = None,
                 local_addr: Optional[Tuple[str, int]] = None, socket_family: int = socket.AF_UNSPEC,
                 open_timeout: Optional[float] = None, close_timeout: Optional[float] = None,
                 clock: Optional[Clock] = None) -> None:
        self.uri = parse(uri) if isinstance(uri, str) else uri
        if relay not in ("udp", "tcp"):
            raise ValueError(f"relay is 'udp' or 'tcp', and not {relay!r}")
        if relay == "tcp" and self.uri.transport != "tcp":
            raise ValueError("relay='tcp' needs a server over TCP: turn:HOST?transport=tcp, or turns:HOST (RFC 6062, section 4.1)")
        self._families = checked_families(family)
        check_seconds(above_zero={"probe": probe, "idle": idle, "open_timeout": open_timeout, "close_timeout": close_timeout},
                      from_zero={"keepalive": keepalive, "pause": pause, "refresh_ahead": refresh_ahead})
        if not 0 <= redirects < 100:
            raise ValueError(f"redirects is a number from 0 to 99, and not {redirects!r}")
        check_times(times)
        server = Server(self.uri, ssl, sock, local_addr=local_addr, family=socket_family)
        Lifetime.__init__(self, server, Inbox(queue, receiver), redirects, open_timeout)
        Told.__init__(self, self._inbox, Notices())
        self._source: CredentialsLike = one_source(user, password, credentials)
        self._credentials: Optional[Credentials] = None
        self._times, self._anonymous, self._max_stale_nonces = times, anonymous, max_stale_nonces
        self._pause, self._keepalive, self._refresh_ahead = (int(it * 1e9) for it in (pause, keepalive, refresh_ahead))
        self._relay, self._probe, self._idle, self._close_timeout = relay, probe, idle, close_timeout
        self._clock = clock or Clock()
        # How much had come when `send` was called last.
        self._count = -1

    async def _prepare(self) -> None:
        self._credentials = await ask(self._source)

    def _session_over(self, link: Link) -> Session:
        try:
            user, password = self._credentials or ("", "")
            client = Client(link.local, link.remote, user, password, families=self._families,
                            transport=self.uri.transport, allocation=self._relay, times=self._times, anonymous=self._anonymous,
                            max_stale_nonces=self._max_stale_nonces, pause=self._pause, keepalive=self._keepalive,
                            refresh_ahead=self._refresh_ahead)
        except BaseException:
            link.close()
            raise
        session = Session(client, link, self._server, self._relay, self._max_stale_nonces, self._clock, self._inbox, self._notices,
                          self._families, self._idle, self._close_timeout)
        room = Room(str(self.uri), session.alarm, session.counters, self._pause, self._refresh_ahead)
        session.grants.counted = room.counted
        if self._probe is not None:
            session.path.probe(self._probe)
        return session

    # What there is

    @property
    def address(self) -> Address:
        """The relayed address: peers send to it, and see data come from it. It stays readable after the end.

        `Ended` if there never was one.
        """
        found = self._phase.address if isinstance(self._phase, Session) else None
        if found is None:
            raise self._ending()
        return found

    @property
    def addresses(self) -> List[Address]:
        """All relayed addresses: with `family=(4, 6)` one of each family that the server has granted, else only `address`.

        `Ended` if there never was one.
        """
        first = self.address
        return [first, *(it for it in self._session().addresses if it != first)]

    @property
    def mapped_address(self) -> Optional[Address]:
        """This client's own address as the server saw it at the beginning, or None where it did not say it (RFC 8489, section
        14.2). `check` returns the present one."""
        return self._phase.mapped if isinstance(self._phase, Session) else None

    @property
    def local_address(self) -> SocketAddress:
        """The address of the socket to the server."""
        return self._session().link.local

    # Requests

    async def permit(self, ip: str) -> None:
        """Lets an IP address send to the relayed address, and get data (RFC 8656, section 9). It is renewed until the end, also
        where it was released before.

        Waits for the server's answer. `PermissionFailed`, `Ended`; `ValueError` if it is no IP address; `Refused`
        (`no-allocation`) if it has another family than the relayed address.
        """
        host, session = checked_ip(ip), self._session()
        self._check_family(host)
        if session.idle is not None:
            session.idle.ask(host)
        await session.grants.permit(host)

    async def bind(self, peer: AddressLike) -> None:
        """Gives a peer a channel, and a permission: its packets then have 4 bytes of header (RFC 8656, section 12).

        Waits for the server's answer. `ChannelFailed`, `PermissionFailed`, `Ended`; `Refused` if the peer's earlier channel is
        still reserved (`expired`), if all 4,096 numbers are taken (`already-exists`), and if it has another family than the
        relayed address (`no-allocation`).
        """
        where, session = checked_peer(peer), self._session()
        self._check_family(where.host)
        if session.idle is not None:
            session.idle.ask(where)
            session.idle.ask(where.host)
        await session.grants.bind(where)

    def release(self, peer: Union[str, AddressLike]) -> None:
        """Lets go what a peer was granted: with an address its channel, with an IP address its permission. It is used as before,
        and refreshed no more, so that it ends after 10 or 5 minutes, which neither `lost` nor `on_lost` reports. `Refused`
        (`not-granted`) if there is none. Release both, or only the channel if another port uses the permission."""
        self._session().grants.set_kept(checked_ip(peer) if isinstance(peer, str) else checked_peer(peer), False)

    def keep(self, peer: Union[str, AddressLike]) -> None:
        """Takes `release` back, while the grant has not ended. `Refused` (`not-granted`) if there is none."""
        self._session().grants.set_kept(checked_ip(peer) if isinstance(peer, str) else checked_peer(peer), True)

    async def check(self) -> Check:
        """Asks the server whether it answers, and this client's address as it sees it now: a Binding request (RFC 8489, section 3),
        which is sent three times over UDP, and is unanswered after 3.5 s. `Ended` if the client has ended."""
        return await self._session().path.check()

    async def send(self, data: Buffer, peer: AddressLike) -> None:
        """Sends data to a peer: requests its permission first, and waits if the socket is full.

        It does not wait for the data to arrive. If nothing was received since the last `send`, it lets the event loop do other
        work first, so that a loop of sends does not keep it from reading. A permission that the server has refused is not
        requested again for five seconds, then for ten, up to 80: until then `PermissionFailed` comes at once.
        `PermissionFailed`, `Ended`; `Refused` (`no-allocation`) for another family than that of the relayed address; `ValueError`
        for data that does not fit (`sendto`).
        """
        session = self._session()
        # Before the data is sent, so that a send that is cancelled is none.
        if self._count == session.count:
            await asyncio.sleep(0)
        self._count = session.count
        while not session.link.writable.is_set():
            await session.link.writable.wait()
        try:
            self.sendto(data, peer)
        except Refused as refusal:
            if refusal.reason != "no-permission":
                raise
            await session.grants.permit_to_send(checked_peer(peer).host)
            self.sendto(data, peer)

    def sendto(self, data: Buffer, peer: AddressLike) -> None:
        """Sends data to a peer that has a permission, at once, as a datagram: if the socket is full, it is dropped.

        With its header a message has at most 65,507 bytes. So data has at most 65,500 for a peer with a channel, else 65,468,
        and for an IPv6 peer 65,456. `Refused` (`no-permission`; `no-allocation` for another family than that of the relayed
        address), `Ended`; `ValueError` for longer data, and with `relay="tcp"`, which has streams.
        """
        session = self._phase
        if not isinstance(session, Session) or session.over.done():
            raise self._ending()
        if not session.link.send_data(self._packet(session, session.client.data_to, data, peer)):
            self._notices.unsent += 1
            return
        session.counters.packets_out += 1
        session.counters.bytes_out += size_of(data)
        if session.idle is not None:
            session.idle.use(checked_peer(peer))

    def _packet(self, session: Session, data_to: Callable[[AddressLike, Buffer, int], bytes], data: Buffer,
                peer: AddressLike) -> bytes:
        """The message that carries data to a peer, as `data_to` of the client makes it."""
        if self._relay == "tcp":
            raise ValueError("relay='tcp' has streams: use connect, or accept")
        try:
            packet = data_to(peer, data, self._clock.now())
        except Refused:
            session.usable_client()
            self._check_family(peer[0])
            raise
        if len(packet) > MAX_MESSAGE:
            raise ValueError(f"the message to {peer} has {len(packet)} bytes with its header, and at most {MAX_MESSAGE} fit")
        return packet

    def _check_family(self, ip: str) -> None:
        """Refuses a peer that the relayed address cannot reach."""
        asked = 6 if ":" in ip else 4
        families = [6 if ":" in it.host else 4 for it in self._session().addresses]
        if asked not in families:
            detail = f"the relayed address is IPv{families[0]}, and {ip} is IPv{asked} (family={asked} gets such an address)"
            raise Refused("no-allocation", detail=detail)

    async def connect(self, peer: AddressLike) -> Pair:
        """Connects to a peer over TCP, by the server (RFC 6062, section 4.3). It needs `relay="tcp"`.

        `PermissionFailed`, `ConnectFailed`, `Ended`; `Refused` if there is such a connection, or the peer has another family;
        `ValueError` with `relay="udp"`.
        """
        self._check_streams("connect")
        return await self._session().streams.connect(checked_peer(peer))

    async def accept(self) -> Pair:
        """Waits for a peer to connect to the relayed address over TCP: `writer.get_extra_info("peername")` is which.

        The peer needs a permission (RFC 6062, section 4.4). `Ended`; `ValueError` with `relay="udp"`.
        """
        self._check_streams("accept")
        return await self._session().streams.accept()

    def _check_streams(self, call: str) -> None:
        if self._relay != "tcp":
            raise ValueError(f"{call} needs relay='tcp'")
