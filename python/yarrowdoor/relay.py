# mypy: enable-incomplete-feature=Unpack
"""A relayed address that comes back: after an outage, another address of this host, or a restart of the server."""
from __future__ import annotations

import asyncio
import copy
import functools
import warnings
from typing import TYPE_CHECKING, Any, AsyncIterator, Awaitable, Callable, Dict, List, Optional, Union

from .address import Address, AddressLike, SocketAddress, checked_ip, checked_peer
from .backoff import Backoff
from .client import Buffer, Times
from .counters import Counters
from .credentials import Credentials, CredentialsLike, Text, one_source
from .errors import AllocationFailed, ChannelFailed, Ended, PermissionFailed, because
from .inbox import Inbox, Receiver
from .notices import Notices, Told
from .opened import Opened
from .path import Check
from .revival import Revival
from .settings import check_seconds
from .states import Down, State, States, Up
from .tries import TIMES, Tries, Watched
from .uri import TurnUri
from .vigil import UNSURE
from .within import within

if TYPE_CHECKING:
    from typing_extensions import Unpack

    from .keywords import RelayKeywords

__all__ = ["Relay"]


def _client(counters: Counters, uri: Union[str, TurnUri], settings: Dict[str, Any], credentials: Credentials,
            leaves_port: bool = False) -> Watched:
    if leaves_port and settings.get("local_addr") is not None:
        settings = {**settings, "local_addr": (settings["local_addr"][0], 0)}
    client = Watched(uri, credentials=credentials, **settings)
    client.count_in(counters)
    return client


class Relay(Told, Opened):
    """A relayed address of a TURN server that comes back by itself, as another one: one `TurnClient` after the other.

        async with Relay("turn:turn.example.org", "user", "password", on_state=print) as relay:
            await relay.send(b"hello", ("192.0.2.7", 9000))

    When its client ends for a reason that a new one may cure (nothing answers, the server was restarted or no longer knows the
    address, this host has another address, a stream broke), another one is tried: at once, and then after the waits of `backoff`,
    each until the server is silent for four seconds. The waits begin anew after a relay that was up for a minute. It asks for the
    same permissions and channels, and then the relay is up. `on_state` is called with each change, `Up` or `Down`, and `states`
    gives them. Peers have to learn the new address from you: `Up.is_new` says that there is one.

    Meanwhile `sendto` drops data, which `unsent` counts, and so does `send` without `waits=True`. Requests wait. `lost` and
    `on_lost` report what the server did not grant again.

    If a check of the path has no answer, the server is asked by a signed request, so that one that answers no check, as coturn
    with `--no-stun`, does no harm. A server over UDP that was restarted answers checks as before: it is noticed when a packet of
    this client met its closed port, and else at the next refresh, up to two and a half minutes later if there is a permission.

    The relay ends if user name or password are refused twice in a row, by a server that answers nothing signed (with
    `credentials` as a function those of two calls), if the server refuses this user (403), has no room for it three times in
    a row (486), names another server that is not to be asked (300) or cannot do what is asked (440, 442), and when it is
    closed. It relays over UDP, and has no streams.

    :param uri: the server's (RFC 7065), as text or parsed: `turn:HOST`, `turn:HOST:PORT?transport=tcp`, `turns:HOST`.
    :param user: the user name; text is encoded as UTF-8.
    :param password: the password; text is encoded as UTF-8.
    :param credentials: in place of user and password both as a pair, or a function that returns both, async or not: it is called
        at each try.
    :param backoff: how long to wait between the beginnings of two tries.
    :param waits: whether `send` waits until the relay is up, rather than drop data.
    :param on_state: a function that is called with each `Up` and `Down`.
    :param probe: how often the path to the server is checked, in seconds. None: never.
    :param times: how long a request waits for its response (`Times`), by default 3 s in all.
    :param queue: how many packets of peers may wait to be taken; a further one is dropped and counted.
    :param receiver: a function that is called with data and peer, in place of the queue. It runs in the event loop, and must not
        block.
    :param open_timeout: how many seconds `open` tries. None: no limit.
    :param settings: further arguments of `TurnClient`, except `relay="tcp"` and `sock`.
    """

    def __init__(self, uri: Union[str, TurnUri], user: Optional[Text] = None, password: Optional[Text] = None, *,
                 credentials: Optional[CredentialsLike] = None, backoff: Backoff = Backoff(), waits: bool = False,
                 on_state: Optional[Callable[[State], None]] = None, probe: Optional[float] = 5.0, times: Times = TIMES,
                 queue: int = 1024, receiver: Optional[Receiver] = None, open_timeout: Optional[float] = None,
                 **settings: Unpack[RelayKeywords]) -> None:
        Told.__init__(self, Inbox(queue, receiver), Notices())
        if settings.get("relay", "udp") != "udp":
            raise ValueError("a Relay has no streams: use a TurnClient with relay='tcp'")
        if settings.get("sock") is not None:
            raise ValueError("a Relay makes a socket for each try, so that none is given")
        check_seconds(above_zero={"probe": probe}, from_zero={})
        check_seconds(above_zero={"open_timeout": open_timeout}, from_zero={})
        self._uri, self._waits, self._states, self._open_timeout = uri, waits, States(on_state), open_timeout
        given = {**settings, "times": times, "receiver": self._inbox.put}
        # Nothing of this goes back to the relay, so that one without references is collected.
        make = functools.partial(_client, self._notices.counters, uri, given)
        client = make(Credentials("", ""))  # says what is wrong with the arguments
        if client.ssl is not None:
            given["ssl"] = client.ssl  # To make one takes 0.1 s.
        tries = Tries(make, one_source(user, password, credentials), backoff)
        self._revival = Revival(tries, self._states, self._inbox, self._notices, probe)

    def __del__(self) -> None:
        revival = getattr(self, "_revival", None)
        if revival is not None and revival.is_begun and not revival.is_over:
            revival.abandon()
            why = f"unclosed Relay of {self._uri}: use `async with`, or `close`"
            warnings.warn(why, ResourceWarning, stacklevel=2, source=self)

    def __repr__(self) -> str:
        if self._revival.is_over or not self._revival.is_begun:
            return f"<Relay of {self._uri}: {'closed' if self._revival.is_over else 'not opened'}>"
        return f"<Relay of {self._uri}: {f'up at {self.address}' if isinstance(self.state, Up) else 'down'}>"

    # From opening to the end

    async def open(self) -> None:
        """Tries until the relay is up for the first time, or for `open_timeout` seconds: what entering does. It is called once.

        Raises what ends a relay: `WrongCredentials`, `AllocationFailed`. `RuntimeError` if it was called before.
        """
        self._revival.start()
        try:
            await (self._revival.up() if self._open_timeout is None else within(self._revival.up(), self._open_timeout))
        except asyncio.TimeoutError:
            await self._revival.stop()
            reason = f": {self.state.reason}" if isinstance(self.state, Down) else ""
            raise AllocationFailed(f"no relayed address from {self._uri} in {self._open_timeout} s{reason}") from None
        except Ended as ended:
            why = self._revival.why or AllocationFailed(str(ended))
            raise because(copy.copy(why), why.__cause__)
        except BaseException:
            await self._revival.stop()
            raise

    async def close(self) -> None:
        """Deletes the relayed address, and ends the relay, when the server has answered, or after two seconds."""
        await self._revival.stop()

    def abort(self) -> None:
        """Deletes the relayed address, and ends the relay, at once, as `TurnClient.abort`."""
        self._revival.abort()

    async def wait_closed(self) -> None:
        """Waits until the relay has ended. Raises `Ended` if it ended by itself, or was not opened; its text says why."""
        await self._revival.wait()
        if self._has_failed():
            raise self._ending()

    def _is_not_opened(self) -> bool:
        return not self._revival.is_begun

    def _has_failed(self) -> bool:
        return self._revival.why is not None or not self._revival.is_over

    def _ending(self) -> Ended:
        return self._revival.ending()

    @property
    def closed(self) -> bool:
        """Whether the relay has ended, by `close` or by itself."""
        return self._revival.is_over

    # What there is

    @property
    def state(self) -> Optional[State]:
        """`Up` or `Down`, or None where it was never either."""
        return self._states.now

    def states(self) -> AsyncIterator[State]:
        """The state now, and each change of it: `Up`, `Down`. At most 64 wait to be taken; then the oldest one is forgotten. It
        ends when the relay is closed, and raises `Ended` if the relay ended by itself."""
        return self._states.changes()

    @property
    def address(self) -> Address:
        """The relayed address, or the last one while the relay is down. `Ended` if there never was one."""
        if self._states.address is None:
            raise self._revival.ending()
        return self._states.address

    @property
    def addresses(self) -> List[Address]:
        """All relayed addresses, as `TurnClient.addresses`, or the last ones while the relay is down. `Ended` if there never was
        one."""
        if not self._revival.addresses:
            raise self._revival.ending()
        return list(self._revival.addresses)

    @property
    def mapped_address(self) -> Optional[Address]:
        """This client's own address, as `TurnClient.mapped_address`. None while the relay is down."""
        return self._revival.client.mapped_address if self._revival.client is not None else None

    @property
    def local_address(self) -> SocketAddress:
        """The address of the socket to the server. `Ended` if the relay has ended, and `Refused` while it is down."""
        return self._revival.current().local_address

    @property
    def unsent(self) -> int:
        """How many packets to peers were dropped, since the relay was down, or a socket was full or refused them."""
        return self._notices.unsent + (self._revival.client.unsent if self._revival.client is not None else 0)

    # Requests. Each waits until the relay is up.

    async def permit(self, ip: str) -> None:
        """Lets an IP address send to the relayed address, as `TurnClient.permit`, also to the one that follows it."""
        host = checked_ip(ip)
        await self._ask(lambda client: client.permit(host))

    async def bind(self, peer: AddressLike) -> None:
        """Gives a peer a channel, as `TurnClient.bind`, also at the relayed address that follows this one."""
        where = checked_peer(peer)
        await self._ask(lambda client: client.bind(where))

    async def check(self) -> Check:
        """Asks the server whether it answers, as `TurnClient.check`. While the relay is down there is none."""
        self._revival.check()
        client = self._revival.client
        try:
            if client is not None:
                return await client.check()
        except Ended:
            self._revival.check()
        return Check(False, None)

    async def _ask(self, ask: Callable[[Watched], Awaitable[None]]) -> None:
        while True:
            client = await self._revival.up()
            try:
                return await ask(client)
            except Ended:
                if not client.closed:
                    raise
            except (PermissionFailed, ChannelFailed) as failed:
                if failed.code not in UNSURE or await self._revival.is_good(client):
                    raise

    def release(self, peer: Union[str, AddressLike]) -> None:
        """Lets go what a peer was granted, as `TurnClient.release`: the address that follows does not ask for it. `Refused` also
        while the relay is down."""
        self._revival.current().release(peer)

    def keep(self, peer: Union[str, AddressLike]) -> None:
        """Takes `release` back, as `TurnClient.keep`. `Refused` also while the relay is down."""
        self._revival.current().keep(peer)

    # Data

    async def send(self, data: Buffer, peer: AddressLike) -> None:
        """Sends data to a peer, as `TurnClient.send`. While the relay is down it drops the data, or waits (`waits`)."""
        checked_peer(peer)
        if self._waits:
            return await self._ask(lambda client: client.send(data, peer))
        self._revival.check()
        client = self._revival.client
        try:
            if client is not None:
                return await client.send(data, peer)
        except Ended:
            self._revival.check()
        self._notices.unsent += 1

    def sendto(self, data: Buffer, peer: AddressLike) -> None:
        """Sends data at once to a peer that has a permission, as `TurnClient.sendto`. While the relay is down it is dropped."""
        client = self._revival.client
        try:
            if client is not None:
                return client.sendto(data, peer)
        except Ended:
            pass
        self._revival.check()
        self._notices.unsent += 1
