# mypy: enable-incomplete-feature=Unpack
"""A relayed address without asyncio, for scripts and threads: a thread keeps it, and any thread may make each call.

    with TurnClient("turn:turn.example.org", "user", "password") as relay:
        relay.send(b"hello", ("192.0.2.7", 9000))
        data, peer = relay.receive(timeout=5)
"""
from __future__ import annotations

import collections
import contextlib
import inspect
import socket
import warnings
from typing import TYPE_CHECKING, Awaitable, Callable, Deque, Iterator, List, Optional, Tuple, TypeVar, Union

from .address import Address, AddressLike, SocketAddress, checked_ip, checked_peer
from .client import Buffer
from .counters import Counters
from .credentials import Credentials, CredentialsLike, Text, check_source, one_source
from .errors import AllocationFailed, Ended, Refused
from .forwarding import Forwarded, Settable
from .guesses import explained
from .inbox import Receiver
from .loop_thread import LoopThread, NotAnswered
from .notices import Lost
from .path import Check
from .pipes import piped
from .threads import ThreadClient
from .uri import TurnUri

if TYPE_CHECKING:
    from typing_extensions import Unpack

    from .keywords import ClientKeywords

__all__ = ["TurnClient"]

_Result = TypeVar("_Result")

# How long `close` waits, in seconds: it waits two for the server.
CLOSE_WAIT = 3.0


class TurnClient:
    """A relayed address of a TURN server.

    Each call may be made in any thread, and in a handler of a signal.

    `on_lost`, `on_error`, `on_pause` and `receiver` are called in the thread that keeps the address. They must not block, and of
    this client they may call only what does not wait: `sendto`, `close`, `release`, `keep`, and what there is. Another one is a
    `RuntimeError` there. After a fork the client is the parent's: in the child each call raises `Ended`, and `close` does nothing.

    :param uri: the server's (RFC 7065), as text or parsed: `turn:HOST`, `turn:HOST:PORT?transport=tcp`, `turns:HOST`.
    :param user: the user name; text is encoded as UTF-8.
    :param password: the password; text is encoded as UTF-8.
    :param credentials: in place of user and password both as a pair, or a plain function that returns both: it is called when the
        client is opened.
    :param timeout: how many seconds opening may take.
    :param queue: how many packets of peers may wait to be taken; a further one is dropped and counted.
    :param receiver: a function that is called with data and peer, in place of the queue.
    :param settings: further arguments of `yarrowdoor.TurnClient`.
    """

    @explained
    def __init__(self, uri: Union[str, TurnUri], user: Optional[Text] = None, password: Optional[Text] = None, *,
                 credentials: Union[Tuple[Text, Text], Callable[[], Tuple[Text, Text]], None] = None, timeout: float = 40.0,
                 queue: int = 1024, receiver: Optional[Receiver] = None, **settings: Unpack[ClientKeywords]) -> None:
        if not timeout >= 0:
            raise ValueError(f"timeout is a number of seconds from 0 on, and not {timeout!r}")
        self._source: Union[Tuple[Text, Text], Callable[[], Tuple[Text, Text]]] = one_source(user, password, credentials)
        self._timeout = timeout
        found: List[Tuple[Text, Text]] = []
        self._found = found
        self._thread = LoopThread()
        self._is_opened = False

        async def ask() -> Tuple[Text, Text]:
            return found[0]

        source: CredentialsLike = ask if callable(self._source) else self._source
        self._client = ThreadClient(self._thread, uri, credentials=source, queue=queue, receiver=receiver, **settings)
        self.uri = self._client.uri

    def __enter__(self) -> TurnClient:
        self.open()
        return self

    def __exit__(self, *_: object) -> None:
        self.close()

    def __del__(self) -> None:
        client = getattr(self, "_client", None)
        if client is not None and self._is_opened and not client.is_left and not self.closed:
            self._leave()
            warnings.warn(f"unclosed {self.uri}: use `with`, or `close`", ResourceWarning, stacklevel=2, source=self)

    def open(self) -> None:
        """Connects, and waits for a relayed address. It is called once. `AllocationFailed`, `WrongCredentials`."""
        if self._is_opened:
            raise RuntimeError("this client was opened before: make a new one")
        if callable(self._source):
            self._found.append(_asked(self._source))
        self._is_opened = True
        client = self._client
        try:
            self._thread.start(client.live)
            self._thread.call(client.enter, self._timeout)
        except BaseException as error:
            self._leave()
            if isinstance(error, NotAnswered):
                raise AllocationFailed(f"no answer from {self.uri} in {self._timeout} s") from None
            raise

    def _leave(self) -> None:
        """Has the client closed, and does not wait for that."""
        self._client.is_left = True
        self._thread.begin(self._client.leave)

    def close(self) -> None:
        """Deletes the relayed address, and returns when the server has answered, or after two seconds. In a function that the
        client calls it returns at once."""
        client, thread = self._client, self._thread
        if not self._is_opened or thread.is_forked:
            return
        if thread.is_here:
            return self._leave()
        client.is_left = True
        with contextlib.suppress(NotAnswered):
            thread.call(client.leave, CLOSE_WAIT)
        thread.join()

    def abort(self) -> None:
        """Deletes the relayed address and closes all sockets, at once, as `yarrowdoor.TurnClient.abort`."""
        client, thread = self._client, self._thread
        if not self._is_opened or thread.is_forked:
            return
        client.is_left = True

        async def abort() -> None:
            client.abort()

        if thread.is_here:
            return client.abort()
        with contextlib.suppress(NotAnswered):
            thread.call(abort, CLOSE_WAIT)

    def wait_closed(self, timeout: Optional[float] = None) -> None:
        """Waits until the client has ended. `Ended` if it ended by itself, or was not opened; its text says why. `TimeoutError`
        after that many seconds."""
        try:
            self._thread.call(self._client.wait_closed, timeout)
        except NotAnswered:
            if not self.closed and self._is_opened:
                raise TimeoutError(f"the client has not ended in {timeout} s") from None
            if self._client.has_failed or self._thread.is_forked:
                raise self._client.ending() from None

    # What there is

    @property
    def closed(self) -> bool:
        """Whether the client has ended, by `close` or by itself, or could not be opened, or is the parent's, after a fork."""
        return self._client.closed or self._thread.is_forked

    address = Forwarded[Address]("_client", "The relayed address, also after the end. `Ended` where there never was one.")
    addresses = Forwarded[List[Address]]("_client", "All relayed addresses, as `yarrowdoor.TurnClient.addresses`.")
    mapped_address = Forwarded[Optional[Address]](
        "_client", "This client's own address as the server saw it at the beginning, or None where it did not say it.")
    local_address = Forwarded[SocketAddress]("_client", "The address of the socket to the server. `Ended`.")
    dropped = Forwarded[int]("_client", "How many packets of peers were dropped, since `queue` of them were waiting.")
    unsent = Forwarded[int](
        "_client", "How many packets to peers were dropped, since the socket stayed full for 15 s, or refused them.")
    counters = Forwarded[Counters]("_client", "What was sent and has come since the client was made, as it is now: a copy.")
    on_lost = Settable[Optional[Callable[[Lost], None]]](
        "_client", "Called with each permission and channel that is lost, if it is set.")
    on_error = Settable[Optional[Callable[[Exception], None]]](
        "_client", "Called with each error of the socket over UDP that does not end it, if it is set.")
    on_pause = Settable[Optional[Callable[[bool], None]]](
        "_client", "Called with True when the connection is full, and with False when it is no longer, if it is set. `sendto` "
        "waits meanwhile.")

    @property
    def lost(self) -> Deque[Lost]:
        """What peers have lost, the last 1,024 of it, as it is now: a copy."""
        return collections.deque(self._client.lost)

    # Requests

    def _call(self, make: Callable[[], Awaitable[_Result]]) -> _Result:
        self._client.check_open()
        try:
            return self._thread.call(make)
        except NotAnswered:
            raise self._client.ending() from None

    def _do(self, function: Callable[[], _Result]) -> _Result:
        self._client.check_open()
        try:
            return self._thread.do(function)
        except NotAnswered:
            raise self._client.ending() from None

    def permit(self, ip: str) -> None:
        """Lets an IP address send to the relayed address. `PermissionFailed`, `Ended`; `Refused` (`no-allocation`) for another
        family than that of the relayed address."""
        host = checked_ip(ip)
        self._call(lambda: self._client.permit(host))

    def bind(self, peer: AddressLike) -> None:
        """Gives a peer a channel, and a permission. `ChannelFailed`, `PermissionFailed`, `Ended`; `Refused` as
        `yarrowdoor.TurnClient.bind`."""
        where = checked_peer(peer)
        self._call(lambda: self._client.bind(where))

    def release(self, peer: Union[str, AddressLike]) -> None:
        """Has a permission (an IP address), or a channel (a peer), refreshed no more. `Refused` (`not-granted`), `Ended`."""
        self._do(lambda: self._client.release(peer))

    def keep(self, peer: Union[str, AddressLike]) -> None:
        """Takes `release` back, while the grant has not ended. `Refused` (`not-granted`), `Ended`."""
        self._do(lambda: self._client.keep(peer))

    def check(self) -> Check:
        """Asks the server whether it answers, as `yarrowdoor.TurnClient.check`: for up to 3.5 s. `Ended`."""
        return self._call(self._client.check)

    def connect(self, peer: AddressLike) -> socket.socket:
        """Connects to a peer over TCP, by the server (RFC 6062, section 4.3), with `relay="tcp"`: a socket of this host, whose
        other end a thread passes on. The server ends both directions at once, and so does `shutdown`. Errors as
        `yarrowdoor.TurnClient.connect`."""
        async def connected() -> socket.socket:
            return (await piped(await self._client.connect(peer)))[0]

        return self._call(connected)

    def accept(self) -> Tuple[socket.socket, Address]:
        """Waits for a peer to connect to the relayed address over TCP: a socket as that of `connect`, and the peer, which needs a
        permission. `Ended`; `ValueError` with `relay="udp"`."""
        async def accepted() -> Tuple[socket.socket, Address]:
            return await piped(await self._client.accept())

        return self._call(accepted)

    # Data

    def send(self, data: Buffer, peer: AddressLike) -> None:
        """Permits the peer's IP address if needed, and sends. A peer whose permission the server has refused is not asked again for
        five seconds, then for ten, up to 80: until then `PermissionFailed` comes at once. `PermissionFailed`, and what `sendto`
        raises."""
        try:
            self._client.send_in_thread(data, peer)
        except Refused as refusal:
            if refusal.reason != "no-permission":
                raise
            host = checked_peer(peer).host
            self._call(lambda: self._client.permit_to_send(host))
            self._client.send_in_thread(data, peer)

    def sendto(self, data: Buffer, peer: AddressLike) -> None:
        """Sends data to a peer that has a permission. If the socket is full it waits for up to 15 s, and drops the data then,
        which `unsent` counts. `Refused` (`no-permission`), `Ended`; `ValueError` if it is too long."""
        self._client.send_in_thread(data, peer)

    def receive(self, timeout: Optional[float] = None) -> Tuple[bytes, Address]:
        """The next data of a peer, and the peer. `TimeoutError` after that many seconds, `Ended` if the client has ended, or was
        not opened; `RuntimeError` with `receiver=`, which takes all."""
        client = self._client
        if client.inbox.has_receiver:
            raise RuntimeError("the receiver of this client takes all data: there is none to wait for")
        if self._thread.is_here:
            raise RuntimeError("a function that the client calls cannot wait for data")
        if not self._is_opened or self._thread.is_forked:
            raise client.ending()
        found = client.inbox.take_in_thread(timeout)
        if found is None:
            raise client.ending()
        return found

    def __iter__(self) -> Iterator[Tuple[bytes, Address]]:
        """The data of peers, until the client is closed. `Ended` if it ends by itself."""
        try:
            while True:
                yield self.receive()
        except Ended:
            if self._client.has_failed and not self._client.is_left:
                raise


def _asked(source: Callable[[], Tuple[Text, Text]]) -> Credentials:
    """What a function gives for credentials. `TypeError` if that is none, as of an async function."""
    found = source()
    if inspect.iscoroutine(found):
        found.close()
        raise TypeError("credentials is a plain function here, and not an async one")
    check_source(found)
    return Credentials(*found)
