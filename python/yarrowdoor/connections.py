# mypy: enable-incomplete-feature=Unpack
"""Streams over a relay as asyncio has them: `open_connection` and `start_server` (RFC 6062)."""
from __future__ import annotations

import asyncio
import contextlib
import socket
from types import TracebackType
from typing import TYPE_CHECKING, Awaitable, Callable, Iterable, Optional, Tuple, Type, Union

from .address import Address
from .credentials import CredentialsLike
from .errors import ConnectFailed, Ended, because
from .lookup import look_up
from .streams import Pair
from .tasks import Tasks
from .turn import TurnClient
from .uri import TurnUri

if TYPE_CHECKING:
    from typing_extensions import Unpack

    from .keywords import StreamKeywords

__all__ = ["RelayServer", "open_connection", "start_server"]

# Takes a connection, as the function of `asyncio.start_server` does.
Connected = Callable[[asyncio.StreamReader, asyncio.StreamWriter], Optional[Awaitable[None]]]

# What closes relays whose streams have ended.
_closing = Tasks()


async def open_connection(uri: Union[str, TurnUri], host: str, port: int, *, credentials: CredentialsLike,
                          local_addr: Optional[Tuple[str, int]] = None, family: int = 0, relay_family: int = 4,
                          **settings: Unpack[StreamKeywords]) -> Pair:
    """A stream to a peer from a relayed address: `asyncio.open_connection` over a TURN server, which has to be reached over TCP or
    TLS. A name is resolved here, and its first address taken. The relayed address is deleted when the stream has ended.

    `local_addr` and `family` are those of the socket to the server, and `relay_family`, 4 or 6, is what `TurnClient` calls
    `family`. The other arguments are those of `TurnClient`. Raises what entering that raises, `PermissionFailed`, and
    `ConnectFailed`.
    """
    relay = _client(uri, credentials, local_addr, family, relay_family, settings)
    peer = await _resolved(host, port, relay_family)
    await relay.open()
    try:
        reader, writer = await relay.connect(peer)
    except BaseException:
        await relay.close()
        raise
    _closing.spawn(_close_after(writer, relay))
    return reader, writer


async def _close_after(writer: asyncio.StreamWriter, relay: TurnClient) -> None:
    try:
        with contextlib.suppress(OSError, Ended):
            await writer.wait_closed()
    finally:
        await relay.close()


async def start_server(uri: Union[str, TurnUri], client_connected_cb: Connected, *, credentials: CredentialsLike,
                       peers: Iterable[str] = (), local_addr: Optional[Tuple[str, int]] = None, family: int = 0,
                       relay_family: int = 4, **settings: Unpack[StreamKeywords]) -> RelayServer:
    """A server for peers at a relayed address: `asyncio.start_server` over a TURN server, which has to be reached over TCP or TLS.

    `client_connected_cb` is called with a reader and a writer for each peer that connects. `peers` are the IP addresses that may,
    and `RelayServer.permit` lets further ones. The other arguments are those of `open_connection`. Raises what entering a
    `TurnClient` raises, and `PermissionFailed`.
    """
    relay = _client(uri, credentials, local_addr, family, relay_family, settings)
    await relay.open()
    try:
        await asyncio.gather(*(relay.permit(it) for it in peers))
    except BaseException:
        await relay.close()
        raise
    return RelayServer(relay, client_connected_cb)


class RelayServer:
    """What `start_server` gives: an `asyncio.Server` as far as a relayed address has what one has."""

    def __init__(self, relay: TurnClient, connected: Connected) -> None:
        self.relay = relay
        self._connected = connected
        self._tasks = Tasks()
        self._tasks.spawn(self._accept())

    @property
    def address(self) -> Address:
        """What peers connect to."""
        return self.relay.address

    async def permit(self, ip: str) -> None:
        """Lets one more IP address connect. `PermissionFailed`, `Ended`."""
        await self.relay.permit(ip)

    def is_serving(self) -> bool:
        """Whether peers may connect."""
        return not self.relay.closed

    def close(self) -> None:
        """Deletes the relayed address, and ends its streams."""
        self._tasks.spawn(self.relay.close())

    async def wait_closed(self) -> None:
        """Waits for the end. `Ended` if the relayed address was lost."""
        await self.relay.wait_closed()

    async def serve_forever(self) -> None:
        """Waits for the end, and closes where it is cancelled."""
        try:
            await self.wait_closed()
        finally:
            await self.relay.close()

    async def __aenter__(self) -> RelayServer:
        return self

    async def __aexit__(self, kind: Optional[Type[BaseException]], error: Optional[BaseException],
                        trace: Optional[TracebackType]) -> None:
        await self.relay.close()

    async def _accept(self) -> None:
        with contextlib.suppress(Ended):
            while True:
                self._tasks.spawn(self._serve(await self.relay.accept()))

    async def _serve(self, pair: Pair) -> None:
        try:
            working = self._connected(*pair)
            if working is not None:
                await working
        except Exception as error:
            context = {"message": "the function of a start_server raised", "exception": error}
            asyncio.get_running_loop().call_exception_handler(context)
            pair[1].close()


def _client(uri: Union[str, TurnUri], credentials: CredentialsLike, local_addr: Optional[Tuple[str, int]], family: int,
            relay_family: int, settings: StreamKeywords) -> TurnClient:
    return TurnClient(uri, credentials=credentials, relay="tcp", family=relay_family, local_addr=local_addr, socket_family=family,
                      **settings)


async def _resolved(host: str, port: int, family: int) -> Tuple[str, int]:
    """The first address of a name. `ConnectFailed` if it has none."""
    kind = socket.AF_INET6 if family == 6 else socket.AF_INET
    try:
        found = await look_up(host, port, type=socket.SOCK_STREAM, family=kind)
    except (OSError, UnicodeError) as error:
        raise because(ConnectFailed(f"no connection to {host}:{port}: {error}"), error)
    return str(found[0][4][0]), port
