"""The endpoint that the ICE agent of `aioice` takes, with this package's client in place of aioice's own.

    import yarrowdoor.aioice
    yarrowdoor.aioice.install()                     # before connections gather candidates

An `aioice.Connection` with `turn_server`, and what is built on it (`aiortc`), then relays by this client. `aioice` is needed
for `install` only.
"""
from __future__ import annotations

import asyncio
import importlib
import ssl as tls
from typing import Any, Callable, Optional, Tuple, TypeVar, Union

from .endpoint import RelayTransport, endpoint_over
from .turn import TurnClient
from .uri import TurnUri

__all__ = ["RelayTransport", "create_turn_endpoint", "install"]

Protocol = TypeVar("Protocol", bound=asyncio.DatagramProtocol)


def install() -> None:
    """Has aioice make its relayed candidates by `create_turn_endpoint` of this module."""
    module: Any = importlib.import_module("aioice.turn")
    module.create_turn_endpoint = create_turn_endpoint


async def create_turn_endpoint(protocol_factory: Callable[[], Protocol], server_addr: Tuple[str, int], username: Optional[str],
                               password: Optional[str], lifetime: int = 600, channel_refresh_time: int = 500,
                               ssl: Union[bool, tls.SSLContext, None] = False, transport: str = "udp",
                               ) -> Tuple[RelayTransport, Protocol]:
    """A transport that sends from a relayed address, and its protocol: what `aioice.turn.create_turn_endpoint` gives.

    The client chooses the two times. Raises what entering a `TurnClient` raises.
    """
    uri = TurnUri(server_addr[0], server_addr[1], transport, bool(ssl))
    context = ssl if isinstance(ssl, tls.SSLContext) else None
    user = username or "", password or ""
    return await endpoint_over(protocol_factory, lambda take: TurnClient(uri, *user, ssl=context, receiver=take))
