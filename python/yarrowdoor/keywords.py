"""The arguments that clients take by name, for checkers of types."""
from __future__ import annotations

import socket
import ssl as tls
from typing import Optional, Tuple, TypedDict, Union

from .clock import Clock
from .settings import Times

__all__ = ["ClientKeywords", "EndpointKeywords", "RelayKeywords", "StreamKeywords"]


class CommonKeywords(TypedDict, total=False):
    """What all that opens a relayed address takes, as `TurnClient` says."""

    ssl: Optional[tls.SSLContext]
    keepalive: float
    pause: float
    refresh_ahead: float
    anonymous: str
    max_stale_nonces: int
    idle: Optional[float]
    redirects: int
    close_timeout: Optional[float]
    clock: Optional[Clock]


class EndpointKeywords(CommonKeywords, total=False):
    """What asyncio's own forms over a relay take beside their own arguments."""

    times: Optional[Times]
    probe: Optional[float]
    open_timeout: Optional[float]
    sock: Optional[socket.socket]


class StreamKeywords(EndpointKeywords, total=False):
    """What streams over a relay take beside."""

    queue: int


class RelayKeywords(CommonKeywords, total=False):
    """What a `Relay` takes beside its own arguments."""

    relay: str
    family: Union[int, Tuple[int, int]]
    sock: Optional[socket.socket]
    local_addr: Optional[Tuple[str, int]]
    socket_family: int


class ClientKeywords(RelayKeywords, total=False):
    """What a client for threads takes beside its own arguments."""

    times: Optional[Times]
    probe: Optional[float]
    open_timeout: Optional[float]
