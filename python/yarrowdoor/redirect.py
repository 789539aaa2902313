"""A server that names another one in its place (RFC 8489, section 10)."""
from __future__ import annotations

from typing import Optional, Set, Tuple

from . import layout as c
from .address import Address, peer_of
from .errors import AllocationFailed
from .library import load
from .servers import Server

__all__ = ["Redirects", "TRY_ALTERNATE", "alternate_of"]

# The code of an error response that names another server.
TRY_ALTERNATE = 300


def alternate_of(packet: bytes) -> Optional[Address]:
    """The address of the other server, or None where the message has none. Nobody has to have signed it."""
    found = load().read_message(packet).alternate
    return peer_of(found) if found != c.NO_ADDRESS else None


class Redirects:
    """How often a client still goes where a server sends it. It asks none twice, so that two that name each other are no loop."""

    def __init__(self, left: int) -> None:
        self._left = left
        self._asked: Set[Tuple[str, int]] = set()

    def next(self, server: Server, error: AllocationFailed) -> Optional[Server]:
        """The server to ask after this one has failed, or None where there is none."""
        self._asked.add((server.uri.host, server.uri.port))
        to = error.alternate
        if to is None or not self._left or (to[0], to[1]) in self._asked:
            return None
        self._left -= 1
        return server.redirected(Address(to[0], to[1]))
