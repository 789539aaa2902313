"""A TURN client (RFC 8656, 6062 and 6156) over a proved library: `TurnClient` for asyncio, `client.Client` for any loop.

    async with TurnClient("turn:turn.example.org", "user", "password") as relay:
        print(relay.address)                        # what peers send to
        await relay.send(b"hello", ("192.0.2.7", 9000))
        async for data, peer in relay:
            print(peer, data)

A `Relay` comes back after an outage. `create_datagram_endpoint`, `open_connection` and `start_server` give over a relay what
asyncio gives over sockets, and `sync` is for scripts and threads.

The library is proved if `PROOF` in the package says so; this package is tested, not proved. The README says how to begin. In a
wheel it is the description: `importlib.metadata.metadata("yarrowdoor").get_payload()`.
"""
from typing import TYPE_CHECKING

from . import sync
from .address import Address
from .backoff import Backoff
from .client import Client, Times
from .clock import Clock
from .connections import RelayServer, open_connection, start_server
from .counters import Counters
from .credentials import Credentials, rest_credentials
from .endpoint import RelayTransport, create_datagram_endpoint
from .errors import (
    AllocationFailed, Busy, ChannelFailed, ConnectFailed, Ended, LibraryError, PermissionFailed, Refused, WrongCredentials,
    YarrowdoorError,
)
from .notices import Lost
from .path import Check
from .relay import Relay
from .room import kept_grants, longest_pause
from .states import Down, Up
from .turn import TurnClient
from .uri import TurnUri
from .version import __version__

__all__ = [
    "Address", "AllocationFailed", "Backoff", "Busy", "ChannelFailed", "Check", "Client", "Clock", "ConnectFailed", "Counters",
    "Credentials", "Down", "Ended", "LibraryError", "Lost", "PermissionFailed", "Refused", "Relay", "RelayServer",
    "RelayTransport", "Times", "TurnClient", "TurnUri", "Up", "WrongCredentials", "YarrowdoorError", "__version__",
    "create_datagram_endpoint", "kept_grants", "longest_pause", "open_connection", "rest_credentials", "start_server", "sync",
]

if not TYPE_CHECKING:  # Checkers of types would take any name for one of this module.
    def __getattr__(name: str) -> None:
        hint = ": use `async with TurnClient(uri, user, password) as relay`" if name == "connect" else ""
        raise AttributeError(f"module {__name__!r} has no attribute {name!r}{hint}")
