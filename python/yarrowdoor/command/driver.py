"""Exchanges over new sockets, and the end of all of them."""
from __future__ import annotations

from typing import Optional, Sequence

from ..client import Times
from ..driver import drive
from ..wire import Tap, connect_stream, connect_udp
from .credentials import Credentials
from .exchange import PATIENT, Exchange
from .reach import Way

__all__ = ["leave_all", "open_exchange"]

# How long the server's answer to a delete is waited for, in seconds.
_LEAVING = 1.0
# How many times as long as a first answer a connection is waited for to a server that has answered before.
_PATIENCE = 2.0


def open_exchange(way: Way, credentials: Optional[Credentials], tap: Tap, seconds: float, relay: str = "udp", family: int = 4,
                  times: Optional[Times] = PATIENT) -> Exchange:
    """A new client over a new socket, to a server that has answered before: `OSError` where there is no connection within twice so
    many seconds."""
    door = way.door
    if door.transport == "udp":
        wire = connect_udp(way.host, door.port, tap)
    else:
        wire = connect_stream(way.host, door.port, _PATIENCE * seconds, tap, door.context, door.name)
    try:
        return Exchange(wire, credentials, relay, family, times)
    except BaseException:
        wire.close()
        raise


def leave_all(exchanges: Sequence[Exchange]) -> None:
    """Gives all relayed addresses back, and closes all sockets when the server has answered, or after a second."""
    try:
        for exchange in exchanges:
            if not exchange.is_over:
                exchange.leave()
        drive(exchanges, lambda: all(it.is_over for it in exchanges), _LEAVING)
    finally:
        for exchange in exchanges:
            exchange.close()
