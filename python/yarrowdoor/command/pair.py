"""What `echo`, `bench` and `relay` begin with: a way to the server, and relayed addresses that may send to one another."""
from __future__ import annotations

import ssl as tls
from dataclasses import dataclass
from typing import List, Optional

from ..address import Address
from ..client import Times
from ..uri import TurnUri
from ..wire import Tap
from .credentials import Credentials
from .doors import find_addresses, try_doors
from .driver import open_exchange
from .exchange import PATIENT, Exchange
from .reach import Way
from .relays import NO_SUCH_FAMILY, allocation_step, grant_step, permission_step
from .steps import Outcome, Step
from .traffic import Trip, send_back

__all__ = ["CannotRelay", "Server", "find_way", "join", "open_relay"]


class CannotRelay(Exception):
    """A step has failed before anything could be sent."""

    def __init__(self, step: Step) -> None:
        super().__init__(f"{step.name}: {step.said}. {step.advice}".strip())
        self.step = step


@dataclass(frozen=True)
class Server:
    """A server, and who asks it."""

    uri: TurnUri
    credentials: Credentials
    context: Optional[tls.SSLContext]
    family: Optional[int]
    seconds: float
    tap: Tap


def find_way(server: Server) -> Way:
    """A way to the server. `CannotRelay` where there is none."""
    step, hosts = find_addresses(server.uri, server.family, server.seconds)
    if not hosts:
        raise CannotRelay(step)
    steps, way = try_doors(server.uri, hosts, server.context, server.seconds, server.tap)
    wanted = [it for it in steps if it.name == ("tls" if server.uri.secure else server.uri.transport)]
    if way is None or wanted[0].outcome in (Outcome.FAILED, Outcome.UNTRIED):
        raise CannotRelay(wanted[0])
    return way


def open_relay(server: Server, way: Way, opened: List[Exchange], family: int = 4, times: Optional[Times] = PATIENT) -> Address:
    """Gets a relayed address, by an exchange that is added to `opened`. `CannotRelay` where the server gives none."""
    try:
        exchange = open_exchange(way, server.credentials, server.tap, server.seconds, "udp", family, times)
    except OSError as error:
        told = "The server answered before, and takes no further connection: see its log."
        raise CannotRelay(Step("connection", Outcome.FAILED, str(error), 0.0, told)) from error
    opened.append(exchange)
    step = allocation_step(exchange, server.credentials, server.seconds)
    if exchange.address is None:
        raise CannotRelay(step)
    return exchange.address


def join(server: Server, way: Way, opened: List[Exchange], peer: Optional[Address], has_channel: bool) -> Trip:
    """A relayed address that may send to this peer, or to a second one of the same server, which sends back. `CannotRelay`."""
    family = 6 if peer is not None and ":" in peer.host else 4
    try:
        own = open_relay(server, way, opened, family)
    except CannotRelay as error:
        if peer is not None or error.step.facts.get("code") != NO_SUCH_FAMILY:
            raise
        opened.pop().close()
        family = 6
        own = open_relay(server, way, opened, family)
    addresses = [peer] if peer is not None else [open_relay(server, way, opened, family), own]
    if peer is None:
        send_back(opened[1])
    _need(permission_step(opened, addresses, server.seconds))
    if has_channel:
        _need(grant_step(opened, addresses, server.seconds))
    return Trip(opened[0], addresses[0], opened)


def _need(step: Step) -> None:
    if step.outcome is not Outcome.OK:
        raise CannotRelay(step)
