"""`yarrowdoor check --security`: whether clients may send to networks that are the server's own. Nothing is sent to them."""
from __future__ import annotations

import contextlib
import ipaddress
import time
from dataclasses import dataclass
from typing import Iterator, List, Optional, Sequence, Tuple

from .. import reasons
from ..driver import drive
from ..errors import Ended, Refused
from .exchange import Exchange
from .relays import is_judged
from .steps import Facts, Outcome, Step

__all__ = ["security_steps"]


@dataclass(frozen=True)
class _Network:
    """A network that clients should not reach through the server, and an address of it."""

    name: str
    ip: str
    what: str
    block: str


# Blocks of special use (RFC 6890; RFC 6598), and the address at which clouds give a host its secrets.
_NETWORKS = (
    _Network("metadata", "169.254.169.254", "the metadata service of clouds, which tells a host its secrets", "169.254.0.0/16"),
    _Network("loopback", "127.0.0.1", "the server's own host (loopback)", "127.0.0.0/8"),
    _Network("unspecified", "0.0.0.0", "the server's own host (0.0.0.0)", "0.0.0.0/8"),
    _Network("private-10", "10.0.0.1", "private networks", "10.0.0.0/8"),
    _Network("private-172", "172.16.0.1", "private networks", "172.16.0.0/12"),
    _Network("private-192", "192.168.0.1", "private networks", "192.168.0.0/16"),
    _Network("shared", "100.64.0.1", "networks of a provider", "100.64.0.0/10"),
    _Network("loopback-6", "::1", "the server's own host (loopback)", "::1/128"),
    _Network("private-6", "fd00::1", "private networks", "fc00::/7"),
    _Network("link-6", "fe80::1", "the server's own link", "fe80::/10"),
)


def security_steps(exchanges: Sequence[Optional[Exchange]], seconds: float) -> Iterator[Step]:
    """Asks for the permission of an address of each network, by an exchange with a relayed address of its family, and gives a step
    for each that is granted, or one where none is."""
    begun, asked = time.monotonic(), _ask(exchanges)
    used = [*{id(it): it for it, _ in asked}.values()]
    drive(used, lambda: all(is_judged(it, reasons.CREATE_PERMISSION, network.ip) for it, network in asked), seconds)
    spent = time.monotonic() - begun
    granted = [(it, network) for it, network in asked if network.ip in it.granted]
    for exchange, network in granted:
        yield _granted(exchange, network, spent)
    if not granted:
        yield Step("security", Outcome.OK, f"refuses peers in {', '.join(it.block for _, it in asked)}", spent)


def _ask(exchanges: Sequence[Optional[Exchange]]) -> List[Tuple[Exchange, _Network]]:
    asked: List[Tuple[Exchange, _Network]] = []
    for exchange in exchanges:
        if exchange is None or exchange.address is None:
            continue
        for network in _NETWORKS:
            if (":" in network.ip) == (":" in exchange.address.host):
                with contextlib.suppress(Ended, Refused, ValueError):
                    exchange.ask(network.ip)
                    asked.append((exchange, network))
    return asked


def _granted(exchange: Exchange, network: _Network, spent: float) -> Step:
    """A network that clients reach. Where the relayed address is in it, that may be wished."""
    assert exchange.address is not None, "it has a relayed address"
    block = ipaddress.ip_network(network.block)
    is_own = ipaddress.ip_address(exchange.address.host) in block
    line = f"denied-peer-ip={block[0]}-{block[-1]}"
    told = (f"Through the server, clients may send to {network.what}: close it (coturn: {line}). Permit single addresses again by "
            "allowed-peer-ip=.")
    if network.name == "loopback":
        told += " Remove allow-loopback-peers."
    facts: Facts = {"network": network.block, "line": line}
    outcome = Outcome.NOTE if is_own else Outcome.FAILED
    return Step(f"security-{network.name}", outcome, f"{network.ip} is permitted as a peer", spent, told, facts)
