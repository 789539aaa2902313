"""A peer outside of the server: a plain socket of this host, which sends to the relayed address, and is sent to from there.

Packets between two relayed addresses of one server meet no firewall, no NAT, and no address that is not its own. These do.
"""
from __future__ import annotations

import contextlib
import ipaddress
import os
import socket
import time
from typing import Callable, List, Optional, Sequence, Set, Tuple

from .. import reasons
from ..address import Address
from ..driver import drive
from ..errors import Ended, Refused
from . import advice
from .exchange import Exchange, Said
from .relays import facts_of, is_judged
from .steps import Facts, Outcome, Step

__all__ = ["Outside", "hosts_of_peer", "hosts_outside", "is_own_host", "peer_step", "untried_step"]

COUNT = 3
# How long packets of one direction are waited for at least, in seconds, and for how many round trips of a request.
_WAIT, _TRIPS = 0.4, 2


def is_own_host(*hosts: str) -> bool:
    """Whether any of these IP addresses is one of this host."""
    for host in hosts:
        with contextlib.suppress(OSError), _socket(host) as sock:
            sock.bind((host, 0))
            return True
    return False


def hosts_of_peer(exchange: Exchange, relayed: Address) -> List[str]:
    """The IP addresses at which the relayed address may see this host, the likely one first; none where this host has none of that
    family."""
    found: List[str] = []
    with contextlib.suppress(OSError), _socket(relayed.host) as sock:
        sock.connect((relayed.host, relayed.port))
        found = [str(sock.getsockname()[0])]
    mapped = exchange.mapped.host if exchange.mapped is not None else ""
    if not mapped or (":" in mapped) != (":" in relayed.host):
        return found
    local, server = (str(it[0]) for it in (exchange.wire.local, exchange.wire.remote))
    if advice.about_mapped(mapped, local, server, exchange.wire.is_stream):
        return [*found, mapped]  # A proxy is between, maybe of what goes to the port of TURN only.
    return [mapped, *(it for it in found if it != mapped)]  # A NAT may be of that port only too.


def hosts_outside(exchange: Exchange, relayed: Address) -> List[str]:
    """The same, and none where this host is the server's, since that is no peer outside."""
    return [] if is_own_host(str(exchange.wire.remote[0]), relayed.host) else hosts_of_peer(exchange, relayed)


def untried_step(why: str, advised: str, said: Optional[Said] = None) -> Step:
    """The step where it cannot be tried, maybe since the server has said so."""
    return Step("outside", Outcome.NOTE, f"not tried: {why}", 0.0, advised, facts_of(said))


class Outside:
    """A socket of this host, as a peer of a relayed address. It ends with its `with`."""

    def __init__(self, exchange: Exchange, relayed: Address, hosts: Sequence[str]) -> None:
        self._exchange, self._relayed, self.hosts = exchange, relayed, hosts
        self.host = hosts[0]
        self._socket = _socket(relayed.host)
        self._socket.setblocking(False)
        self._socket.bind(("", 0))
        # Where a NAT is between, this socket is not reached before it has sent something that arrives.
        self._is_translated = self.host != exchange.wire.local[0]
        self._tag = b"\xff" + os.urandom(7)
        self._inward: Set[bytes] = set()
        self._outward: Set[bytes] = set()
        self._has_sent = False
        self.seen: Optional[Address] = None
        """where the server saw this socket"""
        self._source: Optional[str] = None
        self._further: Optional[Address] = None
        self._furtherward: Set[bytes] = set()
        self._begun = self._last = time.monotonic()

    def __enter__(self) -> Outside:
        return self

    def __exit__(self, *how: object) -> None:
        self._socket.close()

    def fileno(self) -> int:
        """What `drive` waits for."""
        return self._socket.fileno()

    def begin(self) -> None:
        """Sends to the relayed address. What comes of it is taken whenever the exchange is driven."""
        self._begun = time.monotonic()
        self._exchange.on_data = self.take
        self._send_inward()

    def send_further(self, exchange: Exchange, relayed: Address) -> None:
        """Sends to another relayed address too, of an exchange that permits this host: a firewall may pass some of the ports
        only. What comes to it from others goes to who took it before."""
        before, self._further = exchange.on_data, relayed

        def take(data: bytes, peer: Address) -> None:
            if data.startswith(self._tag):
                self._furtherward.add(data)
                self._last = time.monotonic()
            else:
                before(data, peer)

        exchange.on_data = take
        self._send_to(relayed)

    def _send_inward(self) -> None:
        self._send_to(self._relayed)

    def _send_to(self, relayed: Address) -> None:
        for number in range(COUNT):
            with contextlib.suppress(OSError):
                self._socket.sendto(self._tag + b"i%d" % number, (relayed.host, relayed.port))

    def take(self, data: bytes, peer: Address) -> None:
        """Takes what has come to the relayed address, and sends back to where the first packet came from."""
        if data.startswith(self._tag + b"i"):
            self._inward.add(data)
            self._last = time.monotonic()
            self.seen = self.seen or peer
            if not self._has_sent:
                self._send(peer)

    def _send(self, to: Address) -> None:
        self._has_sent = True
        for number in range(COUNT):
            with contextlib.suppress(Ended, Refused):
                self._exchange.send(self._tag + b"o%d" % number, to)

    def read(self) -> None:
        """Takes what has come to this socket. What is not of this step is sent back, as a peer of `messages` does."""
        with contextlib.suppress(OSError):
            data, source = self._socket.recvfrom(65_536)
            if data.startswith(self._tag + b"o"):
                self._outward.add(data)
                self._last = time.monotonic()
                self._source = str(source[0])
            elif source[0] == self._relayed.host:
                self._socket.sendto(data, source)

    def finish(self, others: Sequence[Exchange]) -> Step:
        """Waits for what is still to come, and judges."""
        wait = max(_WAIT, _TRIPS * self._exchange.round_trip(reasons.ALLOCATE) + 0.1)
        files = [(self.fileno(), self.read)]
        drive(others, self._has_all_inward, self._begun + wait - time.monotonic(), files)
        to = self.seen or Address(self.host, self._socket.getsockname()[1])
        if not self._has_sent and not self._is_translated:
            self._send(to)
        if self._has_sent:
            drive(others, lambda: len(self._outward) == COUNT, wait, files)
        if not self._inward or self._has_sent and not self._outward or self._further is not None and not self._furtherward:
            self._repeat(to, others, wait, files)
        is_all = self._has_all_inward() and len(self._outward) == COUNT
        return self._step((self._last if is_all else time.monotonic()) - self._begun)

    def _repeat(self, to: Address, others: Sequence[Exchange], wait: float,
                files: Sequence[Tuple[int, Callable[[], None]]]) -> None:
        """Sends once more where nothing at all has come: a network that loses packets may have lost all of them."""
        if self._further is not None and not self._furtherward:
            self._send_to(self._further)
        if not self._inward:
            self._send_inward()
        elif not self._outward:
            self._send(to)
        is_back = bool(self._outward) or not self._inward
        drive(others, lambda: self._has_all_inward() and (is_back or len(self._outward) == COUNT), wait, files)

    def _has_all_inward(self) -> bool:
        return len(self._inward) == COUNT and (self._further is None or len(self._furtherward) == COUNT)

    def _step(self, spent: float) -> Step:
        facts: Facts = {"in": len(self._inward), "out": len(self._outward) if self._has_sent else None, "sent": COUNT,
                        "peer": str(self.seen) if self.seen is not None else self.host}
        if self._further is not None:
            facts.update(further=str(self._further), further_in=len(self._furtherward))
        out = f"{len(self._outward)} of {COUNT} from there here" if self._has_sent else "from there was not tried (NAT)"
        said = f"{len(self._inward)} of {COUNT} packets from here ({facts['peer']}) get to {self._relayed}, {out}"
        if self._further is not None and self._is_one_closed():
            said += f"; {len(self._furtherward)} of {COUNT} to {self._further}"
        wrong = self._wrong()
        return Step("outside", Outcome.FAILED if wrong else Outcome.OK, said, spent, wrong, facts)

    def _is_one_closed(self) -> bool:
        """Whether packets get to one of the two relayed addresses only."""
        return bool(self._furtherward) != bool(self._inward)

    def _wrong(self) -> str:
        """What is wrong, or nothing."""
        relayed = self._relayed.host
        if self._source is not None and self._source != relayed:
            return (f"What is sent from the relayed address {relayed} comes from {self._source}: the server tells its clients an "
                    f"address that is not its own (coturn: external-ip={self._source}, or remove external-ip=), or a NAT before it "
                    "sends by another address than it takes packets at.")
        if self._further is not None and self._is_one_closed():
            reached, closed = (self._relayed, self._further) if self._inward else (self._further, self._relayed)
            return (f"Packets of a peer outside get to the relayed address {reached}, and not to {closed}: a firewall at the "
                    "server or before it lets in a part of the relay ports, or a NAT or container forwards a part. Open "
                    "and forward all of them over UDP (coturn: 49152-65535, or min-port= to max-port=). If this host's "
                    "own network lets UDP out to few ports only, check from another one.")
        if not self._inward:
            alone = "" if self._outward else ", or its external-ip= is the address of another host"
            return (f"No packet of a peer outside gets to the relayed address {self._relayed}: a firewall at the server or before "
                    f"it "
                    "lets in the port of TURN and not the relay ports, or a NAT or container forwards only that port. Open and "
                    f"forward the relay ports over UDP (coturn: 49152-65535, or min-port= to max-port=){alone}. If this host's own "
                    "network lets UDP out to few ports only, check from another one.")
        if not self._outward:
            return (f"Peers outside reach the relayed address {self._relayed}, and what it sends to them does not arrive: a "
                    f"firewall at "
                    "the server or before it drops what leaves from the relay ports (egress). Let UDP from them out.")
        return ""


def peer_step(exchange: Exchange, peer: Address, seconds: float) -> Step:
    """Sends to a peer that sends back what it is sent, and counts."""
    if exchange.address is not None and (":" in exchange.address.host) != (":" in peer.host):
        return Step("outside", Outcome.UNTRIED, f"not tried: the relayed address {exchange.address} is of the other family", 0.0,
                    f"Name a peer of the family of {exchange.address.host}.")
    begun, back, tag = time.monotonic(), set(), b"\xff" + os.urandom(7)  # type: float, Set[bytes], bytes
    exchange.on_data = lambda data, source: back.add(data) if data.startswith(tag) and source == peer else None
    with contextlib.suppress(Ended, Refused):
        exchange.ask(peer.host)
        drive([exchange], lambda: is_judged(exchange, reasons.CREATE_PERMISSION, peer.host), seconds)
        said = exchange.answer_to(reasons.CREATE_PERMISSION, peer.host)
        if peer.host not in exchange.granted:
            told = f"the server refuses {peer.host} as a peer: {said}" if said is not None else "no answer to the permission"
            advised = advice.about_outside_peer(peer.host, said)
            return Step("outside", Outcome.FAILED, told, time.monotonic() - begun, advised, facts_of(said))
        for number in range(COUNT):
            exchange.send(tag + b"%d" % number, peer)
        drive([exchange], lambda: len(back) == COUNT, max(_WAIT, 2 * _TRIPS * exchange.round_trip(reasons.ALLOCATE) + 0.1))
    facts: Facts = {"out_and_in": len(back), "sent": COUNT, "peer": str(peer)}
    said_back = f"{len(back)} of {COUNT} packets came back from {peer}"
    told = "" if back else (f"{peer} sends nothing back: what leaves from the relay ports is dropped (egress), a firewall or NAT "
                            f"drops what "
                            "comes to them, or that peer does not send back what it is sent.")
    return Step("outside", Outcome.FAILED if not back else Outcome.OK, said_back, time.monotonic() - begun, told, facts)


def _socket(host: str) -> socket.socket:
    """A socket over UDP of the family of an IP address."""
    return socket.socket(socket.AF_INET6 if ipaddress.ip_address(host.partition("%")[0]).version == 6 else socket.AF_INET,
                         socket.SOCK_DGRAM)
