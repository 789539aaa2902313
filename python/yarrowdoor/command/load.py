"""`yarrowdoor load`: many relayed addresses at one time, and packets through them."""
from __future__ import annotations

import contextlib
import os
import struct
import time
from dataclasses import dataclass
from typing import Callable, Dict, Iterator, Optional

from ..address import Address
from ..errors import Ended, Refused
from .doors import find_addresses, try_doors
from .exchange import Exchange
from .files import more_files
from .output import Output
from .pair import Server
from .percentiles import percentiles, shown
from .ramp import Ramp
from .reach import Way
from .steps import Facts, Outcome, Step
from .traffic import LAST_WAIT, Echoes

__all__ = ["Wanted", "load"]

# A packet begins with a mark that no other sender uses, and its number.
_HEAD = struct.Struct("!8sI")
# Who sends a packet so much later than it was due, in seconds, is too slow for what was asked for.
_LATE = 0.5


@dataclass(frozen=True)
class Wanted:
    """How much is asked of a server."""

    allocations: int
    rate: float
    """how many further allocations a second"""
    packets: int
    """how many are sent through each two allocations, and back, while all are held"""
    hold: float
    """how long all are held, in seconds"""
    size: int
    has_channel: bool
    max_loss: float
    """of how many packets of a hundred it is too many to be lost at each crossing between here and
    the server"""
    peer: Optional[Address] = None
    """who sends back what it is sent, in place of every second allocation"""


def load(server: Server, wanted: Wanted, output: Output) -> None:
    """Adds each step to the output. All is given back at the end, also after an interrupt."""
    way = _way(server, output)
    if way is None:
        return
    with more_files(), Ramp(server, way, wanted.peer, wanted.has_channel) as ramp:
        try:
            for step in _steps(ramp, wanted, output):
                output.add(step)
        finally:
            output.add(ramp.give_back())


def _way(server: Server, output: Output) -> Optional[Way]:
    """The steps of the name and of the URI's transport, and the way to the server, if any."""
    step, hosts = find_addresses(server.uri, server.family, server.seconds)
    output.add(step)
    if not hosts:
        return None
    steps, way = try_doors(server.uri, hosts, server.context, server.seconds, server.tap)
    name = "tls" if server.uri.secure else server.uri.transport
    [wanted] = [it for it in steps if it.name == name]
    output.add(wanted)
    # Another transport than that of the URI was not asked for.
    return way if way is not None and way.door.transport == name else None


def _steps(ramp: Ramp, wanted: Wanted, output: Output) -> Iterator[Step]:
    yield ramp.climb(wanted.allocations, wanted.rate)
    if not ramp.held:
        return
    refused = ramp.join() if wanted.packets else None
    if refused is not None:
        yield refused
    begun = time.monotonic()
    if wanted.packets and ramp.pairs:
        yield _Packets(ramp, wanted).run(output.bar("packets", len(ramp.pairs) * wanted.packets))
    ramp.fleet.drive(lambda: ramp.is_gone, begun + wanted.hold)
    yield _held(ramp, time.monotonic() - begun)


def _held(ramp: Ramp, spent: float) -> Step:
    """Whether the server still has all that it has granted."""
    count = len(ramp.held)
    facts: Facts = {"granted": count, "ended": count if ramp.is_gone else len(ramp.lost)}
    if ramp.is_gone:
        return Step("hold", Outcome.FAILED, "the server has gone", spent,
                    "It answered before, and has ended: see its log.", facts)
    if ramp.lost:
        return Step("hold", Outcome.FAILED, f"{len(ramp.lost):,} of {count:,} have ended", spent,
                    "The server has ended connections, or allocations, that it had granted: see "
                    "its log.", facts)
    return Step("hold", Outcome.OK, f"all {count:,} of them, for {spent:.1f} s", spent, "", facts)


class _Packets:
    """Packets that are sent evenly over the time in which all is held, by all senders in turn."""

    def __init__(self, ramp: Ramp, wanted: Wanted) -> None:
        self._ramp, self._wanted = ramp, wanted
        self._tag = b"\xff" + os.urandom(7)
        self._left: Dict[int, float] = {}
        self._found = Echoes()
        self._last = 0.0
        for exchange, peer in ramp.pairs:
            exchange.on_data = self._taker(exchange, peer)

    def _taker(self, exchange: Exchange, peer: Address) -> Callable[[bytes, Address], None]:
        def take(data: bytes, source: Address) -> None:
            if source != peer or len(data) != self._wanted.size or not data.startswith(self._tag):
                return
            left = self._left.pop(_HEAD.unpack_from(data)[1], None)
            if left is None:
                self._found.doubled += 1
            else:
                self._last = time.monotonic()
                self._found.times.append(self._last - left)

        return take

    def run(self, told: Callable[[int], None]) -> Step:
        """Sends them, waits for those that are under way, and judges."""
        ramp, wanted, found = self._ramp, self._wanted, self._found
        count, begun, late = len(ramp.pairs) * wanted.packets, time.monotonic(), 0.0
        padding = bytes(wanted.size - _HEAD.size)
        for number in range(count):
            due = begun + wanted.hold * number / count
            if ramp.fleet.drive(lambda: ramp.is_gone, due):
                break
            late = max(late, time.monotonic() - due)
            exchange, peer = ramp.pairs[number % len(ramp.pairs)]
            with contextlib.suppress(Ended, Refused):
                self._left[number] = time.monotonic()
                exchange.send(_HEAD.pack(self._tag, number) + padding, peer)
                ramp.fleet.work(exchange)
            found.sent += 1
            told(found.sent)
        self._last = time.monotonic()
        while self._left and not ramp.is_gone and time.monotonic() < self._last + LAST_WAIT:
            ramp.fleet.drive(lambda: not self._left or ramp.is_gone, self._last + LAST_WAIT)
        return self._judged(time.monotonic() - begun, late)

    def _judged(self, spent: float, late: float) -> Step:
        found, wanted = self._found, self._wanted
        facts: Facts = {"sent": found.sent, "received": len(found.times), "doubled": found.doubled,
                        "late": round(late, 3), "lost_of_crossing": round(found.crossing, 3),
                        "seconds": round(spent, 6), **percentiles(found.times)}
        rate = len(found.times) / max(spent, 1e-9)
        said = f"{len(found.times):,} of {found.sent:,} came back, at {rate:,.0f} a second"
        said += f", {shown(found.times)}" if found.times else ""
        if not found.times:
            return Step("packets", Outcome.FAILED, said, spent, "The server has granted all, and "
                        "nothing passes: `yarrowdoor check` says more.", facts)
        if found.crossing > wanted.max_loss:
            return Step("packets", Outcome.FAILED, said, spent,
                        f"{found.crossing:.1f} % are lost at each crossing between here and the "
                        f"server, more than {wanted.max_loss:g} % (--max-loss): the server, or "
                        "the network on the way, carries less. Send fewer (--packets), or "
                        "for longer (--hold).", facts)
        if late > _LATE:
            return Step("packets", Outcome.NOTE, said, spent,
                        f"This host was {late:.1f} s late with them: the limit that this shows is "
                        "its own. Send fewer (--packets), or for longer (--hold).", facts)
        return Step("packets", Outcome.OK, said, spent, "", facts)
