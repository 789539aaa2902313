"""Packets through relayed addresses: how many come back, how soon, and how long they may be."""
from __future__ import annotations

import math
import os
import statistics
import struct
import time
from dataclasses import dataclass, field, replace
from typing import Callable, Dict, List, Optional, Sequence, Set, Tuple

from .. import reasons
from ..address import Address
from ..driver import drive
from ..errors import Ended, Refused
from .exchange import Exchange
from .steps import Facts, Outcome, Step

__all__ = [
    "Echoes", "FAR", "Flight", "LAST_WAIT", "Trip", "echo_step", "first_sizes", "measure", "payload_step", "send_all", "send_back",
]

# A packet begins with a mark that no other sender uses, and its number.
_HEAD = struct.Struct("!8sI")
# How long the last packet is waited for at least, in seconds, and for how many round trips of a request.
LAST_WAIT, _TRIPS = 1.0, 4
# The sizes that are tried first for the longest payload, those where all of these pass, in bytes, and how many in each further
# round.
_SIZES = (100, 500, 1000, 1200, 1300, 1400, 1450, 1500, 2000, 4000, 8000, 12000, 16000)
_LONG_SIZES, _ROUND = (24000, 32000, 64000), 12
# How often a packet and its echo go between here and the server: to it, back to the second relayed address, to the server again,
# and back to the first one.
CROSSINGS = 4
# When this many packets have come back, the next one is waited for at least this long, in seconds.
_KNOWN, _TAIL = 10, 0.7
# After this many lost packets more are sent, to find out whether they are too many.
_DOUBTFUL, _MORE = 3, 3
# If more than this part is lost, this many small packets, with this pause after each, tell a rate limit from loss.
_MANY, _FEW, _SLOWLY = 0.25, 12, 0.1
# If nothing comes back, this few are sent, after a pause of this many seconds.
_TRICKLE, _REST = 3, 0.3
# With round trips that are longer than this, in seconds, the longest payload is not looked for in further rounds.
FAR = 0.1
# What WebRTC and QUIC expect to pass, in bytes.
_USUAL = 1200


@dataclass(frozen=True)
class Trip:
    """Where packets go: from an exchange to a peer, and back."""

    sender: Exchange
    peer: Address
    all: Sequence[Exchange]
    """those that have to work meanwhile, of which none may end"""
    others: Sequence[Tuple[int, Callable[[], None]]] = ()
    """further files to be read meanwhile, each with what reads it"""
    beside: Sequence[Exchange] = ()
    """those that may work meanwhile, and end"""

    def drive(self, holds: Callable[[], bool], seconds: float) -> bool:
        """Has all of them work, until something holds, or this many seconds are over, and says whether it holds."""
        return drive([*self.all, *self.beside], holds, seconds, self.others)


@dataclass
class Echoes:
    """What became of packets."""

    sent: int = 0
    times: List[float] = field(default_factory=list)
    """the round trips, in seconds"""
    doubled: int = 0

    @property
    def lost(self) -> int:
        """How many packets did not come back."""
        return self.sent - len(self.times)

    def __str__(self) -> str:
        if not self.times:
            return f"none of {self.sent} came back"
        least, middle, most = min(self.times), statistics.median(self.times), max(self.times)
        doubled = f", {self.doubled} came twice" if self.doubled else ""
        return (f"{len(self.times)} of {self.sent} came back, in {least * 1e3:.1f}, {middle * 1e3:.1f} and {most * 1e3:.1f} ms "
                f"(least, median, most){doubled}")

    @property
    def crossing(self) -> float:
        """How many of a hundred packets are lost at each crossing between here and the server, on average."""
        return 100 * (1 - math.pow(len(self.times) / self.sent, 1 / CROSSINGS)) if self.sent else 0.0

    def __add__(self, other: Echoes) -> Echoes:
        return Echoes(self.sent + other.sent, self.times + other.times, self.doubled + other.doubled)

    def facts(self) -> Facts:
        """The same for machines, in seconds."""
        found: Facts = {"sent": self.sent, "received": len(self.times), "doubled": self.doubled,
                        "lost_of_crossing": round(self.crossing, 3)}
        if self.times:
            found.update(least=min(self.times), median=statistics.median(self.times), most=max(self.times))
        return found


def send_back(exchange: Exchange) -> None:
    """Lets an exchange send back what comes, to whom it comes from."""
    def answer(data: bytes, peer: Address) -> None:
        try:
            exchange.send(data, peer)
        except (Ended, Refused):
            pass  # Its permission has ended, or it never had one: the packet counts as lost.

    exchange.on_data = answer


def _rest(back: Dict[int, List[float]], wait: float) -> float:
    """How long the next packet is waited for, when these have come back."""
    times = [it[0] for it in back.values()]
    return min(wait, _TAIL + 3 * (max(times) - min(times))) if len(times) >= _KNOWN else wait


def send_all(trip: Trip, sizes: Sequence[int], pause: float, wait: float, told: Callable[[int], None]) -> Dict[int, List[float]]:
    """Sends a packet of each size, with a pause after each, and waits until nothing has come back for this many seconds, or for
    less if other packets have shown how soon they come back: by number, the round trips of each."""
    # Wireshark takes a packet whose first byte is this for no RTP, whatever comes after it.
    tag, left, back = b"\xff" + os.urandom(7), {}, {}  # type: bytes, Dict[int, float], Dict[int, List[float]]

    def take(data: bytes, peer: Address) -> None:
        if len(data) < _HEAD.size or peer != trip.peer or data[:len(tag)] != tag:
            before(data, peer)
            return
        _, number = _HEAD.unpack_from(data)
        if number in left and len(data) == sizes[number]:
            back.setdefault(number, []).append(time.monotonic() - left[number])

    before, trip.sender.on_data = trip.sender.on_data, take
    try:
        due = time.monotonic()
        for number, size in enumerate(sizes):
            left[number] = time.monotonic()
            trip.sender.send(_HEAD.pack(tag, number) + bytes(size - _HEAD.size), trip.peer)
            # What sending takes, and the system's clock adds, is made up for by the next pause. More is not: that would be a burst.
            due = max(due + pause, left[number])
            trip.drive(lambda: False, max(pause / 4, due - time.monotonic()))
            told(number + 1)
            if any(it.is_over for it in trip.all):
                break
        while len(back) < len(left) and not any(it.is_over for it in trip.all):
            seen = len(back)
            if not trip.drive(lambda: len(back) > seen or any(it.is_over for it in trip.all), _rest(back, wait)):
                break
        return back
    finally:
        trip.sender.on_data = before


def measure(trip: Trip, count: int, size: int, pause: float, told: Callable[[int], None], wait: float = LAST_WAIT) -> Echoes:
    """Sends packets of one size, and counts what comes back. The last one is waited for longer where the server is far away: a
    packet goes there and back twice."""
    return _measure(trip, count, size, (), pause, told, wait)[0]


def _measure(trip: Trip, count: int, size: int, probes: Sequence[int], pause: float, told: Callable[[int], None],
             wait: float) -> Tuple[Echoes, Set[int]]:
    """The same, with packets of further sizes behind them, each twice: which of these sizes have come back, too."""
    longest = max(wait, _TRIPS * trip.sender.round_trip(reasons.ALLOCATE))
    sizes = [max(size, _HEAD.size)] * count + [*probes, *probes]
    back = send_all(trip, sizes, pause, longest, told)
    own = [it for number, it in back.items() if number < count]
    return Echoes(count, [it[0] for it in own], sum(len(it) - 1 for it in own)), {sizes[it] for it in back if it >= count}


@dataclass(frozen=True)
class Flight:
    """Packets that are sent: how many, their bytes, the pause between two, in seconds, and of how many of a hundred it is too much
    to be lost at each crossing."""

    count: int
    size: int
    pause: float
    max_loss: float


def echo_step(trip: Trip, way: str, flight: Flight, told: Callable[[int], None], wait: float = LAST_WAIT,
              probes: Sequence[int] = ()) -> Tuple[Step, Set[int]]:
    """Packets by messages, or by a channel: what came back, and which of further sizes did."""
    begun, passed = time.monotonic(), set()  # type: float, Set[int]
    count, size, pause = flight.count, flight.size, flight.pause
    try:
        found, passed = _measure(trip, count, size, probes, pause, told, wait)
        if _DOUBTFUL <= found.lost <= _MANY * count:
            found += measure(trip, _MORE * count, size, pause, lambda number: None, wait)
        is_limited = len(found.times) < (1 - _MANY) * count and (_passes_slowly(trip) if found.times else _trickles(trip, wait))
    except (Ended, Refused) as refusal:
        said, spent = f"nothing can be sent: {refusal}", time.monotonic() - begun
        return Step(way, Outcome.FAILED, said, spent, "What the server had granted has ended."), passed
    step = _judged(trip, way, found, flight.max_loss, is_limited)
    return replace(step, seconds=time.monotonic() - begun), passed


def _judged(trip: Trip, way: str, found: Echoes, max_loss: float, is_limited: bool) -> Step:
    """The step of packets of which this many came back."""
    if not found.times and not is_limited:
        told = _nothing(trip) if way == "messages" else (
            "Messages pass, and nothing comes back by channels: a firewall on the way that looks into TURN, or the server, drops "
            "ChannelData messages (RFC 8656, section 12.4).")
        return Step(way, Outcome.FAILED, str(found), 0.0, told, found.facts())
    if is_limited and trip.sender.wire.is_stream:
        told = (f"Of {found.sent} packets {found.lost} did not come in time, and all do when they come slowly: the network on the "
                "way loses packets, for which a stream waits (TCP), or it, or the server, limits the rate (coturn: max-bps=, "
                "bps-capacity=).")
        return Step(way, Outcome.FAILED, str(found), 0.0, told, {**found.facts(), "is_limited": True})
    if is_limited:
        told = (f"Of {found.sent} packets {found.lost} are lost when they come fast, and none when they come slowly: a limit of "
                f"rate, "
                "at the server (coturn: max-bps=, bps-capacity=) or in a network on the way (a policer).")
        return Step(way, Outcome.FAILED, str(found), 0.0, told, {**found.facts(), "is_limited": True})
    if found.lost and found.crossing > max_loss:
        told = (f"Of {found.sent} packets {found.lost} are lost, which is {found.crossing:.1f} % at each of the {CROSSINGS} "
                f"crossings "
                f"between here and the server, and more than {max_loss:g} % (--max-loss): the network on the way loses them, or "
                f"the "
                "server. Over TCP as a transport none is lost on the way here; where that is better, it is the network.")
        return Step(way, Outcome.FAILED, str(found), 0.0, told, found.facts())
    if found.doubled * 10 > found.sent:
        return Step(way, Outcome.NOTE, str(found), 0.0, "Packets come more than once: a network on the way doubles them (a "
                                                        "bridge, or "
                    "a mirror of a port). Clients drop the second ones.", found.facts())
    lost = ""
    if found.lost:
        lost = (f"{found.crossing:.1f} % are lost at each of the {CROSSINGS} crossings between here and the server, of which "
                f"{max_loss:g} % are taken as usual (--max-loss).")
    resent = sum(it.count_resent() for it in trip.all)
    if resent < _DOUBTFUL:
        return Step(way, Outcome.OK, str(found), 0.0, lost, found.facts())
    told = (f"TCP has sent {resent} packets again from here, which the network on the way has lost: what follows them waits that "
            "long.")
    return Step(way, Outcome.OK, str(found), 0.0, told, {**found.facts(), "resent": resent})


def _passes_slowly(trip: Trip) -> bool:
    """Whether small packets with long pauses all come back, after a second in which none is sent."""
    trip.drive(lambda: any(it.is_over for it in trip.all), 1.0)
    return measure(trip, _FEW, _HEAD.size, _SLOWLY, lambda number: None).lost == 0


def _trickles(trip: Trip, wait: float) -> bool:
    """The same where no packet came back, with less of it: a limit of rate that lets little pass may drop each of many."""
    trip.drive(lambda: any(it.is_over for it in trip.all), _REST)
    return measure(trip, _TRICKLE, _HEAD.size, _SLOWLY, lambda number: None, wait / 2).lost == 0


def _nothing(trip: Trip) -> str:
    return (f"The server has granted all, and no packet comes back from {trip.peer}. Nothing passes between two relayed addresses "
            "of this server; for peers elsewhere see the step `outside`. Causes: a firewall at the server drops what goes to its "
            "relay ports (open them, in coturn 49152-65535 over UDP, also to itself), that address is not its own (external-ip=), "
            "or a NAT in front of it does not loop packets back (hairpinning).")


def first_sizes(most: int) -> List[int]:
    """The sizes that are tried first for the longest payload, up to this one."""
    return [*(it for it in _SIZES if it < most), min(most, _SIZES[-1])]


def payload_step(trip: Trip, most: int, wait: float, back: Optional[Set[int]] = None) -> Step:
    """Looks for the longest payload that comes back, up to a limit in bytes. `back` are those of `first_sizes` that did already."""
    begun = time.monotonic()
    is_far = trip.sender.round_trip(reasons.ALLOCATE) > FAR
    first = first_sizes(most)
    passed, failed = _narrow(trip, first, 0, most + 1, wait) if back is None else _narrowed(first, back, 0, most + 1)
    if passed == _SIZES[-1] < most and not is_far:
        passed, failed = _narrow(trip, [it for it in _LONG_SIZES if it < most] + [most], passed, most + 1, wait)
    while failed - max(passed, _HEAD.size) > 1 and not is_far:
        least = max(passed, _HEAD.size)  # No packet is shorter than its head.
        step = max(1, (failed - least) // (_ROUND + 1))
        passed, failed = _narrow(trip, [*range(least + step, failed, step)], passed, failed, wait)
    spent, facts = time.monotonic() - begun, {"bytes": passed}  # type: float, Facts
    said = f"{passed:,} bytes pass" if passed else "none passes"
    said += f", and {failed:,} do not" if failed <= most else "; longer ones were not tried"
    if is_far and passed + 1 < failed <= most:
        said += " (the server is far away, so that no size between them was tried)"
    if passed >= _USUAL:
        return Step("payload", Outcome.OK, said, spent, "", facts)
    return Step("payload", Outcome.FAILED, said, spent,
                f"WebRTC and QUIC send up to {_USUAL:,} bytes: a tunnel on the way, or at the server, has a small MTU and drops "
                "what is longer. Raise it, or let it answer with ICMP so that senders learn it.", facts)


def _narrow(trip: Trip, sizes: Sequence[int], passed: int, failed: int, wait: float) -> Tuple[int, int]:
    """Tries sizes, each twice, since one may be lost: the longest that has passed by now, and the shortest that is longer and has
    failed."""
    twice = [*sizes, *sizes]
    back = {twice[it] for it in send_all(trip, twice, 0.002, wait, lambda number: None)}
    return _narrowed(sizes, back, passed, failed)


def _narrowed(sizes: Sequence[int], back: Set[int], passed: int, failed: int) -> Tuple[int, int]:
    passed = max(back | {passed})
    return passed, min([it for it in sizes if it > passed] + [failed])
