"""`yarrowdoor bench`: how many packets a second go through the server and back, what is lost, and what that takes here."""
from __future__ import annotations

import json
import time
from dataclasses import dataclass
from typing import List, Optional, TextIO

from ..address import Address
from ..driver import drive
from .driver import leave_all
from .exchange import Exchange
from .output import JSON_VERSION, Bar
from .pair import Server, find_way, join
from .traffic import Trip

__all__ = ["Load", "bench"]

# So many packets are under way at a time: what the buffers of sockets hold.
_WINDOW = 32
# A packet that is not back after so long is lost, in seconds.
_LOST_AFTER = 0.25


@dataclass
class Load:
    """What was measured. Times are seconds."""

    sent: int = 0
    received: int = 0
    seconds: float = 0.0
    processor: float = 0.0

    def __str__(self) -> str:
        lost = 100 * (self.sent - self.received) / max(1, self.sent)
        return (f"{self.received / self.seconds:,.0f} packets a second there and back, {lost:.2f} % of {self.sent:,} lost, "
                f"{100 * self.processor / self.seconds:.0f} % of a processor here")


def bench(server: Server, peer: Optional[Address], seconds: float, size: int, rate: float, has_channel: bool, is_json: bool,
          out: TextIO, errors: TextIO) -> int:
    """Prints what was measured in this many seconds: with as many packets as come back, or `rate` a second where it is not 0. The
    status is 0 where any came back, and else 1. `CannotRelay` where nothing could be sent."""
    opened: List[Exchange] = []
    try:
        trip = join(server, find_way(server), opened, peer, has_channel)
        if not is_json:
            print(f"from {opened[0].address} to {trip.peer}, {seconds:g} s, packets of {size} bytes", file=out, flush=True)
        load = _run(trip, seconds, size, rate, Bar(errors, not is_json, "bench", int(seconds)))
        facts = {"version": JSON_VERSION, "peer": str(trip.peer), "sent": load.sent, "received": load.received,
                 "seconds": load.seconds, "processor_seconds": load.processor}
        print(json.dumps(facts) if is_json else str(load), file=out)
        return 0 if load.received else 1
    finally:
        leave_all(opened)


def _run(trip: Trip, seconds: float, size: int, rate: float, told: Bar) -> Load:
    """Sends for this many seconds, and counts what comes back."""
    load, payload = Load(), bytes(size)
    under_way, heard = 0, time.monotonic()

    def take(data: bytes, peer: Address) -> None:
        nonlocal under_way, heard
        if peer == trip.peer and len(data) == size:
            load.received, under_way, heard = load.received + 1, max(0, under_way - 1), time.monotonic()

    trip.sender.on_data = take
    begun, used = time.monotonic(), time.process_time()
    while (passed := time.monotonic() - begun) < seconds and not any(it.is_over for it in trip.all):
        if under_way and time.monotonic() - heard > _LOST_AFTER:
            under_way, heard = 0, time.monotonic()  # They are lost.
        room = int(rate * passed) + 1 - load.sent if rate else _WINDOW - under_way
        for _ in range(max(0, min(room, _WINDOW))):
            trip.sender.send(payload, trip.peer)
            load.sent, under_way = load.sent + 1, under_way + 1
        seen = load.received
        drive(trip.all, lambda: load.received > seen, 1 / rate if rate else _LOST_AFTER)
        told(int(passed))
    told.end()
    drive(trip.all, lambda: load.received >= load.sent, _LOST_AFTER)
    load.seconds, load.processor = time.monotonic() - begun, time.process_time() - used
    return load
