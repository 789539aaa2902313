"""`yarrowdoor echo`: packets through a relayed address to a peer that sends them back, or to a second one of the same server."""
from __future__ import annotations

import json
from typing import List, Optional, TextIO

from ..address import Address
from .driver import leave_all
from .exchange import Exchange
from .output import JSON_VERSION, Bar
from .pair import Server, find_way, join
from .traffic import measure

__all__ = ["echo"]


def echo(server: Server, peer: Optional[Address], count: int, size: int, pause: float, has_channel: bool, is_json: bool,
         out: TextIO, errors: TextIO) -> int:
    """Prints what came back. The status is 0 where any did, and else 1. `CannotRelay` where nothing could be sent."""
    opened: List[Exchange] = []
    try:
        trip = join(server, find_way(server), opened, peer, has_channel)
        own = opened[0].address
        if not is_json:
            print(f"from {own} to {trip.peer}, {count} packets of {size} bytes", file=out, flush=True)
        found = measure(trip, count, size, pause, Bar(errors, not is_json, "echo", count))
        facts = {"version": JSON_VERSION, "relayed": str(own), "peer": str(trip.peer), **found.facts()}
        print(json.dumps(facts) if is_json else str(found), file=out)
        return 0 if found.times else 1
    finally:
        leave_all(opened)
