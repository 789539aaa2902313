"""What a client has sent and got, in numbers."""
from __future__ import annotations

from dataclasses import dataclass
from typing import Optional

__all__ = ["Counters"]

# How much of the next round trip goes into the mean (RFC 6298, section 2).
WEIGHT = 1 / 8


@dataclass
class Counters:
    """What a client has sent and got since it was made. Data is that of peers and to peers, without headers."""

    packets_in: int = 0
    """data of peers that came, also what was dropped then"""
    bytes_in: int = 0
    packets_out: int = 0
    """data to peers that the socket took"""
    bytes_out: int = 0
    dropped: int = 0
    """data of peers that were not taken, since `queue` packets of it were waiting"""
    unsent: int = 0
    """data to peers that the socket did not take"""
    requests: int = 0
    """requests to the server, each once"""
    retransmissions: int = 0
    """how often requests were sent again"""
    round_trip: Optional[float] = None
    """how long the server takes for an answer, in seconds: a mean in which the last ones count most. None where there was none"""

    def measure(self, seconds: float) -> None:
        """Takes one more round trip into the mean."""
        self.round_trip = seconds if self.round_trip is None else self.round_trip + WEIGHT * (seconds - self.round_trip)
