"""How many permissions and channels a client renews in time."""
from __future__ import annotations

import logging
import struct
from typing import Optional

from . import layout as c
from .clock import Alarm
from .counters import Counters
from .library import load
from .requests import MAX_UNSENT

__all__ = ["Room", "kept_grants", "longest_pause"]

_log = logging.getLogger("yarrowdoor")
_LOAD = struct.Struct("=QQII")


def _packed(late: float, delay: float, slots: int, extras: int) -> bytes:
    """The load as the library has it. `ValueError` for what is none."""
    try:
        return _LOAD.pack(int(late * 1e9), int(delay * 1e9), slots, extras)
    except struct.error as error:
        raise ValueError(f"a number of the load does not fit: {error}") from None


def _ahead_of(refresh_ahead: float) -> int:
    """In nanoseconds. `ValueError` if it is no time ahead."""
    ahead = int(refresh_ahead * 1e9)
    if not 0 < ahead < c.NO_PAUSE:
        raise ValueError(f"refresh_ahead is above 0, and not {refresh_ahead!r}")
    return ahead


def kept_grants(*, late: float, delay: float, pause: float = 0.005, refresh_ahead: float = 150.0, slots: int = MAX_UNSENT,
                extras: int = 0) -> int:
    """How many permissions and channels, together, are renewed before they expire (RFC 8656, sections 9 and 12). Times are seconds.

    `late` is how much too late a timer wakes the program at most, and `delay` how long the server's success takes. `pause` and
    `refresh_ahead` are those of the client. At most `slots` other requests wait to be sent, and within `refresh_ahead` there are
    at most `extras` retransmissions and requests that the server has challenged. 0 where there is room for none, and 2^64 - 1
    if no packet takes any time. `ValueError` for what is no such number; `LibraryError` if the library for C is older.
    """
    between = int(pause * 1e9)
    if not 0 <= between < c.NO_PAUSE:
        raise ValueError(f"pause is from 0 on, and not {pause!r}")
    return load().kept_grants(_packed(late, delay, slots, extras), between or c.NO_PAUSE, _ahead_of(refresh_ahead))


def longest_pause(count: int, *, late: float, delay: float, refresh_ahead: float = 150.0, slots: int = MAX_UNSENT,
                  extras: int = 0) -> Optional[float]:
    """The longest `pause`, in seconds, with which `count` permissions and channels are renewed in time; the other numbers are those
    of `kept_grants`. 0.0 if that needs no pause at all, and None if they are too many even so. `ValueError` for what is no such
    number; `LibraryError` if the library for C is older.
    """
    if not 1 <= count < c.NO_PAUSE:
        raise ValueError(f"count is from 1 on, and not {count!r}")
    found = load().longest_cadence(_packed(late, delay, slots, extras), count, _ahead_of(refresh_ahead))
    return None if found == 0 else 0.0 if found == c.NO_PAUSE else found / 1e9


class Room:
    """Warns once by the log where a client has more grants than it renews in time, as late as its timers and its server are."""

    def __init__(self, prefix: str, alarm: Alarm, counters: Counters, pause: int, refresh_ahead: int) -> None:
        self._prefix, self._alarm, self._counters = prefix, alarm, counters
        self._pause, self._ahead = pause / 1e9, refresh_ahead / 1e9
        self._has_warned = not load().has_room or refresh_ahead == 0

    def counted(self, count: int) -> None:
        """There are this many grants."""
        if self._has_warned:
            return
        late, delay = self._alarm.late, self._counters.round_trip or 0.0
        kept = kept_grants(late=late, delay=delay, pause=self._pause, refresh_ahead=self._ahead)
        if count > kept:
            self._has_warned = True
            _log.warning("%s: %d permissions and channels, of which %d are renewed in time (timers are %.1f ms late, and answers "
                         "take %.0f ms): more are with a smaller pause=, or a larger refresh_ahead=", self._prefix, count, kept,
                         1e3 * late, 1e3 * delay)
