"""What a client is and does: how long it waits for answers, its credentials, and all of it packed for the library."""
from __future__ import annotations

import struct
from dataclasses import dataclass
from typing import Dict, Optional, Sequence, Tuple, Union

from . import layout as c

__all__ = ["Times", "TRANSPORTS", "check_seconds", "check_times", "checked_families", "credential", "number", "packed_settings"]

TRANSPORTS = {"udp": 0, "tcp": 1}
_ALGORITHMS = {"sha1": 1, "sha256": 2}
_ANONYMOUS = {"auto": 0, "required": 1, "disabled": 2}


@dataclass(frozen=True)
class Times:
    """How long a request waits for its answer, as whole numbers of nanoseconds (RFC 8489, section 6.2.1).

    Over UDP it is transmitted `count` times: the second time `initial` after it was made, and each further time after twice the
    wait before, but at most `longest`. It fails `last` after the last one: by default after 0.5 + 1 + 2 + 4 + 8 + 16 + 8 = 39.5 s.
    Over TCP and TLS it is transmitted once, and fails as late. Each request has this time for itself, and entering a
    `TurnClient` makes two. Three seconds for each:

        Times.seconds(initial=0.2, longest=0.8, last=1.6, count=4)      # 0.2 + 0.4 + 0.8 + 1.6 = 3 s
    """

    initial: int = 500_000_000
    """from when the request is made to the second transmission, in nanoseconds; then it doubles"""
    longest: int = c.MAX_TIME
    """the longest wait between two transmissions, in nanoseconds"""
    last: int = 8_000_000_000
    """the wait after the last transmission, in nanoseconds"""
    count: int = 7
    """how often a request is transmitted in all"""

    @classmethod
    def seconds(cls, initial: float = 0.5, longest: float = 1e9, last: float = 8.0, count: int = 7) -> Times:
        """The same, in seconds. `ValueError` if one is below 0, or over 1e9."""
        for name, value in (("initial", initial), ("longest", longest), ("last", last)):
            if not 0 <= value <= 1e9:
                raise ValueError(f"{name} is a number of seconds from 0 to 1e9, and not {value!r}")
        return cls(round(initial * 1e9), round(longest * 1e9), round(last * 1e9), count)


def credential(name: str, value: Union[str, bytes]) -> bytes:
    """A user name or password as bytes. `TypeError` if it is neither text nor bytes."""
    if isinstance(value, str):
        return value.encode()
    if isinstance(value, (bytes, bytearray, memoryview)):
        return bytes(value)
    raise TypeError(f"{name} is str or bytes, and not {type(value).__name__}")


def check_times(times: Optional[Times]) -> None:
    """`TypeError` if it is not `Times`, and `ValueError` if a number in it is none."""
    if times is None:
        return
    if not isinstance(times, Times):
        raise TypeError(f"times is a yarrowdoor.Times, whose waits are nanoseconds, and not {type(times).__name__}: {times!r}")
    for name, bits, what in (("initial", 64, "of nanoseconds"), ("longest", 64, "of nanoseconds"), ("last", 64, "of nanoseconds"),
                             ("count", 32, "of transmissions")):
        value = getattr(times, name)
        if not isinstance(value, int) or not 0 <= value < 1 << bits:
            raise ValueError(f"times.{name} is a whole number {what}, from 0 to 2^{bits} - 1, and not {value!r}")


def check_seconds(*, above_zero: Dict[str, Optional[float]], from_zero: Dict[str, float]) -> None:
    """`ValueError` if one of these is no number of seconds."""
    for name, seconds in above_zero.items():
        if seconds is not None and not seconds > 0:
            raise ValueError(f"{name} is a number of seconds above 0, and not {seconds!r}")
    for name, seconds in from_zero.items():
        if not 0 <= seconds < 1e9:
            raise ValueError(f"{name} is a number of seconds from 0 on, and not {seconds!r}")


def checked_families(family: Union[int, Tuple[int, ...]]) -> Tuple[int, ...]:
    """The families of the relayed addresses. `ValueError` if there are no such."""
    families = family if isinstance(family, tuple) else (family,)
    if families not in ((4,), (6,), (4, 6), (6, 4)):
        raise ValueError(f"family is 4 or 6, or both as (4, 6), and not {family!r}")
    return families


def number(table: Dict[str, int], word: str) -> int:
    """The number of a word. `ValueError` if it is none of the table."""
    try:
        return table[word]
    except (KeyError, TypeError):
        raise ValueError(f"{word!r} is none of {', '.join(table)}") from None


def packed_settings(local: bytes, remote: bytes, way: int, relay_way: int, families: Sequence[int], algorithms: Sequence[str],
                    anonymous: str, times: Optional[Times], max_stale_nonces: int, pause: int, keepalive: int,
                    refresh_ahead: int, timed_from_send: bool) -> bytes:
    """The settings of a client as the library has them. `ValueError` if there are no such, `TypeError` for other `times`."""
    signs = [number(_ALGORITHMS, it) for it in algorithms]
    if not 1 <= len(families) <= 2 or not 1 <= len(signs) <= 2:
        raise ValueError("there are one or two families, and one or two algorithms")
    if not 1 <= max_stale_nonces <= 65_535:
        raise ValueError(f"the limit of challenges is 1 to 65,535, and not {max_stale_nonces}")
    check_times(times)
    waits = (times.initial, times.longest, times.last, times.count, 1) if times else (0, 0, 0, 0, 0)
    try:
        return c.SETTINGS.pack(*waits, way, relay_way, *_two(families), *_two(signs), number(_ANONYMOUS, anonymous),
                               max_stale_nonces, bool(timed_from_send), local, remote, pause or c.NO_PAUSE, keepalive,
                               refresh_ahead)
    except struct.error as error:
        raise ValueError(f"a number of the settings does not fit: {error}") from None


def _two(values: Sequence[int]) -> Tuple[int, int]:
    return (values[0], values[1]) if len(values) == 2 else (values[0], 0)
