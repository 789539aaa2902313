"""Percentiles of times, by the nearest rank."""
from __future__ import annotations

import math
from typing import Sequence

from .steps import Facts

__all__ = ["percentile", "percentiles", "shown"]

_PARTS = {"p50": 50, "p90": 90, "p99": 99, "most": 100}


def percentile(times: Sequence[float], part: float) -> float:
    """The least of these times that this many percent of them do not exceed. There has to be one."""
    ordered = sorted(times)
    return ordered[max(1, math.ceil(len(ordered) * part / 100)) - 1]


def percentiles(times: Sequence[float]) -> Facts:
    """For machines, in seconds: nothing where there are no times."""
    if not times:
        return {}
    return {name: round(percentile(times, part), 6) for name, part in _PARTS.items()}


def shown(times: Sequence[float]) -> str:
    """For people, in milliseconds."""
    middle, most, nearly, last = (f"{percentile(times, it) * 1e3:.1f}" for it in _PARTS.values())
    return f"in {middle}, {most}, {nearly} and {last} ms (50, 90, 99 % and most)"
