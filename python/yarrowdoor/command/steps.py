"""What a check consists of: steps, each with what came of it, and what is to be done where it fails."""
from __future__ import annotations

import enum
from dataclasses import dataclass, field
from typing import Dict, List, Sequence, Union

__all__ = ["Facts", "Outcome", "Step", "printable", "status_of"]

# What machines read of a step.
Fact = Union[str, int, float, bool, None, List[str], List[int]]
Facts = Dict[str, Fact]


class Outcome(enum.Enum):
    """What came of a step."""

    OK = "ok"
    NOTE = "note"
    """it works, or is not needed, and there is something to know"""
    FAILED = "failed"
    UNTRIED = "untried"
    """it cannot be tried here, which says nothing of the server"""


@dataclass(frozen=True)
class Step:
    """One step of a check."""

    name: str
    outcome: Outcome
    said: str
    """what was found"""
    seconds: float = 0.0
    """how long it took"""
    advice: str = ""
    """what is wrong, and what to do"""
    facts: Facts = field(default_factory=dict)
    table: Sequence[Sequence[str]] = ()
    """rows of words, the headings first, for people"""


def printable(text: str) -> str:
    """Text of a server, without what would steer a terminal."""
    return "".join(it for it in text if it.isprintable()).strip()


def status_of(steps: Sequence[Step]) -> int:
    """The exit status: 0 where all is well, 1 where something fails, 2 where it cannot be tried."""
    found = {it.outcome for it in steps}
    return 1 if Outcome.FAILED in found else 2 if Outcome.UNTRIED in found else 0
