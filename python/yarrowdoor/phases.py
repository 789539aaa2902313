"""How far a session is: what it is in the middle of, as one value."""
from __future__ import annotations

import asyncio
from dataclasses import dataclass
from typing import Optional, Union

from .address import Address
from .errors import AllocationFailed, Ended
from .requests import settle

__all__ = ["Leaving", "Open", "Opening", "Over", "State", "fail"]


@dataclass(frozen=True)
class Opening:
    """The server was asked for a relayed address."""

    heard: asyncio.Future[None]
    """set when the server has answered anything, or cannot be reached"""
    ready: asyncio.Future[None]
    """set when there is a relayed address, or none"""


@dataclass(frozen=True)
class Open:
    """There is a relayed address."""

    address: Address


@dataclass(frozen=True)
class Leaving:
    """The relayed address is given back to the server, as soon as it is there."""


@dataclass(frozen=True)
class Over:
    """The client has ended: why, or None where the user has closed it."""

    why: Optional[Ended]


State = Union[Opening, Open, Leaving, Over]


def fail(opening: Opening, error: AllocationFailed) -> None:
    """Tells who waits for a relayed address that there is none."""
    for waiter in (opening.heard, opening.ready):
        if settle(waiter, error):
            waiter.exception()  # Nobody has to wait for it.
