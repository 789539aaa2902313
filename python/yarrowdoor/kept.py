"""What a function has made before."""
from __future__ import annotations

from typing import Callable, Dict, TypeVar

__all__ = ["Kept"]

# So many are kept.
MOST = 8_192

_Given = TypeVar("_Given")
_Made = TypeVar("_Made")


class Kept(Dict[_Given, _Made]):
    """What a function makes of a value, for the next time: to look it up takes half as long as with `functools.lru_cache`.

    When there are `MOST`, all are forgotten.
    """

    def __init__(self, make: Callable[[_Given], _Made]) -> None:
        super().__init__()
        self._make = make

    def __missing__(self, given: _Given) -> _Made:
        if len(self) >= MOST:
            self.clear()
        made = self[given] = self._make(given)
        return made
