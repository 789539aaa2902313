"""An event loop in which hours pass at once, for clients and servers on sockets of this host."""
import asyncio
import selectors
from typing import Any, Coroutine, List, Optional, Tuple, TypeVar

from yarrowdoor import Clock

_Result = TypeVar("_Result")

# What a socket of this host sends to another one is there at once, but for a busy machine, in seconds.
ARRIVAL = 0.002
# A timer is passed by so much, so that no rounding leaves it in the future, in seconds.
MARGIN = 1e-6


class LeapingSelector(selectors.DefaultSelector):
    """Where nothing is ready, as much time passes as would have been waited."""

    def __init__(self) -> None:
        super().__init__()
        self.time = 0.0

    def select(self, timeout: Optional[float] = None) -> List[Tuple[selectors.SelectorKey, int]]:
        if timeout is None:
            return super().select(None)  # for another thread
        ready = super().select(min(timeout, ARRIVAL))
        if not ready and timeout > 0:
            self.time += timeout + MARGIN
        return ready


class LeapingLoop(asyncio.SelectorEventLoop):
    """An event loop whose time is that of a selector."""

    def __init__(self, leaping: Optional[LeapingSelector] = None) -> None:
        self._leaping = leaping or LeapingSelector()
        super().__init__(self._leaping)

    def time(self) -> float:
        return self._leaping.time


class LoopClock(Clock):
    """The time of the event loop, for a client."""

    def now(self) -> int:
        return int(asyncio.get_running_loop().time() * 1e9)


def run(main: Coroutine[Any, Any, _Result]) -> _Result:
    """Runs a program in such a loop. It begins at 0 s."""
    loop = LeapingLoop()
    try:
        return loop.run_until_complete(main)
    finally:
        for task in asyncio.all_tasks(loop):
            task.cancel()
            loop.run_until_complete(asyncio.wait([task]))
        loop.run_until_complete(loop.shutdown_default_executor())
        loop.close()
