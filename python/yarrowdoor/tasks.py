"""Work that goes on beside its caller."""
from __future__ import annotations

import asyncio
from typing import Any, Awaitable, Set

__all__ = ["Tasks"]


class Tasks(Set["asyncio.Future[Any]"]):
    """Tasks that are kept until they are done: the event loop itself keeps none."""

    def spawn(self, work: Awaitable[Any]) -> None:
        """Runs something beside."""
        task = asyncio.ensure_future(work)
        self.add(task)
        task.add_done_callback(self.discard)
