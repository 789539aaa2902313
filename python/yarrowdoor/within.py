"""A limit of time for what is awaited."""
from __future__ import annotations

import asyncio
from typing import Awaitable, TypeVar

__all__ = ["within"]

_Result = TypeVar("_Result")


async def within(work: Awaitable[_Result], seconds: float) -> _Result:
    """What `work` gives. It is cancelled after that many seconds: `asyncio.TimeoutError`.

    `asyncio.wait_for` loses a cancellation that comes when the work is done, up to Python 3.11: who was cancelled goes on.
    """
    task = asyncio.ensure_future(work)
    try:
        await asyncio.wait([task], timeout=seconds)
        if not task.done():
            raise asyncio.TimeoutError
        return task.result()
    finally:
        if not task.done():
            task.cancel()
        task.add_done_callback(lambda it: it.cancelled() or it.exception())  # Nobody waits for it any more.
