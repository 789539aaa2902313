"""Data that waits to be taken, and the tasks that wait for it."""
import asyncio
import contextvars
import functools
import unittest
from typing import Any, List, Optional, Tuple

from yarrowdoor import Address
from yarrowdoor.inbox import Inbox

PEER = Address("10.1.0.1", 9)
WHO: "contextvars.ContextVar[str]" = contextvars.ContextVar("WHO", default="nobody")


class Takers(unittest.IsolatedAsyncioTestCase):
    async def asyncSetUp(self) -> None:
        self.inbox = Inbox(3, None)
        self.log: List[Any] = []

    async def take(self, name: str, count: int) -> None:
        WHO.set(name)
        for _ in range(count):
            found: Optional[Tuple[bytes, Address]] = await self.inbox.take()
            self.log.append((WHO.get(), found[0] if found is not None else None))

    async def started(self, *counts: int) -> "List[asyncio.Task[None]]":
        """Tasks that wait for data, so many times each."""
        tasks = [asyncio.ensure_future(self.take("abc"[at], count)) for at, count in enumerate(counts)]
        await asyncio.sleep(0)
        return tasks

    def put_and_log(self, put: Any) -> None:
        put(b"1", PEER)
        self.log.append("put")

    def outside(self, work: Any) -> "asyncio.Future[None]":
        """Does something in the event loop, and in no task."""
        done = asyncio.get_running_loop().create_future()
        asyncio.get_running_loop().call_soon(lambda: done.set_result(work()))
        return done

    async def test_a_task_goes_on_at_once(self) -> None:
        """Before the one who has put the data, in its own context, and each in turn."""
        tasks = await self.started(2, 1)

        def put() -> None:
            for data in (b"1", b"2", b"3"):
                self.inbox.put_last(data, PEER)
                self.log.append("put")

        await self.outside(put)
        self.assertEqual(self.log, [("a", b"1"), "put", ("b", b"2"), "put", ("a", b"3"), "put"])
        await asyncio.gather(*tasks)

    async def test_a_task_goes_on_later(self) -> None:
        """Where another task runs, and where more is to be done."""
        for put, is_outside in ((self.inbox.put_last, False), (self.inbox.put, True)):
            self.log.clear()
            tasks = await self.started(1)
            work = functools.partial(self.put_and_log, put)
            if is_outside:
                await self.outside(work)
            else:
                work()
            await asyncio.gather(*tasks)
            self.assertEqual(self.log, ["put", ("a", b"1")])

    async def test_a_task_that_is_cancelled(self) -> None:
        """It takes nothing, and another one has its turn, also where the data came first."""
        for is_first in (True, False):
            self.log.clear()
            one, other = await self.started(1, 1)

            def work() -> None:
                if is_first:
                    one.cancel()
                self.inbox.put(b"1", PEER)
                if not is_first:
                    one.cancel()

            await self.outside(work)
            with self.assertRaises(asyncio.CancelledError):
                await one
            await asyncio.wait_for(other, 10)
            self.assertEqual(self.log, [("b", b"1")])

    async def test_limits(self) -> None:
        with self.assertRaises(asyncio.TimeoutError):
            await asyncio.wait_for(self.inbox.take(), 0.01)
        for number in range(5):
            self.inbox.put_last(b"%d" % number, PEER)
        self.assertEqual(self.inbox.dropped, 2)
        self.assertEqual([self.inbox.pop() for _ in range(4)], [(b"0", PEER), (b"1", PEER), (b"2", PEER), None])

    async def test_the_end(self) -> None:
        """Each that waits learns it, and who comes later."""
        tasks = await self.started(2, 1)
        await self.outside(self.inbox.end)
        await asyncio.wait_for(asyncio.gather(*tasks), 10)
        self.assertEqual(sorted(self.log), [("a", None), ("a", None), ("b", None)])

    async def test_what_a_task_raises_is_its_own(self) -> None:
        async def fail() -> None:
            await self.inbox.take()
            raise ZeroDivisionError

        failing = asyncio.ensure_future(fail())
        await asyncio.sleep(0)
        await self.outside(lambda: self.inbox.put_last(b"1", PEER))
        with self.assertRaises(ZeroDivisionError):
            await failing


if __name__ == "__main__":
    unittest.main()
