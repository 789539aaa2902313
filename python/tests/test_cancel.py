"""Programs that are cancelled at each step of the event loop, one after the other: nothing is left of them."""
import asyncio
import contextlib
import gc
import os
import unittest
import warnings
from typing import Any, Awaitable, Callable, List, Optional, Tuple

from yarrowdoor import Relay, TurnClient, create_datagram_endpoint

from .leaps import LeapingLoop, LoopClock
from .network import Endpoint, StreamEndpoint
from .server import Server

FIRST, SECOND, THIRD = ("10.1.0.1", 9), ("10.1.0.2", 9), ("10.1.0.3", 9)
# More rounds of the event loop than any program here takes.
MANY = 400
# After so many seconds all that a cancelled program had is given back: closing waits two for the server.
LATER = 10.0


class CancellingLoop(LeapingLoop):
    """Cancels a task before its round `at`."""

    def __init__(self, at: int) -> None:
        super().__init__()
        self.rounds, self.at, self.target = 0, at, None  # type: int, int, Optional[asyncio.Future[None]]

    def _run_once(self) -> None:
        self.rounds += self.target is not None
        if self.target is not None and self.rounds == self.at:
            self.target.cancel()
        super()._run_once()  # type: ignore[misc]


async def by_client(uri: str) -> None:
    async with TurnClient(uri, "user", "pass", probe=5.0, clock=LoopClock()) as relay:
        await relay.permit(FIRST[0])
        await relay.bind(SECOND)
        await relay.send(b"x", THIRD)
        await relay.send(b"x", SECOND)
        await relay.receive()
        await relay.check()


async def by_relay(uri: str) -> None:
    async with Relay(uri, "user", "pass", probe=5.0, clock=LoopClock()) as relay:
        await relay.permit(FIRST[0])
        await relay.bind(SECOND)
        await relay.send(b"x", SECOND)
        async for _ in relay.states():
            break
        await relay.receive()
        await relay.check()


class Ending(asyncio.DatagramProtocol):
    def __init__(self) -> None:
        self.lost: asyncio.Future[None] = asyncio.get_running_loop().create_future()

    def connection_lost(self, exc: Optional[Exception]) -> None:
        if not self.lost.done():
            self.lost.set_result(None)


async def by_endpoint(uri: str) -> None:
    transport, protocol = await create_datagram_endpoint(
        uri, Ending, credentials=("user", "pass"), peers=[FIRST[0], SECOND[0]], clock=LoopClock())
    try:
        transport.sendto(b"x", FIRST)
        await asyncio.sleep(0.01)
    finally:
        transport.close()
    await protocol.lost


Program = Callable[[str], Awaitable[None]]


def cancelled(program: Program, kind: Any, at: int) -> Tuple[bool, List[str]]:
    """Runs a program that is cancelled in a round: whether it took so many rounds, and what is left of it."""
    loop, left = CancellingLoop(at), []  # type: CancellingLoop, List[str]
    loop.set_exception_handler(lambda _, context: left.append(f"{context['message']} {context.get('exception')!r}"))

    async def main() -> bool:
        endpoint = await kind.start(Server())
        files, others = len(os.listdir("/proc/self/fd")), asyncio.all_tasks()
        task = loop.target = asyncio.ensure_future(program(endpoint.uri))
        await asyncio.wait([task], timeout=LATER)
        loop.target = None
        if not task.done():
            left.append("the program, which hangs")
        elif not task.cancelled() and task.exception() is not None:
            left.append(repr(task.exception()))
        is_hit = task.cancelled()
        await asyncio.sleep(LATER)
        its = [it for it in asyncio.all_tasks() - others if "StreamEndpoint.serve" not in str(it)]
        left.extend(map(str, [*its, *endpoint.server.allocations]))
        with contextlib.suppress(AttributeError, ConnectionError):  # It was never made, or is reset.
            endpoint.writer.close()
            await endpoint.writer.wait_closed()
        if len(os.listdir("/proc/self/fd")) > files:
            left.append("open files")
        with contextlib.suppress(AttributeError):
            endpoint.close()
        await asyncio.sleep(0.01)
        return is_hit

    with warnings.catch_warnings(record=True) as warned, contextlib.closing(loop):
        warnings.simplefilter("always")
        is_hit = loop.run_until_complete(main())
        gc.collect()
    return is_hit, [*left, *(str(it.message) for it in warned)]


class Cancelled(unittest.TestCase):
    def at_each_step(self, program: Program, kind: Any) -> None:
        for at in range(1, MANY):
            is_hit, left = cancelled(program, kind, at)
            self.assertEqual(left, [], f"cancelled in round {at}")
            if not is_hit:
                break
        self.assertGreater(at, 20)
        self.assertLess(at, MANY - 1)

    def test_a_client(self) -> None:
        self.at_each_step(by_client, Endpoint)

    def test_a_client_over_tcp(self) -> None:
        self.at_each_step(by_client, StreamEndpoint)

    def test_a_relay(self) -> None:
        self.at_each_step(by_relay, Endpoint)

    def test_an_endpoint(self) -> None:
        self.at_each_step(by_endpoint, Endpoint)


if __name__ == "__main__":
    unittest.main()
