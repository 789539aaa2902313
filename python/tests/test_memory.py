"""A memory allocation of the client that fails: what is due stays due."""
import asyncio
import unittest
from typing import Any, Callable, List

from yarrowdoor import TurnClient

from .leaps import LoopClock, run
from .network import Endpoint
from .server import Server


class Want(unittest.TestCase):
    def test_a_timer(self) -> None:
        """A call without memory leaves what is due: it is requested again after 100 ms, and the relay is renewed as before."""
        for name in ("poll", "poll_transmit", "poll_event"):
            with self.subTest(call=name):
                run(self.refused(name))

    async def refused(self, name: str) -> None:
        told: List[Any] = []
        loop = asyncio.get_running_loop()
        loop.set_exception_handler(lambda _, context: told.append(context))
        endpoint: Any = await Endpoint.start(Server())
        async with TurnClient(endpoint.uri, "user", "pass", clock=LoopClock()) as relay:
            await relay.permit("10.1.0.1")
            await asyncio.sleep(40)
            client: Any = relay._session().client
            real: Callable[..., Any] = getattr(client, name)
            calls: List[float] = []

            def fail_once(*arguments: int) -> Any:
                calls.append(loop.time())
                if len(calls) == 1:
                    raise MemoryError("a memory allocation of the client failed")
                return real(*arguments)

            setattr(client, name, fail_once)
            await asyncio.sleep(3600)
            self.assertAlmostEqual(calls[1] - calls[0], 0.1, delta=0.05)
            self.assertFalse(relay.closed)
            (allocation,) = endpoint.server.allocations.values()
            self.assertGreater(allocation.permissions["10.1.0.1"], loop.time())
            self.assertEqual((told, list(relay.lost)), ([], []))
        endpoint.close()


if __name__ == "__main__":
    unittest.main()
