"""Requests: each has its own answer, none holds up the others, and a refused one is not repeated at once."""
import asyncio
import functools
import unittest
from typing import Any, List, Tuple

from yarrowdoor import Clock, Ended, PermissionFailed, Times, TurnClient

from .case import Case
from .leaps import LoopClock, run
from .network import SECOND, Endpoint
from .server import CREATE_PERMISSION, Message, Server, Where, parse, unxored

SHORT = Times(initial=100_000_000, longest=SECOND, last=300_000_000, count=2)  # 0.1 + 0.3 s


class CountingServer(Server):
    """A server that counts the CREATE_PERMISSIONs it gets, and is silent to some."""

    def __init__(self, silent: str = "none", **settings: Any) -> None:
        super().__init__(**settings)
        self.silent = silent
        self.asked: List[str] = []
        self.transactions: List[bytes] = []

    def receive(self, data: bytes, source: Where, now: float) -> List[Tuple[bytes, Where]]:
        if data[0] < 4 and parse(data).kind == CREATE_PERMISSION:
            self.asked.append(unxored(parse(data).attributes[0x0012])[0])
            self.transactions.append(parse(data).transaction)
            if self.asked[-1].startswith(self.silent):
                return []
        return super().receive(data, source, now)


def later_by(stood: int, more: int) -> int:
    return stood + more


class Requests(Case):
    async def test_a_request_without_an_answer_has_no_code_of_another_one(self) -> None:
        endpoint = await self.serve(Server(denied=("10.1.0.2",)))
        async with TurnClient(endpoint.uri, "user", "pass", times=SHORT) as relay:
            with self.assertRaises(PermissionFailed) as refused:
                await relay.permit("10.1.0.2")
            self.assertEqual(refused.exception.code, 403)
            endpoint.server.is_dead = True
            for ip in ("10.1.0.3", "10.1.0.2"):
                with self.assertRaises(PermissionFailed) as silent:
                    await relay.permit(ip)
                self.assertEqual((ip, silent.exception.code, silent.exception.phrase), (ip, None, ""))

    async def test_requests_without_an_answer_hold_up_no_other(self) -> None:
        endpoint = await self.serve(CountingServer(silent="10.66."))
        times = Times(initial=100_000_000, longest=SECOND, last=20 * SECOND, count=2)
        async with TurnClient(endpoint.uri, "user", "pass", times=times) as relay:
            silent = [asyncio.ensure_future(relay.permit(f"10.66.0.{number}")) for number in range(20)]
            await asyncio.sleep(0.01)
            await asyncio.wait_for(relay.permit("10.1.0.1"), 15)  # and not after 20 s
            self.assertEqual(len(set(endpoint.server.asked)), 21)
            self.assertFalse(any(it.done() for it in silent))
        with self.assertRaises(Ended):
            await silent[0]
        await asyncio.gather(*silent, return_exceptions=True)

    async def test_few_requests_wait_to_be_sent(self) -> None:
        """The time of each begins when the client makes it, so that it does not make all at once."""
        endpoint = await self.serve(CountingServer())
        async with TurnClient(endpoint.uri, "user", "pass") as relay:
            client: Any = relay._session().client
            create, transmit = client.create_permission, client.poll_transmit
            made, sent, most = 0, 0, 0

            def count_made(ip: str, now: int) -> None:
                nonlocal made, most
                made, most = made + 1, max(most, made + 1 - sent)
                create(ip, now)

            def count_sent(now: int) -> Any:
                nonlocal sent
                packet = transmit(now)
                sent += packet is not None
                return packet

            client.create_permission, client.poll_transmit = count_made, count_sent
            await asyncio.gather(*(relay.permit(f"10.1.0.{number}") for number in range(40)))
        self.assertEqual(made, 40)
        self.assertLessEqual(most, 8)

    async def test_sending_to_a_peer_that_was_refused(self) -> None:
        server = CountingServer(denied=("10.1.0.2",))
        endpoint = await self.serve(server)
        clock: Any = Clock()
        now = clock.now
        async with TurnClient(endpoint.uri, "user", "pass", clock=clock) as relay:
            stood = None
            for _ in range(50):
                with self.assertRaises(PermissionFailed) as failed:
                    await asyncio.wait_for(relay.send(b"hello", ("10.1.0.2", 9000)), 20)
                self.assertEqual(failed.exception.code, 403)
                stood = now() if stood is None else stood
                clock.now = functools.partial(later_by, stood, 0)  # the clock stands, as slow as this machine may be
            self.assertEqual(len(set(server.transactions)), 1)
            for later, asked in ((4, 1), (6, 2), (13, 2), (17, 3)):  # it rests for five seconds, and then for ten
                clock.now = functools.partial(later_by, stood, later * SECOND)
                with self.assertRaises(PermissionFailed):
                    await asyncio.wait_for(relay.send(b"hello", ("10.1.0.2", 9000)), 20)
                self.assertEqual((later, len(set(server.transactions))), (later, asked))
            clock.now = functools.partial(later_by, stood, 18 * SECOND)
            server.denied = ()
            await relay.permit("10.1.0.2")  # asks at once
            await relay.send(b"hello", ("10.1.0.2", 9000))
            self.assertEqual(await asyncio.wait_for(relay.receive(), 5), (b"hello", ("10.1.0.2", 9000)))


class RestartedServer(Server):
    """A server that refuses the refreshes of an allocation that it does not know: by 437, by 400, as coturn does, or by 441, as
    coturn does with another realm than before."""

    def __init__(self, code: int, **settings: Any) -> None:
        super().__init__(**settings)
        self.code = bytes(divmod(code, 100))

    def answer(self, message: Message, source: Where, allocation: Any, now: float) -> bytes:
        answer = super().answer(message, source, allocation, now)
        return answer.replace(b"\0\0\4\x25no", b"\0\0" + self.code + b"no") if allocation is None else answer


class Ends(unittest.TestCase):
    """The text of an end says what has happened."""

    async def end(self, server: Server, clear: bool) -> str:
        endpoint = await Endpoint.start(server)
        async with TurnClient(endpoint.uri, "user", "pass", clock=LoopClock()) as relay:
            if clear:
                server.allocations.clear()
            with self.assertRaises(Ended) as ended:
                await asyncio.wait_for(relay.wait_closed(), 1_200)
        endpoint.close()
        await asyncio.sleep(0)
        return str(ended.exception)

    def test_a_server_that_was_restarted(self) -> None:
        for code in (437, 400, 441):
            server = RestartedServer(code, lifetime=70)
            said = run(self.end(server, clear=True))
            self.assertRegex(said, rf"\({code} no\): it no longer knows it, as after a restart$")

    def test_a_server_whose_lifetimes_are_short(self) -> None:
        said = run(self.end(Server(lifetime=70), clear=False))
        self.assertRegex(said, "^the server renews the relayed address for 70 s only")


if __name__ == "__main__":
    unittest.main()
