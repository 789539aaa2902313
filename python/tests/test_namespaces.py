"""A path between two network namespaces that goes: with its interface, with a route, or without a word."""
import json
import unittest

from . import coturn as coturn_server
from .namespaces import ONE, WHY, has_namespaces, printed, start

# Opens a relay over the path that is named, has it permit a peer, and then runs a command that takes the path away.
PROGRAM = """
    import asyncio, json, ssl, subprocess, sys, time
    from tests.coturn import coturn
    from yarrowdoor import Ended, TurnClient

    async def main(at, form, fault, options):
        context = ssl.create_default_context(cafile=at.certificate)
        context.check_hostname = False
        uri = at.uri(form)
        relay = TurnClient(uri, "user", "pass", ssl=context if uri.startswith("turns:") else None, **options)
        await relay.open()
        await relay.permit("10.98.0.9")
        start = time.monotonic()
        subprocess.run(fault, shell=True, check=True)
        try:
            await asyncio.wait_for(relay.receive(), 100)
        except Ended as ended:
            said = {"after": time.monotonic() - start, "why": str(ended), "cause": type(ended.__cause__).__name__}
            print(json.dumps(said), flush=True)
        await relay.close()

    form, fault, options = sys.argv[1:]
    with coturn(host="10.97.0.2", namespace="far") as at:
        asyncio.run(main(at, form, fault, json.loads(options)))
"""
UDP, TCP, TLS = "turn:10.97.0.2:{port}", "turn:10.97.0.2:{port}?transport=tcp", "turns:10.97.0.2:{tls_port}"
INTERFACE, ROUTE = "ip link del near0", "ip route del 10.97.0.0/24"
SILENCE = "ip netns exec far tc qdisc add dev far0 root blackhole"


# A resolver that knows two IPv4 addresses of one name, and no other one. The first address is silent, and the other one serves.
RESOLVER = """
    import asyncio, json, socket, struct
    from tests.network import Endpoint
    from tests.server import Server
    from yarrowdoor import AllocationFailed, TurnClient

    class Resolver(asyncio.DatagramProtocol):
        def connection_made(self, transport):
            self.transport = transport

        def datagram_received(self, query, source):
            end = query.index(0, 12) + 5
            is_known, is_ipv4 = query[12:end - 4] == b"\\4turn\\7example\\0", query[end - 4:end - 2] == b"\\0\\1"
            hosts = ("127.0.0.1", "127.0.0.2") if is_known and is_ipv4 else ()
            found = [bytes.fromhex("c00c000100010000003c0004") + socket.inet_aton(it) for it in hosts]
            head = query[:2] + struct.pack("!HHHHH", 0x8180 if is_known else 0x8183, 1, len(found), 0, 0)
            self.transport.sendto(head + query[12:end] + b"".join(found), source)

    class Hole(asyncio.DatagramProtocol):
        count = 0

        def datagram_received(self, data, source):
            self.count += 1

    async def main():
        loop = asyncio.get_running_loop()
        await loop.create_datagram_endpoint(Resolver, local_addr=("127.0.0.1", 53))
        _, hole = await loop.create_datagram_endpoint(Hole, local_addr=("127.0.0.1", 3478))
        transport, endpoint = await loop.create_datagram_endpoint(lambda: Endpoint(Server()), local_addr=("127.0.0.2", 3478))
        endpoint.transport = transport
        async with TurnClient("turn:turn.example", "user", "pass") as relay:
            local = relay.local_address.host
        try:
            await TurnClient("turn:other.example", "user", "pass").open()
        except AllocationFailed as failed:
            told = {"asked": hole.count, "served": len(endpoint.server.answered), "local": local}
            print(json.dumps({**told, "cause": type(failed.__cause__).__name__}))

    asyncio.run(main())
"""
# The times are those that the README promises, in seconds.
SOON, AT_LAST = 20, 60


@unittest.skipUnless(has_namespaces(), WHY)
class Paths(unittest.TestCase):
    @unittest.skipUnless(coturn_server.IS_HERE, coturn_server.WHY)
    def test_paths_that_go(self) -> None:
        """All side by side, since they only wait."""
        refused, silent = "(Network is unreachable|Cannot assign requested address)", "(Connection timed out|No route to host)"
        ways = [
            ("UDP, without its interface", UDP, INTERFACE, "{}", SOON, refused, "OSError"),
            ("UDP, without its route", UDP, ROUTE, "{}", SOON, refused, "OSError"),
            ("TCP, without its interface", TCP, INTERFACE, "{}", SOON, refused, "OSError"),
            ("TLS, without its route", TLS, ROUTE, "{}", SOON, refused, "OSError"),
            ("UDP, in silence", UDP, SILENCE, '{"probe": 15}', AT_LAST, "no answer from .* to 3 checks in a row", "NoneType"),
            ("TCP, in silence", TCP, SILENCE, "{}", AT_LAST, silent, "(TimeoutError|OSError)"),
            ("TLS, in silence", TLS, SILENCE, "{}", AT_LAST, silent, "(TimeoutError|OSError)"),
        ]
        running = [start(PROGRAM, *it[1:4]) for it in ways]
        for (name, _, _, _, most, why, cause), process in zip(ways, running):
            with self.subTest(name=name):
                told = json.loads(printed(process, 110))
                self.assertRegex(told["why"], f"^the connection to the server has ended: .*{why}$")
                self.assertRegex(told["cause"], f"^{cause}$")
                self.assertLess(told["after"], most)

    def test_a_resolver_that_knows_two_addresses(self) -> None:
        """The first one is silent, and the second one is used. A name that the resolver does not know is told with its error."""
        told = json.loads(printed(start(RESOLVER, setup=ONE), 60))
        self.assertEqual((told["local"], told["cause"]), ("127.0.0.1", "gaierror"))
        self.assertGreater(told["asked"], 0)
        self.assertGreater(told["served"], 0)


if __name__ == "__main__":
    unittest.main()
