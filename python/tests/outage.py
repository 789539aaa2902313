"""A relay whose network, address or server goes, in network namespaces of its own. It prints what was seen, as JSON.

    unshare -n python3 -m tests.outage udp|tcp silence|unplugged|moved|restarted

The client is in one namespace, and coturn with a peer that sends back what it gets in another. Data is sent ten times a second.
"""
import asyncio
import contextlib
import json
import os
import signal
import subprocess
import sys
import tempfile
import time
from typing import Any, Dict, List

from yarrowdoor import Down, Relay, Up

from .coturn import wait_for

HOST, OWN, OTHER = "10.99.0.1", "10.99.0.2", "10.99.0.3"
PEER = (HOST, 3480)
# How long the network is away, and the server, in seconds.
OUTAGE, RESTART = 20.0, 2.0
# How long data may take after the return, in seconds, before it is given up.
LIMIT = 30.0


def sh(line: str) -> None:
    subprocess.run(line, shell=True, check=True, stderr=subprocess.DEVNULL)


class Host:
    """The namespace of the server: it is that of a process that sleeps."""

    def __init__(self, room: str) -> None:
        self.room = room
        self.sleeper = subprocess.Popen(["unshare", "-n", "sleep", "600"])
        while os.readlink(f"/proc/{self.sleeper.pid}/ns/net") == os.readlink("/proc/self/ns/net"):
            time.sleep(0.01)
        self.inside = ["nsenter", "-t", str(self.sleeper.pid), "-n"]
        sh(f"ip link set lo up; ip link add v0 type veth peer name v1 netns {self.sleeper.pid}")
        sh(f"ip addr add {OWN}/24 dev v0; ip link set v0 up")
        self.sh(f"ip link set lo up; ip addr add {HOST}/24 dev v1; ip link set v1 up")
        self.peer = self.start("turnutils_peer", "-L", HOST, "-p", str(PEER[1]))
        self.server = self.serve()

    def sh(self, line: str) -> None:
        subprocess.run([*self.inside, "sh", "-c", line], check=True, stderr=subprocess.DEVNULL)

    def start(self, *words: str) -> "subprocess.Popen[Any]":
        return subprocess.Popen([*self.inside, *words], cwd=self.room, stdout=subprocess.DEVNULL, stderr=subprocess.DEVNULL)

    def serve(self) -> "subprocess.Popen[Any]":
        """Starts coturn. Its nonces are of a secret that it draws."""
        return self.start("turnserver", "-n", "--no-cli", "--no-tls", "--no-dtls", "--lt-cred-mech", "-u", "user:pass", "-r",
                          "realm", "-L", HOST, "--relay-threads", "1", "--log-file", os.path.join(self.room, "log"),
                          "--pidfile", os.path.join(self.room, "pid"))

    async def serves(self) -> None:
        """Waits until the server listens."""
        await asyncio.to_thread(wait_for, self.server, {(it, HOST, 3478) for it in ("tcp", "udp")})

    def end(self) -> None:
        for it in (self.server, self.peer, self.sleeper):
            it.kill()
            it.wait()


async def fail(host: Host, fault: str) -> None:
    """Lets the fault happen, and returns when what it took is there again."""
    if fault == "silence":
        for run in (sh, host.sh):
            run(f"tc qdisc add dev {'v0' if run is sh else 'v1'} root blackhole")
        await asyncio.sleep(OUTAGE)
        for run in (sh, host.sh):
            run(f"tc qdisc del dev {'v0' if run is sh else 'v1'} root")
    elif fault == "unplugged":
        sh("ip link set v0 down")
        await asyncio.sleep(OUTAGE)
        sh("ip link set v0 up")
    elif fault == "moved":
        sh(f"ip addr del {OWN}/24 dev v0; ip addr add {OTHER}/24 dev v0")
    else:
        os.kill(host.server.pid, signal.SIGKILL)
        host.server.wait()
        await asyncio.sleep(RESTART)
        host.server = host.serve()
        await host.serves()


async def try_one(host: Host, transport: str, fault: str) -> Dict[str, Any]:
    states: List[str] = []

    def note(state: Any) -> None:
        states.append(f"up {state.is_new}" if isinstance(state, Up) else f"down {state.reason}")

    settings: Dict[str, Any] = {"probe": 2} if transport == "udp" else {}
    relay = Relay(f"turn:{HOST}?transport={transport}", "user", "pass", on_state=note, **settings)
    came = asyncio.Queue()  # type: asyncio.Queue[int]
    async with relay:
        await relay.bind(PEER)

        async def send() -> None:
            number = 0
            while True:
                number = time.monotonic_ns()
                relay.sendto(b"%d" % number, PEER)
                await asyncio.sleep(0.1)

        async def take() -> None:
            async for data, _ in relay:
                came.put_nowait(int(data))

        tasks = [asyncio.ensure_future(it()) for it in (send, take)]
        await asyncio.wait_for(came.get(), 10)
        before = relay.address
        await fail(host, fault)
        back = time.monotonic_ns()
        seconds = None
        with contextlib.suppress(asyncio.TimeoutError):
            while await asyncio.wait_for(came.get(), LIMIT) < back:
                pass
            seconds = (time.monotonic_ns() - back) / 1e9
        await asyncio.sleep(0.5)
        for task in tasks:
            task.cancel()
        return {"seconds": seconds, "is_new": relay.address != before, "states": states, "down": isinstance(relay.state, Down),
                "unsent": relay.unsent, "lost": len(relay.lost)}


async def main() -> None:
    with tempfile.TemporaryDirectory() as room:
        host = Host(room)
        try:
            await host.serves()
            print(json.dumps(await try_one(host, sys.argv[1], sys.argv[2])))
        finally:
            host.end()


if __name__ == "__main__":
    asyncio.run(main())
