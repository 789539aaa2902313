"""The samples of README.md that are parts of a program, each as it stands there, through coturn."""
import asyncio
import io
import os
import pathlib
import re
import socket
import subprocess
import sys
import textwrap
import threading
import unittest
from contextlib import redirect_stdout
from typing import Any, Dict, List, Tuple

from . import coturn as server
from .test_sync import Peer

README = pathlib.Path(__file__).resolve().parent.parent / "README.md"
PROJECT = README.parent.parent / "README.md"
# Each sample by the first words of it, with what it prints.
SAMPLES = {
    "async with Relay(": r"peers reach me at 127\.0\.0\.1:\d+\n",
    "transport, protocol = await create_datagram_endpoint(": r"sent from 127\.0\.0\.1:\d+\n",
    "reader, writer = await open_connection(": r"b'hello'\n",
    "server = await start_server(": r"peers connect to 127\.0\.0\.1:\d+\n",
    "async def credentials(": r"127\.0\.0\.1:\d+\n",
    "with sync.TurnClient(": r"127\.0\.0\.1:\d+ sent b'hello'\n",
}
PRELUDE = """
import asyncio
from yarrowdoor import *
from yarrowdoor import sync

class MyProtocol(asyncio.DatagramProtocol):
    pass

async def connected(reader, writer):
    writer.close()
"""


def samples() -> List[str]:
    return re.findall(r"^```python\n(.*?)^```$", README.read_text(), re.MULTILINE | re.DOTALL)


@unittest.skipUnless(README.exists(), "the sources are not here")
@unittest.skipUnless(server.IS_HERE, server.WHY)
class Samples(unittest.TestCase):
    def test_each(self) -> None:
        peer, stream = Peer(), socket.create_server(("127.0.0.1", 0))
        port = stream.getsockname()[1]
        threading.Thread(target=self.answer, args=(stream,), daemon=True).start()
        self.addCleanup(peer.close)
        options = {"async def credentials(": ("--use-auth-secret", "--static-auth-secret", "secret")}
        for begins, prints in SAMPLES.items():
            with self.subTest(begins=begins), server.coturn(*options.get(begins, ())) as at:
                (found,) = [it for it in samples() if it.startswith(begins)]
                self.assertLessEqual(len([it for it in found.splitlines() if it]), 5)
                self.assertRegex(self.run_sample(found, at, peer.where, port), f"^{prints}$")

    @unittest.skipUnless(PROJECT.exists(), "the sources are not here")
    def test_the_ten_lines_of_the_project(self) -> None:
        (program,) = re.findall(r"^```python\n(.*?)^```$", PROJECT.read_text(encoding="utf-8"), re.M | re.S)
        peer = Peer()
        self.addCleanup(peer.close)
        with server.coturn() as at:
            text = program.replace("127.0.0.1:3478", f"127.0.0.1:{at.port}").replace("3480", str(peer.where[1]))
            env = {**os.environ, "PYTHONPATH": str(README.parent)}
            ran = subprocess.run([sys.executable, "-c", text], env=env, stdout=subprocess.PIPE, text=True, timeout=60)
        self.assertEqual(ran.returncode, 0)
        address, received = ran.stdout.splitlines()
        self.assertRegex(address, r"^peers reach me at 127\.0\.0\.1:\d+$")
        self.assertRegex(received, rf"^\(b'hello', .*127\.0\.0\.1.*{peer.where[1]}.*\)$")

    def answer(self, stream: socket.socket) -> None:
        with stream, stream.accept()[0] as own:
            own.sendall(own.recv(100))

    def run_sample(self, text: str, at: server.Coturn, peer: Tuple[str, int], port: int) -> str:
        """What a sample prints, with the server and the peers of this test in place of its own."""
        text = text.replace("turn:turn.example.org", f"turn:127.0.0.1:{at.port}").replace('"password"', '"pass"')
        text = text.replace('("192.0.2.7", 9000)', repr(tuple(peer))).replace('"192.0.2.7", 9001', f'"127.0.0.1", {port}')
        text = text.replace('"192.0.2.7"', '"127.0.0.1"')
        names: Dict[str, Any] = {}
        exec(f"{PRELUDE}\nasync def main():\n{textwrap.indent(text, '    ')}", names)
        said = io.StringIO()

        async def run() -> None:
            task = asyncio.ensure_future(names["main"]())
            for _ in range(1200):
                await asyncio.wait([task], timeout=0.05)
                if task.done():
                    task.result()  # raises what it has raised
                    return
                if "relay.states()" in text and said.getvalue():
                    break  # It looks for further changes until it is ended.
            task.cancel()
            await asyncio.wait([task])

        with redirect_stdout(said):
            asyncio.run(run())
        return said.getvalue()


if __name__ == "__main__":
    unittest.main()
