"""What a checker of types says of a program: a misspelt argument is an error at each of the calls that open a relayed address."""
import os
import pathlib
import shutil
import subprocess
import tempfile
import unittest

TOP = pathlib.Path(__file__).resolve().parent.parent
PROGRAM = """\
import asyncio
from yarrowdoor import Relay, TurnClient, create_datagram_endpoint, open_connection, start_server, sync

BOTH = ("user", "pass")


async def main() -> None:
    TurnClient("turn:x", "user", "pass", {0}=2)
    Relay("turn:x", "user", "pass", {0}=2)
    sync.TurnClient("turn:x", "user", "pass", {0}=2)
    await create_datagram_endpoint("turn:x", asyncio.DatagramProtocol, credentials=BOTH, {0}=2)
    await open_connection("turn:x", "192.0.2.7", 9, credentials=BOTH, {0}=2)
    await start_server("turn:x", lambda reader, writer: None, credentials=BOTH, {0}=2)
"""


@unittest.skipUnless(shutil.which("mypy"), "mypy is not installed")
class Programs(unittest.TestCase):
    def test_an_argument_that_is_misspelt(self) -> None:
        with tempfile.TemporaryDirectory() as room:
            self.assertEqual(self.lines_of_errors(room, "probe"), set())
            self.assertEqual(self.lines_of_errors(room, "prob"), {*range(8, 14)})

    def lines_of_errors(self, room: str, word: str) -> "set[int]":
        program = pathlib.Path(room, "program.py")
        program.write_text(PROGRAM.format(word))
        words = ["mypy", "--strict", "--cache-dir", f"{room}/cache", str(program)]
        said = subprocess.run(words, env={**os.environ, "MYPYPATH": str(TOP)}, stdout=subprocess.PIPE, text=True).stdout
        return {int(it.split(":")[1]) for it in said.splitlines() if it.startswith(str(program)) and ": error: " in it}


if __name__ == "__main__":
    unittest.main()
