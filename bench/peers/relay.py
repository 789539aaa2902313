"""One stream through coturn: packets a second, and processor time."""
import contextlib
import os
import pathlib
import shutil
import subprocess
import sys
from typing import Dict, Iterator, List, NamedTuple, Tuple

from programs import HERE, OUT

sys.path.insert(0, str(HERE.parents[1] / "python"))
from tests.coturn import coturn  # noqa: E402 (in the folder that the line before names)

UCLIENT = "turnutils_uclient"
# How many echoes each awaits: fewer where a timer paces them.
COUNT, PACED = 100_000, 30_000


class Stream(NamedTuple):
    """A stream that was sent: echoes a second, as the peer sees them, and the client's processor seconds for a million."""

    rate: float
    cpu: float


def ways(server: int, peer: int) -> Dict[str, List[str]]:
    """The commands that send a stream, by what sends it."""
    given = [str(server), str(peer), str(COUNT)]
    uclient = ["-u", "user", "-w", "pass", "-p", str(server), "-e", "127.0.0.1", "-r", str(peer), "-c", "-m", "1", "-l", "1200"]
    found = {
        "frames by hand": [str(OUT / "stream"), "hand", *given],
        "yarrowdoor": [str(OUT / "stream"), "library", *given],
        "libre": [str(OUT / "stream_libre"), *given],
        "pion": [str(OUT / "pion"), "stream", *given],
        UCLIENT: [shutil.which(UCLIENT) or UCLIENT, *uclient, "-z", "0", "-n", str(PACED), "127.0.0.1"],
    }
    return {name: words for name, words in found.items() if os.path.exists(words[0])}


@contextlib.contextmanager
def echoing(said: List[str]) -> Iterator[int]:
    """A peer at a port of this host. What it prints at its end is added to the list."""
    with subprocess.Popen([str(OUT / "echo")], stdout=subprocess.PIPE, text=True) as peer:
        assert peer.stdout is not None
        try:
            yield int(peer.stdout.readline())
        finally:
            peer.terminate()
            said.extend(peer.stdout.read().split())


def cpu_of(words: List[str]) -> float:
    """Runs a command, and returns the seconds that it had of a processor, in user code and in the kernel."""
    child = subprocess.Popen(words, stdout=subprocess.DEVNULL)
    _, status, used = os.wait4(child.pid, 0)
    child.returncode = os.waitstatus_to_exitcode(status)
    if child.returncode:
        raise SystemExit(f"bench-peers: {pathlib.Path(words[0]).name} ended with {child.returncode}")
    return used.ru_utime + used.ru_stime


def send(name: str, server: int) -> Stream:
    said: List[str] = []
    with echoing(said) as peer:
        cpu = cpu_of(ways(server, peer)[name])
    count, seconds = int(said[0]), float(said[1])
    if count < 0.9 * (PACED if name == UCLIENT else COUNT):
        raise SystemExit(f"bench-peers: of {name} the peer got {count} packets")
    return Stream(count / seconds, cpu / count * 1e6)


def measure(rounds: int) -> Dict[str, List[Stream]]:
    """Lets all send a stream in turn."""
    found: Dict[str, List[Stream]] = {}
    with coturn() as server:
        for _ in range(rounds):
            for name in ways(0, 0):
                found.setdefault(name, []).append(send(name, server.port))
    return found


def table(found: Dict[str, List[Stream]]) -> Iterator[Tuple[str, ...]]:
    """The rows of a table: the most echoes a second, and the least processor time."""
    yield "one stream of 1,200-byte packets through coturn and back", "echoes a second", "processor seconds a million echoes"
    for name, streams in found.items():
        yield name, f"{max(it.rate for it in streams):,.0f}", f"{min(it.cpu for it in streams):.2f}"
