"""Copies of the repository in which edits are applied, and the programs that are run there."""
import contextlib
import os
import pathlib
import queue
import signal
import subprocess
import tempfile
from concurrent.futures import Future, ThreadPoolExecutor
from typing import Any, Callable, Dict, Iterator, List, NamedTuple, Optional

from ways.edit import TOP, Edit, put


class Ran(NamedTuple):
    """How a program ended: its status, or None where it took too long, what it wrote to stdout, and the texts of both streams."""

    status: Optional[int]
    out: bytes
    said: str


def run(at: pathlib.Path, words: List[str], given: bytes = b"", env: Optional[Dict[str, str]] = None, seconds: float = 7200) -> Ran:
    """Runs a program in a group of its own: if it takes too long, all that it started is ended with it."""
    whole = {**os.environ, **(env or {})}
    streams: Dict[str, Any] = {"stdin": subprocess.PIPE, "stdout": subprocess.PIPE, "stderr": subprocess.PIPE}
    with subprocess.Popen(words, cwd=at, env=whole, start_new_session=True, **streams) as child:
        status: Optional[int] = None
        try:
            out, error = child.communicate(given, timeout=seconds)
            status = child.returncode
        except subprocess.TimeoutExpired:
            os.killpg(child.pid, signal.SIGKILL)
            out, error = child.communicate()
    return Ran(status, out, (out + b"\n" + error).decode(errors="replace"))


def files_here() -> List[str]:
    """The files of the repository as they stand here, also those that are not committed yet."""
    words = ["git", "ls-files", "-z", "--cached", "--others", "--exclude-standard"]
    listed = subprocess.run(words, cwd=TOP, stdout=subprocess.PIPE, check=True).stdout.decode().split("\0")
    return [it for it in listed if it and (TOP / it).exists()]


class Rooms:
    """So many copies of these files as they stand here, and a worker for each."""

    def __init__(self, folder: str, count: int, files: List[str]) -> None:
        words = ["tar", "-c", "--null", "--files-from=-"]
        packed = subprocess.run(words, cwd=TOP, input="\0".join(files).encode(), stdout=subprocess.PIPE, check=True)
        self.free: "queue.Queue[pathlib.Path]" = queue.Queue()
        self.workers = ThreadPoolExecutor(count)
        for number in range(count):
            room = pathlib.Path(folder, str(number))
            subprocess.run(["git", "init", "-q", str(room)], check=True)
            subprocess.run(["tar", "-x", "-C", str(room)], input=packed.stdout, check=True)
            self.free.put(room)

    def start(self, function: Callable[..., Any], *given: Any) -> "Future[Any]":
        """What the function returns in a copy that is free, once there is one."""
        return self.workers.submit(self._call, function, given)

    def _call(self, function: Callable[..., Any], given: Any) -> Any:
        room = self.free.get()
        try:
            return function(room, *given)
        finally:
            self.free.put(room)


@contextlib.contextmanager
def rooms(count: int, files: Optional[List[str]] = None) -> Iterator[Rooms]:
    """Copies of these files, or of all, up to the end of the block."""
    with tempfile.TemporaryDirectory(prefix="edits-", ignore_cleanup_errors=True) as folder:
        made = Rooms(folder, count, files_here() if files is None else files)
        try:
            yield made
        finally:
            made.workers.shutdown(cancel_futures=True)


@contextlib.contextmanager
def applied(edit: Edit, room: pathlib.Path) -> Iterator[None]:
    """The copy has the edit up to the end of the block."""
    before, after = edit.texts(room)
    try:
        put(room, after)
        yield
    finally:
        put(room, before)
