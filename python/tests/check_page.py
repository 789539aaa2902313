"""The runs of docs/CHECK.md and CHECK-RUNS.md: what each is, its server, and what it printed, without what differs from run to run.

    python3 -m tests.check_page [--all]     makes each run, and writes into the pages those that print something else, or all
"""
import contextlib
import io
import os
import pathlib
import re
import shutil
import sys
import tempfile
import time
from dataclasses import dataclass, field
from typing import Callable, ContextManager, Dict, Iterator, List, Tuple
from unittest import mock

from yarrowdoor.command.main import main

from . import turn_servers as servers
from .coturn import IS_HERE, free_port

PAGE = pathlib.Path(__file__).resolve().parent.parent.parent / "docs" / "CHECK.md"
PAGES = (PAGE, PAGE.with_name("CHECK-RUNS.md"))
BLOCK = re.compile(r"<!-- run: ([^\n]+) -->\n\n```text\n(.*?)```\n", re.S)
# The name of a folder, and ports: of the server, and of its TLS.
Start = Callable[[str, int, int], ContextManager[None]]


@dataclass(frozen=True)
class Run:
    """A run of the command against a server of its own."""

    words: str
    """the command line, in which {port}, {tls} and {room} stand for what is drawn"""
    start: Start
    status: int
    env: Dict[str, str] = field(default_factory=lambda: {"YARROWDOOR_PASSWORD": "pass"})


def with_coturn(*options: str, joins_loopback: bool = True) -> Start:
    """A server with these options."""
    return lambda room, port, tls: servers.coturn(room, port, *options, joins_loopback=joins_loopback)


def with_certificate(name: str, days: int = 2) -> Start:
    """A server with TLS, and a certificate for this name in the file `ca.pem`."""
    @contextlib.contextmanager
    def start(room: str, port: int, tls: int) -> Iterator[None]:
        files = servers.make_certificate(room, name, days)
        shutil.copy(files[0], os.path.join(room, "ca.pem"))
        with servers.coturn(room, port, tls=[*files, str(tls)]):
            yield
    return start


def with_other(room: str, port: int, tls: int) -> ContextManager[None]:
    """Something that is no TURN server."""
    return servers.other_service(b"HTTP/1.1 400 Bad Request\r\n\r\n", port)


@contextlib.contextmanager
def with_nothing(room: str, port: int, tls: int) -> Iterator[None]:
    """No server."""
    yield


CHECK = "check turn:127.0.0.1:{port} --user user"
SECRET = {"YARROWDOOR_SECRET": "secret"}
RUNS: Dict[str, Run] = {
    "a wrong password": Run(CHECK, with_coturn(), 1, {"YARROWDOOR_PASSWORD": "wrong"}),
    "all is well": Run(CHECK, with_coturn(), 0),
    "a private address": Run(CHECK, with_coturn("--external-ip", "10.1.2.3"), 1),
    "no peers on loopback": Run(CHECK, with_coturn(joins_loopback=False), 1),
    "a certificate for another name": Run("check turns:localhost:{tls} --user user --ca {room}/ca.pem",
                                          with_certificate("turn.example.org"), 1),
    "a certificate out of date": Run("check turns:localhost:{tls} --user user --ca {room}/ca.pem",
                                     with_certificate("localhost", 0), 1),
    "an expired user": Run("check turn:127.0.0.1:{port} --user 1700000000:alice",
                           with_coturn("--use-auth-secret", "--static-auth-secret=secret"), 1, SECRET),
    "another secret": Run("check turn:127.0.0.1:{port} --user alice",
                          with_coturn("--use-auth-secret", "--static-auth-secret=other"), 1, SECRET),
    "nothing listens": Run(CHECK, with_nothing, 1),
    "UDP is blocked": Run(CHECK, with_coturn("--no-udp"), 1),
    "no TURN server": Run(CHECK, with_other, 1),
    "a server of STUN alone": Run(CHECK, with_coturn("--stun-only"), 1),
    "no credentials asked": Run(CHECK, with_coturn("--no-auth"), 1),
    "a quota": Run(CHECK, with_coturn("--user-quota", "1"), 1),
    "quota and nonce, if asked": Run(f"{CHECK} --quota 10 --nonce 8", with_coturn("--user-quota", "6", "--stale-nonce=3"), 0),
    "all transports": Run("check turn:localhost:{port} --user user --all --ca {room}/ca.pem", with_certificate("localhost"), 0),
    "echo": Run("echo turn:127.0.0.1:{port} --user user --channel", with_coturn(), 0),
    "bench": Run("bench turn:127.0.0.1:{port} --user user --seconds 1", with_coturn(), 0),
    "load": Run("load turn:127.0.0.1:{port} --user user --allocations 20 --rate 50 --hold 2", with_coturn(), 0),
    "load up to a limit": Run("load turn:127.0.0.1:{port} --user user --allocations 100 --rate 50 --hold 1",
                              with_coturn("--user-quota", "12"), 0),
}
CERTIFIED = ("a certificate for another name", "a certificate out of date")


def make(name: str, patience: float = 1.0) -> Tuple[int, str, float]:
    """Makes a run: its status, what it printed with the usual ports in place of the drawn ones, and how many seconds it took. It
    waits `patience` times as long for an answer as a user does."""
    run, port = RUNS[name], free_port()
    tls = free_port() if "{tls}" in run.words else 0
    with tempfile.TemporaryDirectory() as room, run.start(room, port, tls):
        words = run.words.format(port=port, tls=tls, room=room).split()
        env = {it: value for it, value in os.environ.items() if not it.startswith("YARROWDOOR_") or it == "YARROWDOOR_LIB"}
        printed = io.StringIO()
        with mock.patch.dict(os.environ, {**env, **run.env}, clear=True), contextlib.redirect_stdout(printed):
            begun = time.monotonic()
            status = main([*words, "--timeout", str(1.5 * patience)])
        spent = time.monotonic() - begun
        shown = run.words.format(port=3478, tls=5349, room=".")
    said = re.sub(rf"\b{port}\b", "3478", printed.getvalue())
    said = re.sub(rf"\b{tls}\b", "5349", said) if tls else said
    return status, f"$ yarrowdoor {shown}\n{said}", spent


def plain(text: str) -> str:
    """What a run printed, without numbers that differ from run to run, and without what its length does to the ends of lines."""
    text = re.sub(r"\s+", " ", text)
    text = re.sub(r"in [\d.]+, [\d.]+, [\d.]+ and", "in N, N, N and", text)
    units = "s|ms|a second|packets a second|bytes pass|do not|days|hours|minutes|seconds|% of|of [0-9]+ came back"
    text = re.sub(rf"\d[\d,.]*( (?:{units})\b)", r"N\1", text)
    text = re.sub(r"in [\d.]+, [\d.]+ and", "in N, N and", text)
    text = re.sub(r"% of [\d,]+ lost|\d+ % of a", "% of N", text)
    text = re.sub(r"\b\d{10}:alice", "USER:alice", text)
    text = re.sub(r"\d{4}-\d\d-\d\d( \d\d:\d\d)?", "DATE", text)
    return re.sub(r"(\d+\.\d+\.\d+\.\d+):(?!(?:3478|5349)\b)\d+", r"\1:PORT", text)


def blocks() -> List[Tuple[str, str]]:
    """The runs of the pages, by name."""
    return [it for page in PAGES for it in BLOCK.findall(page.read_text())]


def write(is_all: bool) -> None:
    """Makes each run, and puts what differs, or all, into its page."""
    for page in PAGES:
        text = page.read_text()
        for name, before in BLOCK.findall(text):
            _, printed, _ = make(name)
            if is_all or plain(printed) != plain(before):
                head = f"<!-- run: {name} -->\n\n```text\n"
                text = text.replace(f"{head}{before}```", f"{head}{printed}```")
                print(f"written: {name}")
        page.write_text(text)


if __name__ == "__main__":
    if not IS_HERE:
        raise SystemExit("coturn is not installed")
    write(sys.argv[1:] == ["--all"])
