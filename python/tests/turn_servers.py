"""Servers that are set up to deserve each sentence of the command: coturn, pion, ejabberd's library, and no TURN server."""
import contextlib
import os
import pathlib
import shutil
import socket
import subprocess
import threading
import time
from typing import Iterator, List, Optional, Sequence

from yarrowdoor import Clock

from .coturn import places, wait_for

PION_SOURCE = pathlib.Path(__file__).resolve().parent / "pion" / "main.go"
GO_PATH = "/usr/share/gocode"
HAS_PION = shutil.which("go") is not None and os.path.exists(f"{GO_PATH}/src/github.com/pion/turn/v2") and PION_SOURCE.exists()
HAS_P1 = shutil.which("erl") is not None and bool([*pathlib.Path("/usr/lib/erlang/lib").glob("p1_stun-*")])
WHY_NO_PION = "Go or pion is missing (Debian's golang-go and golang-github-pion-turn.v2-dev)"
WHY_NO_P1 = "ejabberd's library is missing (Debian's erlang-p1-stun)"
# ejabberd's library with one user, over UDP and TCP.
_P1 = """
{{ok, _}} = application:ensure_all_started(stun),
Options = [{{use_turn, true}}, {{auth_type, user}}, {{auth_realm, <<"realm">>}}, {{turn_ipv4_address, {{127, 0, 0, 1}}}},
           {{auth_fun, fun(<<"user">>, _) -> <<"pass">>; (_, _) -> <<>> end}}, {{turn_blacklist, []}}],
[ok = stun_listener:add_listener({{127, 0, 0, 1}}, {port}, It, Options) || It <- [udp, tcp]],
io:format("ready~n").
"""


@contextlib.contextmanager
def coturn(room: str, port: int, *options: str, joins_loopback: bool = True, tls: Sequence[str] = ()) -> Iterator[None]:
    """Starts coturn at this port, with user `user` and password `pass` unless the options say otherwise. `tls` are the files of a
    certificate and its key, and the port of TLS."""
    words = ["turnserver", "-n", "--no-cli", "--no-dtls", "-L", "127.0.0.1", "-p", str(port), "-r", "realm", "--log-file", "stdout",
             "--pidfile", os.path.join(room, "pid"), "--relay-threads", "1", *options]
    if not {"--no-auth", "--use-auth-secret"} & {*options}:
        words += ["--lt-cred-mech", "-u", "user:pass"]
    if joins_loopback:
        words.append("--allow-loopback-peers")
    words += ["--cert", tls[0], "--pkey", tls[1], "--tls-listening-port", tls[2]] if tls else ["--no-tls"]
    server = subprocess.Popen(words, cwd=room, stdout=subprocess.DEVNULL, stderr=subprocess.DEVNULL)
    try:
        wait_for(server, places(words))
        yield
    finally:
        server.terminate()
        server.wait()


def build_pion(room: str) -> str:
    """Builds the server of pion in a folder, and gives its file."""
    program = os.path.join(room, "pion")
    env = {**os.environ, "GO111MODULE": "off", "GOPATH": GO_PATH}
    subprocess.run(["go", "build", "-p", "1", "-o", program, str(PION_SOURCE)], check=True, env=env)
    return program


@contextlib.contextmanager
def pion(room: str, port: int) -> Iterator[None]:
    """Builds and starts a server of pion."""
    with _ready([build_pion(room), str(port)]):
        yield


@contextlib.contextmanager
def p1(port: int) -> Iterator[None]:
    """Starts ejabberd's library."""
    with _ready(["erl", "-noshell", "-noinput", "-eval", _P1.format(port=port)]):
        yield


@contextlib.contextmanager
def _ready(words: List[str]) -> Iterator[None]:
    """A program that prints `ready` when it serves."""
    program = subprocess.Popen(words, stdout=subprocess.PIPE, stderr=subprocess.DEVNULL, text=True)
    try:
        line = program.stdout.readline() if program.stdout is not None else ""
        if line.strip() != "ready":
            raise RuntimeError(f"{words[0]} did not start: {line}")
        yield
    finally:
        program.terminate()
        program.communicate()


@contextlib.contextmanager
def other_service(answer: Optional[bytes], port: int) -> Iterator[None]:
    """Something that is no TURN server: it answers this to a datagram, and on a connection, or nothing, where it is None."""
    with socket.socket(type=socket.SOCK_DGRAM) as datagrams, socket.socket() as streams:
        streams.setsockopt(socket.SOL_SOCKET, socket.SO_REUSEADDR, 1)
        for it in (datagrams, streams):
            it.bind(("127.0.0.1", port))
            it.settimeout(0.1)
        streams.listen()
        ended = threading.Event()

        def serve() -> None:
            held = []
            while not ended.is_set():
                with contextlib.suppress(OSError):
                    data, where = datagrams.recvfrom(4096)
                    if answer is not None and data:
                        datagrams.sendto(answer, where)
                with contextlib.suppress(OSError):
                    held.append(streams.accept()[0])
                    if answer is not None:
                        held[-1].sendall(answer)
            for it in held:
                it.close()

        thread = threading.Thread(target=serve)
        thread.start()
        try:
            yield
        finally:
            ended.set()
            thread.join()


def limit(seconds: float) -> float:
    """A limit of time, which is wider where more programs than processors are running: then they wait for each other."""
    return 10 * seconds if _is_busy() else seconds


def _is_busy() -> bool:
    """Whether programs wait for a processor. The average load is that of a minute, and many tests begin at once: so what is running
    now counts too, and for how much of the last ten seconds, in a hundred, some program has waited, where the kernel tells it."""
    running = int(pathlib.Path("/proc/loadavg").read_text().split()[3].partition("/")[0])
    if max(os.getloadavg()[0], running) > len(os.sched_getaffinity(0)):
        return True
    with contextlib.suppress(OSError, IndexError, ValueError):
        return float(pathlib.Path("/proc/pressure/cpu").read_text().split()[1].partition("=")[2]) > 20
    return False


def fast(rate: float) -> Clock:
    """A clock that is so many times as fast for a client, and a tenth of it where more programs than processors are running: the
    client waits 39.5 s of it for an answer, which are to be long beside what a busy machine takes to run a server again."""
    return Clock(rate=rate / limit(1.0))


def make_certificate(room: str, name: str, days: int = 2) -> List[str]:
    """A certificate for this name or IPv4 address that signs itself, and its key: two files. With no days it is out of date."""
    files = [os.path.join(room, f"{name}-{it}.pem") for it in ("cert", "key")]
    request, extensions = os.path.join(room, "request.pem"), os.path.join(room, "extensions")
    kind = "IP" if name.replace(".", "").isdigit() else "DNS"
    pathlib.Path(extensions).write_text(f"subjectAltName={kind}:{name}\n")
    make = ["openssl", "req", "-new", "-newkey", "rsa:2048", "-nodes", "-subj", f"/CN={name}", "-out", request, "-keyout", files[1]]
    sign = ["openssl", "x509", "-req", "-in", request, "-signkey", files[1], "-out", files[0], "-days", str(days),
            "-extfile", extensions]
    for words in (make, sign):
        subprocess.run(words, check=True, stderr=subprocess.DEVNULL)
    if not days:
        time.sleep(1.1)
    return files
