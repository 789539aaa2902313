"""A real server, coturn, on ports of this host, for as long as a test needs it."""
import contextlib
import os
import shutil
import socket
import struct
import subprocess
import tempfile
import time
from typing import Any, Iterator, NamedTuple, Sequence, Set, Tuple

IS_HERE = shutil.which("turnserver") is not None
WHY = "coturn is not installed (turnserver of Debian's package coturn)"
# How long a server may take to start where many programs share a processor, in seconds.
_START = 60.0
# A protocol, an address and a port.
Place = Tuple[str, str, int]


class Coturn(NamedTuple):
    port: int
    tls_port: int
    certificate: str
    pid: int

    def uri(self, form: str = "turn:127.0.0.1:{port}") -> str:
        return form.format(port=self.port, tls_port=self.tls_port)


def has_ipv6() -> bool:
    """Whether this host has a loopback address of IPv6."""
    with contextlib.suppress(OSError), socket.socket(socket.AF_INET6, socket.SOCK_DGRAM) as it:
        it.bind(("::1", 0))
        return True
    return False


def free_port() -> int:
    """A port that nothing uses just now, over UDP and TCP."""
    while True:
        with socket.socket() as tcp, socket.socket(type=socket.SOCK_DGRAM) as udp:
            tcp.bind(("127.0.0.1", 0))
            with contextlib.suppress(OSError):
                udp.bind(tcp.getsockname())
                return int(tcp.getsockname()[1])


def make_certificate(room: str) -> "list[str]":
    """A certificate for localhost that signs itself, or nothing where there is no openssl."""
    if not shutil.which("openssl"):
        return []
    files = [os.path.join(room, it) for it in ("cert.pem", "key.pem")]
    names = "subjectAltName=DNS:localhost,IP:127.0.0.1"
    subprocess.run(["openssl", "req", "-x509", "-newkey", "rsa:2048", "-nodes", "-days", "2", "-subj", "/CN=localhost", "-addext",
                    names, "-out", files[0], "-keyout", files[1]], check=True, stderr=subprocess.DEVNULL)
    return files


@contextlib.contextmanager
def coturn(*options: str, host: str = "127.0.0.1", namespace: str = "") -> Iterator[Coturn]:
    """Starts a server at this address with user `user` and password `pass`, in a network namespace that is named, and ends it."""
    with tempfile.TemporaryDirectory() as room:
        files = make_certificate(room)
        port, tls_port = free_port(), free_port()
        inside = ["ip", "netns", "exec", namespace] if namespace else []
        words = [*inside, "turnserver", "-n", "--no-cli", "--no-dtls", "--lt-cred-mech", "-u", "user:pass", "-r", "realm",
                 "--allow-loopback-peers", "-L", host, "-p", str(port), "--log-file", os.path.join(room, "log"),
                 "--pidfile", os.path.join(room, "pid"), "--relay-threads", "1", *options]
        words += ["--tls-listening-port", str(tls_port), "--cert", files[0], "--pkey", files[1]] if files else ["--no-tls"]
        server = subprocess.Popen(words, cwd=room, stdout=subprocess.DEVNULL, stderr=subprocess.DEVNULL)
        try:
            wait_for(server, places(words))
            yield Coturn(port, tls_port, files[0] if files else "", server.pid)
        finally:
            server.terminate()
            server.wait()


def wait_for(program: "subprocess.Popen[Any]", wanted: Set[Place]) -> None:
    """Waits until a program has started, and it or another one listens at all these places."""
    deadline = time.monotonic() + _START
    while program.poll() is None and time.monotonic() < deadline:
        if wanted <= _listening(program.pid):
            return
        time.sleep(0.02)
    raise RuntimeError(f"{program.args!r} did not start: nothing listens at {wanted - _listening(program.pid)}")


def places(words: Sequence[str]) -> Set[Place]:
    """Where coturn listens that these words start. It accepts connections a little sooner than it takes datagrams, so a test that
    waits for the first only has its first datagram refused where coturn waits for a processor in between."""
    named = [*zip(words, words[1:])]
    ports = dict(named)
    hosts = [host for word, host in named if word == "-L"]
    port, tls_port = ports.get("-p", "3478"), ports.get("--tls-listening-port", "5349")
    found = {(it, host, int(port)) for it in ("tcp", "udp") if f"--no-{it}" not in words for host in hosts}
    return found | {("tcp", host, int(tls_port)) for host in hosts if "--cert" in words and tls_port != "0"}  # 0 is none


def _listening(pid: int) -> Set[Place]:
    """Where something listens in the network namespace of a process, as the kernel tells."""
    found: Set[Place] = set()
    for protocol, state in (("tcp", "0A"), ("udp", "07")):  # a listening socket, and one without a peer
        for name in (protocol, f"{protocol}6"):
            with contextlib.suppress(OSError), open(f"/proc/{pid}/net/{name}", encoding="ascii") as table:
                rows = [it.split() for it in table][1:]
                found |= {(protocol, *_where(row[1])) for row in rows if row[3] == state}
    return found


def _where(text: str) -> Tuple[str, int]:
    """An address of the kernel's tables: words of this machine in hexadecimal digits, and the port."""
    digits, port = text.split(":")
    numbers = [int(digits[at:at + 8], 16) for at in range(0, len(digits), 8)]
    packed = struct.pack(f"={len(numbers)}I", *numbers)
    return socket.inet_ntop(socket.AF_INET if len(packed) == 4 else socket.AF_INET6, packed), int(port, 16)
