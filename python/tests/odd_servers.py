"""Programs for the situations of `situations.py`: servers that answer wrongly, and a slow link.

    python3 -m tests.odd_servers KIND ADDRESS PORT [FILE..]     prints `ready` when it serves
"""
import contextlib
import fcntl
import heapq
import os
import select
import socket
import ssl
import struct
import subprocess
import sys
import threading
import time
from typing import Any, Callable, Dict, List, Tuple

COOKIE = b"\x21\x12\xa4\x42"


def accept(ip: str, port: int, serve: Callable[[socket.socket], None]) -> None:
    """Serves each connection in a thread of its own."""
    with socket.create_server((ip, port), backlog=50) as listening:
        print("ready", flush=True)
        while True:
            one, _ = listening.accept()
            threading.Thread(target=serve, args=(one,), daemon=True).start()


def close(one: socket.socket) -> None:
    one.close()


def reset(one: socket.socket) -> None:
    one.setsockopt(socket.SOL_SOCKET, socket.SO_LINGER, struct.pack("ii", 1, 0))
    one.close()


def keep_mute(one: socket.socket) -> None:
    with contextlib.suppress(OSError):
        while one.recv(4096):
            pass


def answer_http(one: socket.socket) -> None:
    one.recv(4096)
    one.sendall(b"HTTP/1.1 400 Bad Request\r\n\r\n")
    one.close()


def attribute(name: int, value: bytes) -> bytes:
    return struct.pack("!HH", name, len(value)) + value + bytes(-len(value) % 4)


def answer_stale(ip: str, port: int) -> None:
    """Answers each request with a new nonce, and takes none."""
    with socket.socket(type=socket.SOCK_DGRAM) as sock:
        sock.bind((ip, port))
        print("ready", flush=True)
        for number in range(10**8):
            data, where = sock.recvfrom(4096)
            (kind,) = struct.unpack_from("!H", data)
            body, answer = b"", 0x0101
            if kind != 1:
                code = 38 if b"user" in data else 1
                body, answer = attribute(9, struct.pack("!HBB", 0, 4, code)), kind | 0x110
                body += attribute(0x14, b"realm") + attribute(0x15, b"%08d" % number)
            sock.sendto(struct.pack("!HH", answer, len(body)) + data[4:20] + body, where)


def answer_elsewhere(ip: str, port: int) -> None:
    """Answers from another port."""
    with socket.socket(type=socket.SOCK_DGRAM) as sock, socket.socket(type=socket.SOCK_DGRAM) as other:
        sock.bind((ip, port))
        other.bind((ip, port + 1))
        print("ready", flush=True)
        while True:
            data, where = sock.recvfrom(4096)
            other.sendto(struct.pack("!HH", 0x0101, 0) + data[4:20], where)


def secure(kind: str, files: List[str]) -> Callable[[socket.socket], None]:
    """A server of TLS that ends each handshake: of old versions, that wants a certificate, or that knows other names."""
    context = ssl.SSLContext(ssl.PROTOCOL_TLS_SERVER)
    context.load_cert_chain(*files[:2])
    if kind == "tls-old":
        context.set_ciphers("ALL:@SECLEVEL=0")
        context.minimum_version, context.maximum_version = ssl.TLSVersion.TLSv1, ssl.TLSVersion.TLSv1_1
    elif kind == "tls-client":
        context.verify_mode = ssl.CERT_REQUIRED
        context.load_verify_locations(files[0])
    elif kind == "tls-name":
        context.sni_callback = lambda *names: ssl.ALERT_DESCRIPTION_UNRECOGNIZED_NAME

    def serve(one: socket.socket) -> None:
        with contextlib.suppress(OSError), context.wrap_socket(one, server_side=True) as made:
            while made.recv(4096):
                pass

    return serve


def slow_link(delay: float) -> None:
    """In the router: sends what goes from the client to the server, and back, through this program, each after so many seconds."""
    files = []
    for name in (b"tunA", b"tunB"):
        file = os.open("/dev/net/tun", os.O_RDWR)
        fcntl.ioctl(file, 0x400454CA, struct.pack("16sH22x", name, 0x1001))
        files.append(file)
    for words in ("ip link set tunA up", "ip link set tunB up", "ip route add default dev tunA table 100",
                  "ip route add default dev tunB table 200", "ip rule add iif c1 to 45.20.0.0/24 lookup 100",
                  "ip rule add iif s1 to 45.10.0.0/24 lookup 200"):
        subprocess.run(words.split(), check=True)
    print("ready", flush=True)
    waiting: List[Tuple[float, int, int, bytes]] = []
    for number in range(10**9):
        while waiting and waiting[0][0] <= time.monotonic():
            _, _, to, data = heapq.heappop(waiting)
            with contextlib.suppress(OSError):
                os.write(to, data)
        left = max(0.0, waiting[0][0] - time.monotonic()) if waiting else 5.0
        for file in select.select(files, [], [], left)[0]:
            data = os.read(file, 65_535)
            if data[0] >> 4 == 4:
                heapq.heappush(waiting, (time.monotonic() + delay, number, files[1 - files.index(file)], data))


STREAMS: Dict[str, Callable[[socket.socket], None]] = {"closes": close, "resets": reset, "mute": keep_mute, "http": answer_http}
DATAGRAMS: Dict[str, Callable[[str, int], None]] = {"stale": answer_stale, "elsewhere": answer_elsewhere}


def main(kind: str, ip: str, port: str, *files: str) -> Any:
    if kind == "slow":
        return slow_link(float(port) / 1000)
    if kind in DATAGRAMS:
        return DATAGRAMS[kind](ip, int(port))
    return accept(ip, int(port), STREAMS[kind] if kind in STREAMS else secure(kind, [*files]))


if __name__ == "__main__":
    main(*sys.argv[1:])
