"""One socket to the server without an event loop: bytes out, bytes in, and each of both is reported to a tap."""
from __future__ import annotations

import contextlib
import select
import socket
import ssl as tls
import time
from typing import Any, Dict, Optional, Sequence, Union

from .address import SocketAddress, of_socket

__all__ = ["SilentHandshake", "Tap", "Where", "Wire", "connect_stream", "connect_udp", "notice_silence", "writable"]

# More than any datagram has, and any message of TURN.
_MOST = 70_000
# How long a stream may take no byte before it is given up, in seconds.
_FULL = 2.0
# The system gives up on a connection when nothing that was sent is confirmed for so long, in milliseconds (RFC 5482). Together with
# what is sent in between, every 15 s, a path that drops all in silence is noticed within a minute.
USER_TIMEOUT = 25_000
_TCP_USER_TIMEOUT = getattr(socket, "TCP_USER_TIMEOUT", 18)
# A stream on which nothing is sent is asked for a sign of life after so long, and again after so long, in seconds.
KEEPALIVE = 15

# A host and a port, and what else a socket says of its address.
Where = Sequence[Union[str, int]]


class Tap:
    """Gets each packet. This one keeps nothing."""

    def datagram(self, source: Where, destination: Where, data: bytes, now: float) -> None:
        """A datagram has left, or come, at this time in seconds since 1970."""

    def opened(self, local: Where, remote: Where, now: float) -> None:
        """A connection was made."""

    def piece(self, source: Where, destination: Where, data: bytes, now: float) -> None:
        """A piece of a stream has left, or come."""

    def ended(self, source: Where, destination: Where, now: float) -> None:
        """One end sends nothing more on a stream."""


class SilentHandshake(TimeoutError):
    """The connection was accepted, and nothing answers to the beginning of TLS."""


class Wire:
    """A socket to the server. `send` and `receive` raise `OSError` if it refuses, and where a stream is broken."""

    def __init__(self, sock: Union[socket.socket, tls.SSLSocket], tap: Tap) -> None:
        sock.setblocking(False)
        self._socket, self._tap = sock, tap
        self.is_stream = sock.type == socket.SOCK_STREAM
        self.local: SocketAddress = of_socket(sock.getsockname())
        self.remote: SocketAddress = of_socket(sock.getpeername())
        if self.is_stream:
            notice_silence(sock)
            tap.opened(self.local, self.remote, time.time())

    @property
    def transport(self) -> str:
        """`"udp"` or `"tcp"`, as the client has it: TLS is over TCP."""
        return "tcp" if self.is_stream else "udp"

    def fileno(self) -> int:
        """What `select` waits for."""
        return self._socket.fileno()

    def has_more(self) -> bool:
        """Whether TLS holds bytes of which `select` does not know."""
        return isinstance(self._socket, tls.SSLSocket) and self._socket.pending() > 0

    def certificate(self) -> Optional[Dict[str, Any]]:
        """The server's certificate, over TLS, as `ssl` gives it."""
        return self._socket.getpeercert() if isinstance(self._socket, tls.SSLSocket) else None

    def send(self, data: bytes) -> None:
        """Sends a datagram, or drops it where the socket is full; of a stream it sends all, or raises `TimeoutError`."""
        if self.is_stream:
            self._tap.piece(self.local, self.remote, data, time.time())
        deadline, rest = time.monotonic() + _FULL, memoryview(data)
        while rest:
            try:
                rest = rest[self._socket.send(rest):]
            except (BlockingIOError, tls.SSLWantWriteError, tls.SSLWantReadError):
                if not self.is_stream:
                    return
                if time.monotonic() >= deadline:
                    raise TimeoutError("the server reads nothing of the connection any more") from None
                writable(self._socket, 0.05)
        if not self.is_stream:
            self._tap.datagram(self.local, self.remote, data, time.time())

    def receive(self) -> Optional[bytes]:
        """A datagram, or a piece of the stream; nothing at the end of a stream, and None where there is nothing now."""
        try:
            data = self._socket.recv(_MOST)
        except (BlockingIOError, tls.SSLWantReadError, tls.SSLWantWriteError):
            return None
        except tls.SSLZeroReturnError:
            data = b""
        if not self.is_stream:
            self._tap.datagram(self.remote, self.local, data, time.time())
        elif data:
            self._tap.piece(self.remote, self.local, data, time.time())
        else:
            self._tap.ended(self.remote, self.local, time.time())
        return data

    def close(self) -> None:
        """Closes the socket."""
        if self.is_stream and self._socket.fileno() >= 0:
            self._tap.ended(self.local, self.remote, time.time())
        with contextlib.suppress(OSError):
            self._socket.close()


def connect_udp(host: str, port: int, tap: Tap = Tap()) -> Wire:
    """A socket over UDP to an IP address. `OSError` if there is no way to it."""
    family, kind, protocol, _, where = socket.getaddrinfo(host, port, type=socket.SOCK_DGRAM, flags=socket.AI_NUMERICHOST)[0]
    sock = socket.socket(family, kind, protocol)
    try:
        sock.connect(where)
        return Wire(sock, tap)
    except BaseException:
        sock.close()
        raise


def connect_stream(host: str, port: int, seconds: float, tap: Tap = Tap(), context: Optional[tls.SSLContext] = None,
                   name: str = "") -> Wire:
    """A connection over TCP to an IP address, or with a context over TLS to a server of this name, within this many seconds.
    `OSError` if there is none: `ssl.SSLCertVerificationError` if the certificate is the reason, and `SilentHandshake`."""
    sock = socket.create_connection((host, port), seconds)
    try:
        sock.setsockopt(socket.IPPROTO_TCP, socket.TCP_NODELAY, 1)
        return Wire(sock if context is None else context.wrap_socket(sock, server_hostname=name), tap)
    except socket.timeout as error:
        sock.close()
        raise SilentHandshake(str(error)) from None
    except BaseException:
        sock.close()
        raise


def notice_silence(sock: socket.socket) -> None:
    """Has the system end a connection whose other end is silent, which takes it a quarter of an hour otherwise."""
    options = [(socket.SOL_SOCKET, socket.SO_KEEPALIVE, 1), (socket.IPPROTO_TCP, socket.TCP_KEEPIDLE, KEEPALIVE),
               (socket.IPPROTO_TCP, socket.TCP_KEEPINTVL, KEEPALIVE), (socket.IPPROTO_TCP, _TCP_USER_TIMEOUT, USER_TIMEOUT)]
    with contextlib.suppress(OSError):
        for level, name, value in options:
            sock.setsockopt(level, name, value)


def writable(sock: socket.socket, seconds: float) -> None:
    """Waits until a socket takes more, or for this many seconds. Its number may be any, unlike those that `select.select` takes."""
    waiting = select.poll()
    try:
        waiting.register(sock, select.POLLOUT)
    except ValueError:
        return  # it was closed
    waiting.poll(seconds * 1000)
