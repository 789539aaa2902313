"""A TURN server by its URI: the addresses of its name, and connections to one of them."""
from __future__ import annotations

import asyncio
import contextlib
import dataclasses
import ipaddress
import socket
import ssl as tls
import struct
from typing import Any, Awaitable, Callable, Dict, Iterable, List, Optional, Tuple, TypeVar

from .address import Address
from .errors import AllocationFailed, YarrowdoorError, because
from .link import DatagramLink, Link, StreamLink
from .lookup import look_up
from .uri import TurnUri

__all__ = ["ALONE", "NoneSucceeded", "Server", "first_of", "interleaved"]

# How long an attempt runs before one with the next address begins alongside, in seconds (RFC 8305, section 5).
STAGGER = 0.25
# How long an attempt takes before it is given up for the next one, where both would use the same local port, in seconds.
ALONE = 1.5
# Where the field tcpi_bytes_received stands in the system's structure `tcp_info` (linux/tcp.h).
BYTES_RECEIVED = 128

SocketName = Tuple[Any, ...]
_Found = TypeVar("_Found")


class Server:
    """A server: what its URI says, the context of TLS where that is used, and a socket to it, if one was given."""

    def __init__(self, uri: TurnUri, ssl: Optional[tls.SSLContext], sock: Optional[socket.socket] = None, *,
                 local_addr: Optional[Tuple[str, int]] = None, family: int = socket.AF_UNSPEC, name: Optional[str] = None) -> None:
        """`local_addr` and `family` are those of the sockets, as asyncio has them. The certificate is for `name`, by default the
        host of the URI."""
        if uri.secure and uri.transport != "tcp":
            raise ValueError(f"TURN over DTLS is not supported: {uri}")
        if ssl is not None and not uri.secure:
            raise ValueError(f"ssl is for turns:, and the URI is {uri}")
        _check_name(uri.host)
        if sock is not None:
            _check_socket(sock, uri)
        self.uri, self._socket = uri, sock
        self._ssl = (ssl or tls.create_default_context()) if uri.secure else None
        self._local_addr, self._family, self._name = local_addr, family, name or uri.host
        # How many connections over TCP were made, and were ready, and those that are not ready yet, since TLS is not.
        self._steps = 0
        self._opening: List[socket.socket] = []

    @property
    def ssl(self) -> Optional[tls.SSLContext]:
        """The context of TLS, where that is used."""
        return self._ssl

    def close_unused(self) -> None:
        """Closes the socket that was given, if it was not used."""
        unused, self._socket = self._socket, None
        if unused is not None:
            unused.close()

    @property
    def has_own_port(self) -> bool:
        """Whether sockets to the server have a port of the user's, so that there is one at a time."""
        return self._local_addr is not None and self._local_addr[1] != 0

    def redirected(self, to: Address) -> Server:
        """The server at another address, over the same transport, and with a certificate for the same name."""
        uri = dataclasses.replace(self.uri, host=to.host, port=to.port)
        return Server(uri, self._ssl, local_addr=self._local_addr, family=self._family, name=self._name)

    async def addresses(self) -> List[str]:
        """The server's IP addresses, in the order in which they are tried. `AllocationFailed` if its name has none."""
        if self._socket is not None:
            return [_scoped(self._socket.getpeername())]
        kind = socket.SOCK_DGRAM if self.uri.transport == "udp" else socket.SOCK_STREAM
        try:
            found = await look_up(self.uri.host, self.uri.port, type=kind, family=self._family)
        except (OSError, UnicodeError) as error:
            raise because(AllocationFailed(f"no connection to {self.uri}: {error}"), error)
        return interleaved(_scoped(it[4]) for it in found)

    async def connect(self, host: str) -> Link:
        """A new socket to the server at this address of it, or the one that was given, which is used once. `OSError` if there is
        none."""
        if self.uri.transport != "udp":
            return await self._stream(host, self._local_addr)
        given, self._socket = self._socket, None
        return DatagramLink(given or connected(host, self.uri.port, self._local_addr))

    async def stream(self, host: str) -> StreamLink:
        """One more connection to a server over TCP or TLS, from another port."""
        return await self._stream(host, (self._local_addr[0], 0) if self._local_addr is not None else None)

    async def _stream(self, host: str, own: Optional[Tuple[str, int]]) -> StreamLink:
        given, self._socket = self._socket, None
        sock = given or await self._connected_stream(host, own)
        self._opening.append(sock)
        try:
            _, link = await asyncio.get_running_loop().create_connection(
                StreamLink, sock=sock, ssl=self._ssl, server_hostname=self._name if self._ssl else None)
            self._steps += 1
        finally:
            self._opening.remove(sock)
        if link.is_over:
            raise ConnectionResetError("the server closed the connection at once")
        return link

    async def _connected_stream(self, host: str, own: Optional[Tuple[str, int]]) -> socket.socket:
        sock, where = bound(host, self.uri.port, own, socket.SOCK_STREAM)
        try:
            await asyncio.get_running_loop().sock_connect(sock, where)
            self._steps += 1
        except BaseException:
            sock.close()
            raise
        return sock

    @property
    def signs(self) -> Tuple[int, int]:
        """What shows that a server is there before it has answered a request: connections over TCP and TLS that were made, and what
        has come over those that are not ready."""
        return self._steps, sum(map(bytes_received, self._opening))


def bound(host: str, port: int, own: Optional[Tuple[str, int]], kind: int) -> Tuple[socket.socket, SocketName]:
    """A new socket for a connection to this IP address, which may have a scope, from its own one, if that is given, and the address
    as the system has it. `OSError` if the system refuses it."""
    (family, _, protocol, _, where), *_ = socket.getaddrinfo(host, port, type=kind, flags=socket.AI_NUMERICHOST)
    sock = socket.socket(family, kind, protocol)
    try:
        sock.setblocking(False)
        if own is not None:
            sock.bind(own)
    except BaseException:
        sock.close()
        raise
    return sock, where


def connected(host: str, port: int, own: Optional[Tuple[str, int]] = None) -> socket.socket:
    """A new socket over UDP that is connected. `OSError` if the system refuses it."""
    sock, where = bound(host, port, own, socket.SOCK_DGRAM)
    try:
        sock.connect(where)
    except BaseException:
        sock.close()
        raise
    return sock


def bytes_received(sock: socket.socket) -> int:
    """How many bytes have come over TCP, or 0 where the system does not say."""
    with contextlib.suppress(OSError, struct.error):
        return int(struct.unpack_from("=Q", sock.getsockopt(socket.IPPROTO_TCP, socket.TCP_INFO, 256), BYTES_RECEIVED)[0])
    return 0


def _check_socket(sock: socket.socket, uri: TurnUri) -> None:
    """`ValueError` if a socket is none to a server of this URI. It never blocks from then on."""
    kind = socket.SOCK_DGRAM if uri.transport == "udp" else socket.SOCK_STREAM
    if sock.family not in (socket.AF_INET, socket.AF_INET6) or sock.type != kind:
        raise ValueError(f"sock is none for {uri}: {sock}")
    try:
        sock.getpeername()
    except OSError as error:
        raise ValueError(f"sock is to be connected to the server: {error}") from None
    sock.setblocking(False)


def _check_name(host: str) -> None:
    """`ValueError` for a name that no host can have (RFC 1123, section 2.1; RFC 3490)."""
    try:
        is_name = 0 < len(host.encode("idna").rstrip(b".")) <= 253
    except UnicodeError:
        is_name = False
    if not is_name:
        raise ValueError(f"{host!r} is no name of a host: a label has 1 to 63 characters, and a name up to 253")


def _scoped(where: Tuple[object, ...]) -> str:
    """The IP address of a socket's address, with its scope, if it has one."""
    return f"{where[0]}%{where[3]}" if len(where) == 4 and where[3] and "%" not in str(where[0]) else str(where[0])


def interleaved(hosts: Iterable[str]) -> List[str]:
    """Each address once, and IPv6 and IPv4 by turns, the family of the first one first (RFC 8305, section 4)."""
    unique = list(dict.fromkeys(hosts))
    families: Dict[int, List[str]] = {}
    for host in unique:
        families.setdefault(ipaddress.ip_address(host.partition("%")[0]).version, []).append(host)
    columns = [*families.values()]
    return [column[row] for row in range(len(unique)) for column in columns if row < len(column)]


class NoneSucceeded(Exception):
    """Each address has failed, for a reason of its own."""

    def __init__(self, failures: Dict[str, Exception]) -> None:
        super().__init__(failures)
        self.failures = failures


async def first_of(hosts: List[str], attempt: Callable[[str], Awaitable[_Found]], discard: Callable[[_Found], Awaitable[None]],
                   alone: Optional[float] = None) -> _Found:
    """Attempts one address after the other, each `STAGGER` after the last one began, or at once where that one has failed. Gives
    what the first one found that succeeds; the other attempts are cancelled, and what one of them finds meanwhile is discarded.
    With `alone` there is one at a time: all but the last one are given up after that many seconds. `NoneSucceeded` if all fail."""
    failures: Dict[str, Exception] = {}
    running: Dict[asyncio.Future[_Found], str] = {}
    waiting = list(reversed(hosts))
    try:
        while waiting or running:
            if waiting:
                host = waiting.pop()
                running[asyncio.ensure_future(attempt(host))] = host
            limit = None if not waiting else STAGGER if alone is None else alone
            done, _ = await asyncio.wait(running, timeout=limit, return_when=asyncio.FIRST_COMPLETED)
            for task in done:
                host = running.pop(task)
                error = task.exception()
                if error is None:
                    return task.result()
                if not isinstance(error, (OSError, YarrowdoorError)):
                    raise error  # which is not about this address
                failures[host] = error
            if alone is not None and running:
                failures.update((host, AllocationFailed(f"no answer in {alone} s")) for host in running.values())
                await _cancel(running, discard)
        raise NoneSucceeded(failures)
    finally:
        await _cancel(running, discard)


async def _cancel(running: Dict[asyncio.Future[_Found], str], discard: Callable[[_Found], Awaitable[None]]) -> None:
    """Ends attempts, and discards what they have found."""
    tasks = [*running]
    for task in tasks:
        task.cancel()
    for found in await asyncio.gather(*tasks, return_exceptions=True):
        if not isinstance(found, BaseException):
            await discard(found)
    running.clear()
