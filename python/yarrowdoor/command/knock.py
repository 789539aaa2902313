"""Asks whether a STUN or TURN server is at an address: over UDP, TCP or TLS, and where it is none, what else is."""
from __future__ import annotations

import contextlib
import errno
import os
import select
import socket
import ssl as tls
import time
from dataclasses import replace
from typing import Dict, List, Optional, Tuple

from .. import reasons
from ..client import Client
from ..wire import SilentHandshake, Tap, Wire, connect_stream, connect_udp
from .certificate import of_peer, read_refused
from .handshakes import answers_hello, is_alert, read_alert
from .icmp import keep_rejections, rejection_of
from .reach import Door, Heard, Verdict
from .steps import printable

__all__ = ["knock"]

# When a datagram is sent, in seconds from the beginning, and then again until the end.
_TIMES, _PAUSE = (0.0, 0.25, 0.75), 0.5
# How long the second of two answers is waited for after the first one, and an answer that is late, or comes from elsewhere.
_SECOND, _LATE = 1.0, 1.0
# The pause after which the request that has no answer is sent again, while the second answer is waited for.
_SOON = 0.15
# The longest wait when a port is looked at again, to find out what it is.
_AGAIN = 0.75
# What a connection says that was made, and is no more.
_BROKEN = (errno.ENOTCONN, errno.EPIPE, errno.ECONNRESET, errno.ECONNABORTED)


def knock(door: Door, host: str, seconds: float, tap: Tap) -> Heard:
    """Asks at a door for at most this many seconds, and a second more if nothing answers, to find out why."""
    begun = time.monotonic()
    try:
        wire = connect_udp(host, door.port, tap) if door.transport == "udp" else \
            connect_stream(host, door.port, seconds, tap, door.context, door.name)
    except OSError as error:
        found = _not_connected(door, host, seconds, begun, error)
    else:
        with contextlib.closing(wire):
            found = _connected(wire, host, begun, seconds)
    return _look_again(door, found, min(seconds, _AGAIN), tap)


def _not_connected(door: Door, host: str, seconds: float, begun: float, error: OSError) -> Heard:
    certificate = None
    if isinstance(error, tls.SSLCertVerificationError):
        verdict, certificate = Verdict.CERTIFICATE, read_refused(host, door.port, door.name, seconds)
    elif _is_end(error) or error.errno in _BROKEN:
        verdict = Verdict.CLOSED
    elif isinstance(error, tls.SSLError):
        verdict = Verdict.HANDSHAKE if is_alert(error) else Verdict.NO_TLS
    elif isinstance(error, ConnectionRefusedError):
        verdict = Verdict.REFUSED
    elif isinstance(error, SilentHandshake):
        verdict = Verdict.MUTE
    elif isinstance(error, TimeoutError) or error.errno in (errno.ETIMEDOUT, None):
        verdict = Verdict.SILENT
    else:
        verdict = Verdict.REJECTED if door.transport != "udp" and _has_route(host, door.port) else Verdict.UNREACHABLE
    return Heard(verdict, host, time.monotonic() - begun, None, error, certificate)


def _is_end(error: OSError) -> bool:
    """Whether TLS says that the connection has ended. Python before 3.10 has no error of its own for it."""
    if isinstance(error, (tls.SSLEOFError, tls.SSLZeroReturnError)):
        return True
    return isinstance(error, tls.SSLError) and "UNEXPECTED_EOF" in str(error.reason)


def _has_route(host: str, port: int) -> bool:
    """Whether this host knows a way to an address. Then an error has come from there, or from a router on the way."""
    with contextlib.suppress(OSError):
        connect_udp(host, port).close()
        return True
    return False


def _connected(wire: Wire, host: str, begun: float, seconds: float) -> Heard:
    known = wire.certificate()  # A connection that has broken has none any more.
    certificate = of_peer(known) if known else None
    if not wire.is_stream:
        keep_rejections(wire.fileno())
    talk = _Talk(wire)
    try:
        verdict = talk.run(begun + seconds)
    except ConnectionRefusedError as error:
        return _rejected(wire, Heard(Verdict.REFUSED, host, time.monotonic() - begun, None, error))
    except tls.SSLError as error:
        verdict = Verdict.HANDSHAKE if is_alert(error) else Verdict.CLOSED
        return Heard(verdict, host, time.monotonic() - begun, None, error, certificate)
    except OSError as error:
        if wire.is_stream:
            return Heard(Verdict.CLOSED, host, time.monotonic() - begun, None, error, certificate)
        return _rejected(wire, Heard(Verdict.REJECTED, host, time.monotonic() - begun, None, error))
    mapped = next((it.mapped for it in talk.answers.values() if it.mapped is not None), None)
    has_binding = any(it.method == reasons.BINDING and it.error is None for it in talk.answers.values())
    if verdict is Verdict.SILENT:
        return _look_elsewhere(wire, talk, host, begun)
    spent = talk.answered - begun if talk.answered else time.monotonic() - begun
    return Heard(verdict, host, spent, mapped, None, certificate, None, talk.first, has_binding)


def _rejected(wire: Wire, found: Heard) -> Heard:
    """Who has rejected a datagram: this host may do so itself, by an error in sending or by ICMP."""
    rejection = rejection_of(wire.fileno())
    is_own = rejection is not None and rejection.sender == str(wire.local[0]) != found.host
    if is_own or isinstance(found.error, PermissionError):
        return replace(found, verdict=Verdict.FORBIDDEN_HERE, rejection=rejection)
    return replace(found, rejection=rejection)


class _Talk:
    """A Binding request and an ALLOCATE that is not signed, over a wire, and what comes: a TURN server answers at least one."""

    def __init__(self, wire: Wire) -> None:
        self._wire, self._frames = wire, reasons.Frames()
        self.packets, self.methods = _requests(wire)
        self.answers: Dict[bytes, reasons.Message] = {}
        self.answered = 0.0
        """when the first answer came"""
        self.first = ""
        """how the first piece begins that is no answer, in characters that can be printed"""
        self._has_come = False

    def run(self, deadline: float) -> Verdict:
        """Sends and listens. `OSError` where the wire has an error."""
        begun = now = time.monotonic()
        due = begun
        times = iter(_TIMES[1:])
        while now < deadline and len(self.answers) < len(self.packets):
            if now >= due:
                for packet in self.packets:
                    if not self._is_answered(packet):
                        self._wire.send(packet)
                pause = now + (_SOON if self.answered else _PAUSE) - begun
                due = deadline if self._wire.is_stream else begun + (pause if self.answered else next(times, pause))
            if self._wire.has_more() or select.select([self._wire], [], [], max(0.0, min(deadline, due) - now))[0]:
                if self.take(self._wire.receive()):
                    return Verdict.ANSWERS if self.answers else Verdict.STRANGE if self.first else Verdict.CLOSED
            if self.answers and not self.answered:
                self.answered = time.monotonic()
                deadline = min(deadline, self.answered + _SECOND)
                due = deadline if self._wire.is_stream else min(due, self.answered + _SOON)
            now = time.monotonic()
        if self.answers:
            return Verdict.ANSWERS
        return Verdict.STRANGE if self._has_come else Verdict.MUTE if self._wire.is_stream else Verdict.SILENT

    def _is_answered(self, packet: bytes) -> bool:
        message = reasons.read(packet)
        return message is not None and message.transaction in self.answers

    def take(self, data: Optional[bytes]) -> bool:
        """Takes what has come, and says whether nothing more will."""
        if data is None:
            return False
        if not data and self._wire.is_stream:
            return True
        self._has_come = True
        for packet in self._frames.messages(data) if self._wire.is_stream else [data]:
            message = reasons.read(packet)
            if message is not None and message.is_response and message.transaction in self.methods:
                self.answers.setdefault(message.transaction, message)
        if not self.first and not self.answers:
            self.first = _beginning(data)
        return False


def _beginning(data: bytes) -> str:
    """How what came begins: a line of text, or a few bytes."""
    if data[:1] in (b"\x14", b"\x15", b"\x16") and data[1:2] == b"\x03":
        return "a record of TLS"
    line = data.split(b"\n")[0][:40]
    text = printable(line.decode("ascii", "replace")).replace("\ufffd", "")
    return repr(text) if len(text) >= 4 and len(text) * 2 > len(line) else f"the bytes {data[:8].hex(' ')}"


def _requests(wire: Wire) -> Tuple[List[bytes], Dict[bytes, int]]:
    """The two requests, and their transaction IDs with their methods. What answers them is known by these."""
    transaction = os.urandom(12)
    packets, known = [reasons.binding_request(transaction)], {transaction: reasons.BINDING}
    client = Client(wire.local, wire.remote, "check", "check", transport=wire.transport)
    allocate = client.poll_transmit(0)
    message = reasons.read(allocate.data) if allocate is not None else None
    client.close()
    if allocate is not None and message is not None:
        packets, known = [*packets, allocate.data], {**known, message.transaction: message.method}
    return packets, known


def _look_elsewhere(wire: Wire, talk: _Talk, host: str, begun: float) -> Heard:
    """Asks once more from a socket that takes answers of any address, and waits a second longer for any."""
    where, is_ipv6 = tuple(wire.remote), ":" in host
    deadline = time.monotonic() + _LATE
    found = Heard(Verdict.SILENT, host, time.monotonic() - begun)
    with contextlib.suppress(OSError), socket.socket(socket.AF_INET6 if is_ipv6 else socket.AF_INET, socket.SOCK_DGRAM) as sock:
        transaction = os.urandom(12)
        sock.sendto(reasons.binding_request(transaction), where)
        while (left := deadline - time.monotonic()) > 0:
            ready = select.select([wire, sock], [], [], left)[0]
            if wire in ready and not talk.answers:
                talk.take(wire.receive())
            if talk.answers:
                return replace(found, verdict=Verdict.LATE, seconds=time.monotonic() - begun)
            if sock in ready:
                data, source = sock.recvfrom(65_536)
                message = reasons.read(data)
                if message is not None and message.transaction == transaction and source[:2] != where[:2]:
                    return replace(found, verdict=Verdict.ELSEWHERE, other=f"{source[0]} port {source[1]}")
    return found


def _look_again(door: Door, found: Heard, seconds: float, tap: Tap) -> Heard:
    """Tells a port of TLS from one of plain TCP, where it does not answer as the URI has it."""
    if door.transport == "tls" and found.verdict in (Verdict.CLOSED, Verdict.NO_TLS):
        found = _look_for_alert(door, found, seconds)
    with contextlib.suppress(OSError, ValueError):
        if found.verdict is Verdict.MUTE and (door.transport == "tcp" or found.certificate is not None):
            found = _try_http(door, found, seconds, tap)
        if door.transport == "tls" and found.verdict is Verdict.MUTE and found.certificate is None:
            with contextlib.suppress(OSError), socket.create_connection((found.host, door.port), seconds) as sock:
                if answers_hello(sock, seconds):
                    return replace(found, other="hello")
        if door.transport == "tls" and found.verdict in (Verdict.MUTE, Verdict.NO_TLS, Verdict.CLOSED):
            with contextlib.closing(connect_stream(found.host, door.port, seconds, tap)) as wire:
                talk = _Talk(wire)
                if talk.run(time.monotonic() + seconds) is Verdict.ANSWERS:
                    return replace(found, other="plain")
                return replace(found, other=talk.first)
        if door.transport == "tcp" and found.verdict in (Verdict.MUTE, Verdict.STRANGE, Verdict.CLOSED):
            context = tls.SSLContext(tls.PROTOCOL_TLS_CLIENT)
            context.check_hostname, context.verify_mode = False, tls.CERT_NONE
            connect_stream(found.host, door.port, seconds, tap, context, door.name).close()
            return replace(found, other="tls")
    return found


def _try_http(door: Door, found: Heard, seconds: float, tap: Tap) -> Heard:
    """Asks in the words of HTTP, whose servers wait in silence for the end of a line."""
    with contextlib.closing(connect_stream(found.host, door.port, seconds, tap, door.context, door.name)) as wire:
        wire.send(b"HEAD / HTTP/1.0\r\n\r\n")
        if select.select([wire], [], [], seconds)[0]:
            data = wire.receive() or b""
            if data.startswith(b"HTTP/"):
                return replace(found, verdict=Verdict.STRANGE, other=_beginning(data))
    return found


def _look_for_alert(door: Door, found: Heard, seconds: float) -> Heard:
    """Makes the handshake again, for the alert that it may have ended with: it is lost where the reset behind it, or an error in
    sending, was seen first."""
    assert door.context is not None, "a door of TLS has a context"
    with contextlib.suppress(OSError), socket.create_connection((found.host, door.port), seconds) as sock:
        alert = read_alert(sock, door.context, door.name, seconds)
        if alert is not None:
            return replace(found, verdict=Verdict.HANDSHAKE, error=alert)
    return found
