"""A TURN server for the tests, over IPv4 and UDP, that does no I/O: RFC 8656 as far as a client needs it.

What it does wrong is set by the test: a nonce that grows old, errors, silence. It does not share code with the package.
"""
import hashlib
import hmac
import itertools
import os
import socket
import struct
from typing import Dict, List, NamedTuple, Optional, Tuple

COOKIE = b"\x21\x12\xa4\x42"
BINDING, ALLOCATE, REFRESH, SEND, DATA, CREATE_PERMISSION, CHANNEL_BIND = 1, 3, 4, 6, 7, 8, 9
LIFETIME = 600
Where = Tuple[str, int]


class Message(NamedTuple):
    kind: int
    transaction: bytes
    attributes: Dict[int, bytes]
    signed_part: bytes


def parse(data: bytes) -> Message:
    kind, size = struct.unpack_from("!HH", data)
    assert data[4:8] == COOKIE and len(data) == 20 + size and size % 4 == 0, "the client sent no message"
    attributes: Dict[int, bytes] = {}
    place, signed_part = 20, b""
    while place < len(data):
        name, length = struct.unpack_from("!HH", data, place)
        if name == 0x0008:
            signed_part = data[:2] + struct.pack("!H", place + 4) + data[4:place]
        attributes.setdefault(name, data[place + 4 : place + 4 + length])
        place += 4 + (length + 3) // 4 * 4
    return Message(kind, data[8:20], attributes, signed_part)


def attribute(name: int, value: bytes) -> bytes:
    return struct.pack("!HH", name, len(value)) + value + bytes(-len(value) % 4)


def xored(where: Where) -> bytes:
    ip = bytes(a ^ b for a, b in zip(socket.inet_aton(where[0]), COOKIE))
    return b"\0\1" + struct.pack("!H", where[1] ^ 0x2112) + ip


def unxored(value: bytes) -> Where:
    ip = bytes(a ^ b for a, b in zip(value[4:8], COOKIE))
    return socket.inet_ntoa(ip), struct.unpack_from("!H", value, 2)[0] ^ 0x2112


class Allocation:
    def __init__(self, relayed: Where, until: float) -> None:
        self.relayed, self.until = relayed, until
        self.permissions: Dict[str, float] = {}
        self.channels: Dict[int, Where] = {}
        self.channel_ends: Dict[int, float] = {}

    def peer_of(self, number: int, now: float) -> Optional[Where]:
        return self.channels[number] if self.channel_ends.get(number, 0) > now else None


class Server:
    """Times are seconds. `nonce_life` is how long a nonce is good; `allocate_error` is the error of each signed ALLOCATE."""

    def __init__(self, user: str = "user", password: str = "pass", nonce_life: Optional[float] = None,
                 allocate_error: Optional[int] = None, signs_errors: bool = True, denied: Tuple[str, ...] = (),
                 lifetime: int = LIFETIME) -> None:
        self._password = password
        self.user, self.nonce_life, self.lifetime = user.encode(), nonce_life, lifetime
        self.allocate_error, self.signs_errors, self.denied = allocate_error, signs_errors, denied
        self.serve_realm(b"realm")
        self.allocations: Dict[Where, Allocation] = {}
        self.answered: Dict[Tuple[Where, bytes], bytes] = {}
        self.nonce, self.nonce_since = b"nonce-0", 0.0
        self._nonces = itertools.count(1)  # and no time: two requests may come within a millisecond
        self.is_dead = False
        self.answers_bindings = True
        self.stale = 0  # so many requests more are challenged, each with another nonce
        self.bindings = 0
        self.challenges = 0
        self.refreshes = 0

    def serve_realm(self, realm: bytes) -> None:
        """Takes requests that are signed for this realm from now on."""
        self.realm, self.key = realm, hashlib.md5(b":".join([self.user, realm, self._password.encode()])).digest()

    def receive(self, data: bytes, source: Where, now: float) -> List[Tuple[bytes, Where]]:
        """Takes a packet of a client, and gives packets to clients and peers."""
        if self.is_dead:
            return []
        if self.nonce_life is not None and now - self.nonce_since >= self.nonce_life:
            self.nonce, self.nonce_since = b"nonce-%d" % next(self._nonces), now
        allocation = self.allocation_of(source, now)
        if data[0] >> 6 == 1:
            number, size = struct.unpack_from("!HH", data)
            peer = allocation.peer_of(number, now) if allocation else None
            return [(data[4 : 4 + size], peer)] if peer else []
        message = parse(data)
        if message.kind == BINDING:
            self.bindings += 1
            return [(self.mapped(message, source), source)] if self.answers_bindings else []
        if message.kind == SEND | 0x0010:
            peer = unxored(message.attributes[0x0012])
            is_allowed = allocation and allocation.permissions.get(peer[0], 0) > now
            return [(message.attributes[0x0013], peer)] if is_allowed else []
        if message.kind & 0x0110 == 0x0010:
            return []  # No indication has an answer (RFC 8489, section 6.3.2).
        answer = self.answered.get((source, message.transaction))
        if answer is None:
            answer = self.answer(message, source, allocation, now)
            if answer[0:2] != b"\1\x13":  # a challenge may be answered again, with another nonce
                self.answered[source, message.transaction] = answer
        return [(answer, source)]

    def allocation_of(self, client: Where, now: float) -> Optional[Allocation]:
        found = self.allocations.get(client)
        if found is not None and found.until <= now:
            del self.allocations[client]
            return None
        return found

    def mapped(self, message: Message, source: Where) -> bytes:
        body = attribute(0x0020, xored(source))
        return struct.pack("!HH", BINDING | 0x0100, len(body)) + COOKIE + message.transaction + body

    def from_peer(self, data: bytes, peer: Where, client: Where, now: float) -> List[Tuple[bytes, Where]]:
        """Takes data of a peer for the relayed address of a client."""
        allocation = self.allocation_of(client, now)
        if self.is_dead or allocation is None or allocation.permissions.get(peer[0], 0) <= now:
            return []
        for number, bound in allocation.channels.items():
            if bound == peer == allocation.peer_of(number, now):
                return [(struct.pack("!HH", number, len(data)) + data, client)]
        body = attribute(0x0012, xored(peer)) + attribute(0x0013, data)
        return [(struct.pack("!HH", DATA | 0x0010, len(body)) + COOKIE + os.urandom(12) + body, client)]

    def answer(self, message: Message, source: Where, allocation: Optional[Allocation], now: float) -> bytes:
        found = message.attributes
        if found.get(0x0014, self.realm) != self.realm:
            return self.error(message, 441, is_signed=False)  # as coturn
        if 0x0008 not in found or found.get(0x0006) != self.user or not self.is_signed(message):
            return self.error(message, 401, is_signed=False)
        if self.stale:
            self.nonce = b"stale-%d" % self.stale
            self.stale -= 1
        if found[0x0015] != self.nonce:
            self.challenges += 1
            return self.error(message, 438, is_signed=False)
        if message.kind == ALLOCATE:
            return self.allocate(message, source, allocation, now)
        if allocation is None:
            return self.error(message, 437)
        if message.kind == REFRESH:
            lifetime = min(struct.unpack("!I", found[0x000D])[0], self.lifetime)
            allocation.until = now + lifetime
            if not lifetime:
                del self.allocations[source]
            return self.success(message, attribute(0x000D, struct.pack("!I", lifetime)))
        peer = unxored(found[0x0012])
        if peer[0] in self.denied:
            return self.error(message, 403)
        self.refreshes += peer[0] in allocation.permissions
        allocation.permissions[peer[0]] = now + 300
        if message.kind == CHANNEL_BIND:
            (number,) = struct.unpack_from("!H", found[0x000C])
            allocation.channels[number], allocation.channel_ends[number] = peer, now + 600
        return self.success(message, b"")

    def allocate(self, message: Message, source: Where, allocation: Optional[Allocation], now: float) -> bytes:
        if self.allocate_error or allocation:
            return self.error(message, self.allocate_error or 437)
        relayed = ("10.9.9.9", 40000 + len(self.allocations))
        self.allocations[source] = Allocation(relayed, now + self.lifetime)
        body = attribute(0x0016, xored(relayed)) + attribute(0x0020, xored(source))
        return self.success(message, body + attribute(0x000D, struct.pack("!I", self.lifetime)))

    def is_signed(self, message: Message) -> bool:
        digest = hmac.new(self.key, message.signed_part, hashlib.sha1).digest()
        return hmac.compare_digest(digest, message.attributes[0x0008])

    def success(self, message: Message, body: bytes) -> bytes:
        return self.signed(message.kind | 0x0100, message.transaction, body)

    def error(self, message: Message, code: int, is_signed: bool = True) -> bytes:
        body = attribute(0x0009, struct.pack("!HBB", 0, code // 100, code % 100) + b"no")
        body += attribute(0x0014, self.realm) + attribute(0x0015, self.nonce)
        if is_signed and self.signs_errors:
            return self.signed(message.kind | 0x0110, message.transaction, body)
        return struct.pack("!HH", message.kind | 0x0110, len(body)) + COOKIE + message.transaction + body

    def signed(self, kind: int, transaction: bytes, body: bytes) -> bytes:
        front = struct.pack("!HH", kind, len(body) + 24) + COOKIE + transaction + body
        return front + attribute(0x0008, hmac.new(self.key, front, hashlib.sha1).digest())
