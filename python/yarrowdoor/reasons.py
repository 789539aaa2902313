"""What the packets of client and server say beside what the client answers: error codes, the mapped address, who asked for what.

Nobody has to have signed an error code, so it is a hint: anyone who knows the addresses can send such a packet
(`docs/REAL-SERVERS.md` in the repository, "A wrong password looks like silence"). The rest of the package uses `read`, `attribute`,
`xored` and `Frames`, and looks at no byte of a message by itself.
"""
from __future__ import annotations

import socket
import struct
from typing import Iterator, NamedTuple, Optional, Tuple

from . import layout as c
from .address import Address, peer_of
from .library import load

__all__ = [
    "ALLOCATE", "BINDING", "CHANNEL_BIND", "CONNECT", "CONNECTION_BIND", "CREATE_PERMISSION", "Frames", "LIFETIME", "Message",
    "REFRESH", "XOR_PEER_ADDRESS", "attribute", "binding_request", "is_about_credentials", "is_challenge", "read", "xored",
]

# Methods (RFC 8489, section 18.2; RFC 8656, section 17; RFC 6062, section 6.1).
BINDING, ALLOCATE, REFRESH, CREATE_PERMISSION, CHANNEL_BIND = 0x001, 0x003, 0x004, 0x008, 0x009
CONNECT, CONNECTION_BIND = 0x00A, 0x00B
# Attributes (RFC 8489, section 18.3; RFC 8656, section 18).
LIFETIME, XOR_PEER_ADDRESS = 0x000D, 0x0012

_COOKIE = 0x2112A442

Error = Tuple[int, str]


class Message(NamedTuple):
    """A STUN message: its method, whether it is a request, or else a response, its transaction ID, the error of an error response,
    and the client's address as the server saw it, if it says that."""

    method: int
    is_request: bool
    is_response: bool
    transaction: bytes
    error: Optional[Error]
    mapped: Optional[Address]


def read(data: bytes) -> Optional[Message]:
    """The STUN message that these bytes are, or None where they are something else. It is not verified."""
    found = load().read_message(data)
    if found.kind != c.MESSAGE_IS:
        return None
    is_error, is_success = found.message_class == c.ERROR_CLASS, found.message_class == c.SUCCESS_CLASS
    phrase = data[found.reason_at:found.reason_at + found.reason_len]
    error = (found.code, _printable(phrase)) if is_error and found.code else None
    mapped = peer_of(found.mapped) if is_success and found.mapped != c.NO_ADDRESS else None
    return Message(found.method, found.message_class == c.REQUEST_CLASS, is_error or is_success, found.id, error, mapped)


def attribute(data: bytes, name: int) -> Optional[bytes]:
    """The value of the first attribute of this type that the message's integrity covers, or None."""
    return load().read_attribute(data, name)


def xored(value: bytes, transaction: bytes) -> Optional[Address]:
    """The address in the value of a XORed attribute of the client's request (RFC 8489, section 14.2), or None where it is none."""
    family, key = value[1:2], _COOKIE.to_bytes(4, "big") + transaction
    if (family, len(value)) not in ((b"\1", 8), (b"\2", 20)):
        return None
    ip = bytes(a ^ b for a, b in zip(value[4:], key))
    name = socket.inet_ntop(socket.AF_INET if family == b"\1" else socket.AF_INET6, ip)
    return Address(name, int.from_bytes(value[2:4], "big") ^ 0x2112)


def binding_request(transaction: bytes) -> bytes:
    """A Binding request without attributes (RFC 8489, section 3): 20 bytes, which a server answers with this client's address."""
    return struct.pack("!HHI12s", BINDING, 0, _COOKIE, transaction)


def is_about_credentials(code: int) -> bool:
    """Whether an error to a signed ALLOCATE means that user name or password are wrong: 401, and with some servers 400."""
    return code in (400, 401)


def is_challenge(code: int) -> bool:
    """Whether an error may ask for the same request again, with a new nonce (RFC 8489, section 9.2.5): 401 and 438."""
    return code in (401, 438)


def _printable(phrase: bytes) -> str:
    """A phrase without what cannot be printed: some servers end it by NUL bytes, and anyone may send control characters."""
    return "".join(it for it in phrase.decode(errors="replace") if it.isprintable()).strip()


class Frames:
    """The messages in a stream of the server, cut by the library.

    `messages` takes a piece, and gives each whole message in it. A stream that is none of TURN gives nothing any more.
    """

    def __init__(self) -> None:
        self._front = b""
        self._is_broken = False

    def is_one(self, piece: bytes, size: int) -> bool:
        """Whether a piece is one ChannelData message with `size` bytes of data, and nothing else: `messages` need not see it."""
        return not self._front and len(piece) == 4 + (size + 3) // 4 * 4

    def messages(self, piece: bytes) -> Iterator[bytes]:
        """The STUN messages that end in this piece of the stream. ChannelData is passed over; after a byte that begins no frame
        there are none."""
        data, place = self._front + piece if self._front else piece, 0
        self._front = b""
        if self._is_broken:
            return
        for found in load().read_frames(data):
            self._is_broken = found.kind == c.NO_FRAME
            if found.kind == c.MESSAGE_IS:
                yield data[place:place + found.len]
            place += found.len
        if not self._is_broken:
            self._front = data[place:]
