"""What a server says of itself when it asks for credentials (401; RFC 8489, section 9.2)."""
from __future__ import annotations

import base64
import binascii
import struct
from dataclasses import dataclass
from typing import List, Optional, Tuple

from .. import reasons
from .steps import printable

__all__ = ["Challenge"]

# Attributes (RFC 8489, section 18.3).
_REALM, _NONCE, _ALGORITHMS, _SOFTWARE = 0x0014, 0x0015, 0x8002, 0x8022
_NAMES = {1: "MD5", 2: "SHA-256"}
# The nonce of a server that has more than the long-term mechanism of RFC 5389 begins so, with four characters of Base64 for
# the bits of what it has (RFC 8489, section 9.2.1).
_COOKIE = b"obMatJos2"
# Bits are counted from the least significant one on: the first is for password algorithms, the second for user names that are
# hidden (RFC 8489, section 18.1).
_USER_NAME_ANONYMITY = 1 << 1


@dataclass(frozen=True)
class Challenge:
    """The realm, and how requests may be signed."""

    realm: str
    algorithms: Tuple[str, ...]
    """the password algorithms offered, by name; none where the server knows only that of RFC 5389, MD5"""
    takes_user_hash: bool
    """whether the user name may be hidden (USERHASH)"""
    software: str
    """the server's name for itself, which may be empty"""

    @staticmethod
    def of(packet: bytes) -> Challenge:
        """What an error response says."""
        realm, nonce, software = (reasons.attribute(packet, it) or b"" for it in (_REALM, _NONCE, _SOFTWARE))
        algorithms = reasons.attribute(packet, _ALGORITHMS)
        return Challenge(_text(realm), _algorithms(algorithms), bool(_features(nonce) & _USER_NAME_ANONYMITY), _text(software))


def _algorithms(value: Optional[bytes]) -> Tuple[str, ...]:
    """The algorithms of PASSWORD-ALGORITHMS: each a number, and parameters of this many bytes (RFC 8489, section 14.11)."""
    found: List[str] = []
    while value is not None and len(value) >= 4:
        number, size = struct.unpack_from("!HH", value)
        found.append(_NAMES.get(number, str(number)))
        value = value[4 + (size + 3) // 4 * 4:]
    return tuple(found)


def _features(nonce: bytes) -> int:
    """The 24 bits of the security features in a nonce, or 0 where it has none."""
    if not nonce.startswith(_COOKIE):
        return 0
    try:
        return int.from_bytes(base64.b64decode(nonce[9:13], validate=True), "big")
    except (binascii.Error, ValueError):
        return 0


def _text(value: bytes) -> str:
    return printable(value.decode(errors="replace"))
