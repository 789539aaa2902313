"""Who has rejected a datagram, and how: the message of ICMP that the system keeps for a socket (ip(7), IP_RECVERR)."""
from __future__ import annotations

import contextlib
import os
import socket
import struct
from dataclasses import dataclass
from typing import Optional

__all__ = ["Rejection", "keep_rejections", "rejection_of"]

_IP_RECVERR, _IPV6_RECVERR, _ERROR_QUEUE = 11, 25, 0x2000
# Of the structure `sock_extended_err`: where its message came from, its type and code; and behind it the sender's address.
_HEAD = struct.Struct("=IBBBBII")
_ICMP, _ICMP6 = 2, 3
# Codes of "destination unreachable" (RFC 792; RFC 4443, section 3.1).
_NO_ROUTE = {(_ICMP, 0), (_ICMP6, 0)}


@dataclass(frozen=True)
class Rejection:
    """A message of ICMP that says that a datagram was not delivered."""

    sender: str
    """the IP address of the router, or of the host, that says so"""
    has_no_route: bool
    """whether it says that there is no way to the network"""


def keep_rejections(file: int) -> None:
    """Has the system keep the messages of ICMP for this socket, where it knows how."""
    with contextlib.suppress(OSError), _duplicate(file) as sock:
        is_ipv6 = sock.family == socket.AF_INET6
        sock.setsockopt(socket.IPPROTO_IPV6 if is_ipv6 else socket.IPPROTO_IP, _IPV6_RECVERR if is_ipv6 else _IP_RECVERR, 1)


def rejection_of(file: int) -> Optional[Rejection]:
    """The next of the messages that were kept for this socket, or None where there is none."""
    with contextlib.suppress(OSError), _duplicate(file) as sock:
        for _, _, data in sock.recvmsg(1, 512, _ERROR_QUEUE)[1]:
            found = _parsed(data)
            if found is not None:
                return found
    return None


def _parsed(data: bytes) -> Optional[Rejection]:
    if len(data) < _HEAD.size + 16:
        return None
    _, origin, _, code, _, _, _ = _HEAD.unpack_from(data)
    (family,) = struct.unpack_from("=H", data, _HEAD.size)
    known = {socket.AF_INET: (4, 4), socket.AF_INET6: (8, 16)}.get(family)
    if origin not in (_ICMP, _ICMP6) or known is None:
        return None
    start = _HEAD.size + known[0]
    sender = socket.inet_ntop(family, data[start:start + known[1]])
    return Rejection(sender, (origin, code) in _NO_ROUTE)


def _duplicate(file: int) -> socket.socket:
    """A second descriptor of the same socket."""
    return socket.socket(fileno=os.dup(file))
