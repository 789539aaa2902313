"""Addresses: as users have them, as sockets do, and packed as the library does."""
from __future__ import annotations

import socket
import struct
from typing import Callable, NamedTuple, Tuple, Union

from . import layout as c
from .kept import Kept

__all__ = ["Address", "AddressLike", "ScopedAddress", "SocketAddress", "canonical", "checked_ip", "checked_peer", "of_socket",
           "packed", "packed_ip", "peer_of", "socket_address"]


class Address(NamedTuple):
    """An IP address and a port. It is equal to the plain tuple of both, and prints as `192.0.2.7:9000`."""

    host: str
    """the IP address, as text"""
    port: int

    def __str__(self) -> str:
        return f"[{self.host}]:{self.port}" if ":" in self.host else f"{self.host}:{self.port}"


class ScopedAddress(NamedTuple):
    """An IPv6 address of a socket whose flow or scope is not 0, as a link-local one."""

    host: str
    port: int
    flow: int
    scope: int

    def __str__(self) -> str:
        return f"[{self.host}%{self.scope}]:{self.port}"


# What a socket of this host or of the server has.
SocketAddress = Union[Address, ScopedAddress]
# What calls take.
AddressLike = Union[Tuple[str, int], Tuple[str, int, int, int]]


def _packed(address: AddressLike) -> bytes:
    ip, port, *more = address
    try:
        flow, scope = more if more else (0, 0)
        if ":" not in ip:
            return c.ADDRESS.pack(socket.inet_pton(socket.AF_INET, ip), 0, 0, port, 4, 0)
        return c.ADDRESS.pack(socket.inet_pton(socket.AF_INET6, ip.partition("%")[0]), flow, scope, port, 6, 0)
    except (OSError, ValueError, TypeError, struct.error):
        raise ValueError(f"{tuple(address)!r} is not an IP address with a port") from None


packed: Callable[[AddressLike], bytes] = Kept(_packed).__getitem__
"""An address as the library has it. `ValueError` if it is none."""


def packed_ip(ip: str) -> bytes:
    """An IP address as the library has it, with port 0. `ValueError` if it is none."""
    try:
        return packed((ip, 0))
    except (ValueError, TypeError):
        raise ValueError(f"{ip!r} is not an IP address") from None


def _peer_of(address: bytes) -> Address:
    ip, _, _, port, family, _ = c.ADDRESS.unpack(address)
    return Address(socket.inet_ntop(socket.AF_INET, ip[:4]) if family == 4 else socket.inet_ntop(socket.AF_INET6, ip), port)


peer_of: Callable[[bytes], Address] = Kept(_peer_of).__getitem__
"""The address of a peer, or a relayed one, from the library: these have neither flow nor scope (RFC 8489, section 14.2)."""


def socket_address(address: bytes) -> SocketAddress:
    """The address of a socket from the library. If an answer has none, its host is empty and its port 0."""
    if address == c.NO_ADDRESS:
        return Address("", 0)
    _, flow, scope, _, _, _ = c.ADDRESS.unpack(address)
    found = peer_of(address)
    return ScopedAddress(found.host, found.port, flow, scope) if flow or scope else found


def canonical(host: str) -> str:
    """An IPv6 address in the one form in which addresses are compared (RFC 5952), with its zone; anything else as it is."""
    ip, percent, zone = host.partition("%")
    try:
        return socket.inet_ntop(socket.AF_INET6, socket.inet_pton(socket.AF_INET6, ip)) + percent + zone
    except (OSError, ValueError):
        return host


def checked_peer(peer: AddressLike) -> Address:
    """The address of a peer, with its IP address as the library writes it. `ValueError` if it is none."""
    return peer_of(packed(peer))


def checked_ip(ip: str) -> str:
    """An IP address as the library writes it. `ValueError` if it is none."""
    return peer_of(packed_ip(ip)).host


def of_socket(name: AddressLike) -> SocketAddress:
    """The name of a socket, without flow and scope where both are 0."""
    host, port, *more = name
    flow, scope = more if more else (0, 0)
    return ScopedAddress(host, port, flow, scope) if flow or scope else Address(host, port)
