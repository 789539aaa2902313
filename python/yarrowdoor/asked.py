"""The requests that a client has sent, each by its transaction ID, and what the server has answered."""
from __future__ import annotations

import collections
from dataclasses import dataclass
from typing import Dict, NamedTuple, Optional, Union

from . import reasons
from .address import Address
from .counters import Counters
from .errors import ChannelFailed, Hint, PermissionFailed

__all__ = ["About", "Asked", "Key", "Record", "channel", "failure", "key_of", "permission"]

# Whose grant it is: of a permission the IP address, of a channel the peer.
About = Union[str, Address]

# So many requests are remembered, with what was answered: more than a client has permissions and channels.
MAX_REMEMBERED = 16_384


class Key(NamedTuple):
    """What a request is for: its method, and the IP address of a permission, or the peer of a channel or a connection."""

    method: int
    about: Optional[About]


def permission(ip: str) -> Key:
    """What a permission is asked for by."""
    return Key(reasons.CREATE_PERMISSION, ip)


def channel(peer: Address) -> Key:
    """What a channel is asked for by."""
    return Key(reasons.CHANNEL_BIND, peer)


def key_of(about: About) -> Key:
    """What a permission, or a channel, is asked for by."""
    return permission(about) if isinstance(about, str) else channel(about)


def failure(key: Key, hint: Hint) -> Union[PermissionFailed, ChannelFailed]:
    """The refusal of a permission, or of a channel."""
    if isinstance(key.about, str):
        return PermissionFailed(f"no permission for {key.about}", hint)
    return ChannelFailed(f"no channel to {key.about}", hint)


@dataclass
class Asked:
    """The last request of a key that was sent, and what was answered to it."""

    transaction: bytes
    sent: int = 0
    """when it was sent first, as a time of the client"""
    is_repeated: bool = False
    """whether it was sent again"""
    error: Hint = None
    """of the error response, if one was seen"""
    is_granted: bool = False
    """whether a success was seen"""
    lifetime: Optional[int] = None
    """what the success grants, in seconds, if it says that"""


class Record:
    """The last request of each key, and what was answered to it. What the server says is a hint."""

    def __init__(self, counters: Optional[Counters] = None) -> None:
        self._counters = counters or Counters()
        self.allocates = 0
        """How many ALLOCATEs were sent: all but the first one are signed, and may have been granted."""
        self._asked: collections.OrderedDict[Key, Asked] = collections.OrderedDict()
        self._keys: Dict[bytes, Key] = {}

    def sent(self, packet: bytes, now: int = 0) -> Optional[Key]:
        """A packet of the client leaves: if it is a request, its transaction is that of its key from now on. Gives the key of a
        request that was not sent before."""
        message = reasons.read(packet)
        if message is None or not message.is_request:
            return None
        before = self._keys.get(message.transaction)
        if before is not None:
            self._counters.retransmissions += 1
            self._asked[before].is_repeated = True
            return None
        self._counters.requests += 1
        key = _key_of(message, packet)
        self.allocates += key.method == reasons.ALLOCATE
        self.forget(key)
        self._asked[key], self._keys[message.transaction] = Asked(message.transaction, now), key
        if len(self._asked) > MAX_REMEMBERED:
            self.forget(next(iter(self._asked)))
        return key

    def answered(self, message: reasons.Message) -> Optional[Key]:
        """The key of the request that a response belongs to, or None where it belongs to none that is remembered."""
        return self._keys.get(message.transaction) if message.is_response else None

    def last(self, key: Key) -> Optional[Asked]:
        """The last request of this key that was sent."""
        return self._asked.get(key)

    def error_of(self, key: Key) -> Hint:
        """The error that the server has answered to the last request of this key, or None where it has not answered."""
        asked = self._asked.get(key)
        return asked.error if asked is not None else None

    def forget(self, key: Key) -> None:
        """An answer to the last request of this key is none to what is asked from now on."""
        asked = self._asked.pop(key, None)
        if asked is not None:
            del self._keys[asked.transaction]


def _key_of(message: reasons.Message, packet: bytes) -> Key:
    value = reasons.attribute(packet, reasons.XOR_PEER_ADDRESS)
    peer = None if value is None else reasons.xored(value, message.transaction)
    if peer is not None and message.method == reasons.CREATE_PERMISSION:
        return Key(message.method, peer.host)
    return Key(message.method, peer)
