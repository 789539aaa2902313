"""What the library for C exchanges with its callers, as `yarrowdoor.h` lays it out: its structs, its numbers, its version.

When the header changes, this file follows, and no other.
"""
from __future__ import annotations

import struct
from typing import NamedTuple, NoReturn

# The number is that of the layout, and changes with each change that a compiled program would notice.
NAME = "libyarrowdoor.so.0"

MAX_PACKET = 65556
MAX_OVERHEAD = 64
MAX_TIME = 1 << 62

# struct yarrowdoor_address: IP address, flow, scope, port, family, 0.
ADDRESS = struct.Struct("=16sIIHBB")
NO_ADDRESS = bytes(ADDRESS.size)
# struct yarrowdoor_settings: three waits, their count, whether they are set, transport, that of the allocation, family, the
# other family, algorithm, the other algorithm, anonymous, the limit of challenges, 0, local and remote address, the pause between
# requests, how often something is sent, how long before its expiry a grant is refreshed, 0.
SETTINGS = struct.Struct("=QQQIIIIIIIIIHH28s28sQQQ16x")
NO_PAUSE = (1 << 64) - 1
# struct yarrowdoor_request: time, kind, id, transport, 0, from, to, peer, local.
REQUEST = struct.Struct("=QIIII28s28s28s28s")
# Where its time stands is the first of eight bytes, and its peer is here.
PEER_PLACE = slice(80, 108)
# struct yarrowdoor_answer: the fields of Answer.
ANSWER = struct.Struct("=IIQQQQIIIIBBH28s28s28s16x")
# struct yarrowdoor_message: length, kind, method, class, ID, channel, code, place and length of the reason, and of the realm, the
# mapped address, the alternate one, 0.
MESSAGE = struct.Struct("=QIHH12sHHIIII28s28s8x")
# What an answer has of data in the bytes that were passed in: kind, len, start, peer.
FOUND = struct.Struct("=I12xQQ84x28s")
# The length of what is in the buffer, and how much more there is to read.
LENGTHS = struct.Struct("=16xQ8xQ")

# enum yarrowdoor_request_kind
DELETE, CREATE_PERMISSION, BIND_CHANNEL, TCP_CONNECT, ALLOCATED_TCP_SOCKET, TCP_CLOSED, SEND_TO, RECV = range(1, 9)
POLL_RECV, POLL, POLL_TRANSMIT, POLL_EVENT, PROTOCOL_ERROR, RELAYED_ADDRESSES, PERMISSIONS = range(9, 16)
HAVE_PERMISSION, READ, SET_PERMISSION_KEPT, SET_CHANNEL_KEPT, SEND_HEAD, ABANDON, NEXT_PERMISSION = range(16, 23)

# enum yarrowdoor_kind
OUT_OF_MEMORY, BAD_TIME, BAD_CALL, BAD_PAYLOAD, UNREAD_BYTES, SMALL_BUFFER, REFUSED, DONE, NOTHING = range(1, 10)
WAIT_UNTIL, ALLOCATE_TCP_SOCKET, TCP_CLOSE, CLOSED, PACKET, HANDLED, IGNORED, PEER_DATA, PEER_ICMP = range(10, 19)
BYTES, ADDRESS_IS, YES, NO = range(19, 23)
ALLOCATION_CREATED, ALLOCATION_CREATE_FAILED, PERMISSION_CREATED, PERMISSION_CREATE_FAILED = range(23, 27)
CHANNEL_CREATED, CHANNEL_CREATE_FAILED, TCP_CONNECTED, TCP_CONNECT_FAILED = range(27, 31)
BAD_SETTINGS, BAD_CREDENTIALS, BAD_SEED, PEER_DATA_RANGE = range(31, 35)
MESSAGE_IS, CHANNEL_DATA, NO_FRAME = range(35, 38)
# enum yarrowdoor_transport
UDP, TCP = 0, 1
# Classes of messages.
REQUEST_CLASS, INDICATION_CLASS, SUCCESS_CLASS, ERROR_CLASS = range(4)

_BAD = {
    BAD_TIME: "a time is from 0 to 2^62 nanoseconds",
    BAD_CALL: "there is no such call, transport or address",
    BAD_PAYLOAD: "the data has over 65,504 bytes, and the allocation relays over UDP",
    BAD_SETTINGS: "there are no such settings: a UDP client has no allocation over TCP, for one",
    BAD_CREDENTIALS: "a user name has 1 to 508 bytes, and a password up to 65,535",
    BAD_SEED: "a seed has 32 bytes",
}


def fail(kind: int) -> NoReturn:
    """Raises what an answer means by which nothing was done: `MemoryError`, or `ValueError` for a bad call."""
    if kind == OUT_OF_MEMORY:
        raise MemoryError("a memory allocation of the client failed")
    raise ValueError(_BAD.get(kind, f"the library answered {kind}"))


class Message(NamedTuple):
    """The first frame of some bytes: the fields of `struct yarrowdoor_message`. Places are in these bytes."""

    len: int
    kind: int
    method: int
    message_class: int
    id: bytes
    channel: int
    code: int
    reason_at: int
    reason_len: int
    realm_at: int
    realm_len: int
    mapped: bytes
    alternate: bytes


class Answer(NamedTuple):
    """What a call answered: the fields of `struct yarrowdoor_answer`. Addresses are packed (`ADDRESS`)."""

    kind: int
    error: int
    time: int
    len: int
    start: int
    left: int
    id: int
    transport: int
    family: int
    icmp_data: int
    icmp_type: int
    icmp_code: int
    reserved: int
    from_: bytes
    to: bytes
    peer: bytes
