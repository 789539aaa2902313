"""A capture of packets, as Wireshark opens it: what was sent and received, with an IP header and one of UDP or TCP before it.

The file has the format of libpcap with raw IP packets (LINKTYPE_RAW). No packet in it was seen on a network: the headers are made
here, of the addresses of the socket. Over TLS it holds what was in the records, unencrypted.
"""
from __future__ import annotations

import ipaddress
import struct
import threading
from types import TracebackType
from typing import BinaryIO, Dict, Optional, Tuple, Type

from ..wire import Tap, Where

__all__ = ["Capture", "CaptureError"]

_MAGIC, _VERSION, _SNAP, _RAW_IP = 0xA1B2C3D4, (2, 4), 0x40000, 101
_UDP, _TCP, _TTL, _DONT_FRAGMENT = 17, 6, 64, 0x4000
_FIN, _SYN, _PUSH, _ACK = 1, 2, 8, 16
# An IP packet has at most 65,535 bytes, so that a longer piece of a stream is several.
_MAX_PIECE = 65_000


class CaptureError(Exception):
    """The file cannot be written. It is no error of a socket."""


class Capture(Tap):
    """Writes a file. Threads may share it."""

    def __init__(self, file: BinaryIO) -> None:
        self._file, self._lock = file, threading.Lock()
        self._sent: Dict[Tuple[str, str], int] = {}
        """How many bytes went from one end of a connection to the other."""
        self._put(struct.pack("!IHHiIII", _MAGIC, *_VERSION, 0, 0, _SNAP, _RAW_IP))

    def __enter__(self) -> Capture:
        return self

    def __exit__(self, kind: Optional[Type[BaseException]], error: Optional[BaseException], trace: Optional[TracebackType]) -> None:
        self._file.close()

    def datagram(self, source: Where, destination: Where, data: bytes, now: float) -> None:
        """Writes a datagram, with an IP header and one of UDP."""
        ends = _Ends(source, destination)
        head = struct.pack("!HHHH", ends.ports[0], ends.ports[1], 8 + len(data), 0)
        self._write(ends, _UDP, head, 6, data, now)

    def opened(self, local: Where, remote: Where, now: float) -> None:
        """Writes the three segments that open a connection."""
        for source, destination, flags in ((local, remote, _SYN), (remote, local, _SYN | _ACK), (local, remote, _ACK)):
            self._segment(source, destination, b"", flags, now)

    def piece(self, source: Where, destination: Where, data: bytes, now: float) -> None:
        """Writes a piece of a stream, in segments that fit an IP packet."""
        for start in range(0, len(data), _MAX_PIECE):
            self._segment(source, destination, data[start:start + _MAX_PIECE], _PUSH | _ACK, now)

    def ended(self, source: Where, destination: Where, now: float) -> None:
        """Writes the segment that ends one direction of a connection."""
        self._segment(source, destination, b"", _FIN | _ACK, now)

    def _segment(self, source: Where, destination: Where, data: bytes, flags: int, now: float) -> None:
        ends, there, back = _Ends(source, destination), (str(source), str(destination)), (str(destination), str(source))
        with self._lock:
            number, seen = self._sent.get(there, 0), self._sent.get(back, 0) if flags & _ACK else 0
            self._sent[there] = number + len(data) + (1 if flags & (_SYN | _FIN) else 0)
        head = struct.pack("!HHIIBBHHH", *ends.ports, number & 0xFFFFFFFF, seen & 0xFFFFFFFF, 5 << 4, flags, 65535, 0, 0)
        self._write(ends, _TCP, head, 16, data, now)

    def _write(self, ends: _Ends, protocol: int, head: bytes, checksum_at: int, data: bytes, now: float) -> None:
        size = len(head) + len(data)
        checksum = _checksum(ends.pseudo_header(protocol, size) + head + data) or 0xFFFF
        packet = ends.ip_header(protocol, size) + head[:checksum_at] + struct.pack("!H", checksum) + head[checksum_at + 2:] + data
        seconds, micros = divmod(int(now * 1e6), 1_000_000)
        self._put(struct.pack("!IIII", seconds, micros, len(packet), len(packet)) + packet)

    def _put(self, data: bytes) -> None:
        try:
            with self._lock:
                self._file.write(data)
                self._file.flush()
        except OSError as error:
            raise CaptureError(f"the capture cannot be written: {error}") from error


class _Ends:
    """The two ends of a packet, of one IP version."""

    def __init__(self, source: Where, destination: Where) -> None:
        self._ips = [ipaddress.ip_address(str(it[0]).partition("%")[0]) for it in (source, destination)]
        self.ports = int(source[1]), int(destination[1])

    def pseudo_header(self, protocol: int, size: int) -> bytes:
        """What a checksum begins with (RFC 9293, section 3.1; RFC 8200, section 8.1)."""
        return b"".join(it.packed for it in self._ips) + struct.pack("!II", size, protocol)

    def ip_header(self, protocol: int, size: int) -> bytes:
        packed = b"".join(it.packed for it in self._ips)
        if self._ips[0].version == 6:
            return struct.pack("!IHBB", 6 << 28, size, protocol, _TTL) + packed
        front = struct.pack("!BBHHHBB", 0x45, 0, 20 + size, 0, _DONT_FRAGMENT, _TTL, protocol)
        return front + struct.pack("!H", _checksum(front + b"\0\0" + packed)) + packed


def _checksum(data: bytes) -> int:
    """The Internet checksum (RFC 1071)."""
    data += bytes(len(data) % 2)
    total: int = sum(struct.unpack(f"!{len(data) // 2}H", data))
    while total >> 16:
        total = (total & 0xFFFF) + (total >> 16)
    return ~total & 0xFFFF
