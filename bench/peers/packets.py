"""Compares what the clients send and receive with what they have to, before any of it is timed."""
import struct
from typing import Dict, List, Tuple

from programs import PEERS

COOKIE, FINGERPRINT = 0x2112A442, 0x8028
SEND, XOR_PEER_ADDRESS, DATA = 0x0016, 0x0012, 0x0013
# As client.h and main.c have them.
FIRST_IP, PORT, OTHER_PORT, FIRST_CHANNEL = 0x0A010000, 10000, 10001, 0x4000
PAYLOAD_OUT, PAYLOAD_IN = bytes((5 * i + 1) % 256 for i in range(1200)), bytes((7 * i + 3) % 256 for i in range(1200))

# What each client does; those with the payload in place are in some alone.
ROWS = {"frame_out", "frame_in", "send_out", "data_in"}

# The type of a STUN message, and its attributes by their types.
Message = Tuple[int, List[Tuple[int, bytes]]]


def message(packet: bytes) -> Message:
    """What a STUN message says. It may have FINGERPRINT, and its attributes any order."""
    if len(packet) < 20:
        raise ValueError("no header")
    kind, length, cookie = struct.unpack_from("!HHI", packet)
    if cookie != COOKIE or length != len(packet) - 20 or length % 4:
        raise ValueError("no STUN message")
    found, at = [], 20
    while at < len(packet):
        attribute, size = struct.unpack_from("!HH", packet, at)
        found.append((attribute, packet[at + 4:at + 4 + size]))
        at += 4 + (size + 3) // 4 * 4
    return kind, sorted(it for it in found if it[0] != FINGERPRINT)


def send_indication(ip: int) -> Message:
    """What a Send indication to the peer's other port has to say (RFC 8656, section 11.1)."""
    address = struct.pack("!xBHI", 1, OTHER_PORT ^ COOKIE >> 16, ip ^ COOKIE)
    return SEND, [(XOR_PEER_ADDRESS, address), (DATA, PAYLOAD_OUT)]


def is_right(row: str, text: str, channels: int, names_peer: bool) -> bool:
    """Whether a client with so many channels, of which the middle one is used, has sent or received this. What it received stands
    behind the peer's address, where it tells which that is."""
    middle = channels // 2
    if row.endswith("_in"):
        peer, _, data = text.rpartition(":")
        return data == PAYLOAD_IN.hex() and (peer == f"{FIRST_IP + middle:08x}:{PORT}" or not names_peer)
    packet = bytes.fromhex(text)
    if row.startswith(("frame", "around")):
        return packet == struct.pack("!HH", FIRST_CHANNEL + middle, len(PAYLOAD_OUT)) + PAYLOAD_OUT
    try:
        return message(packet) == send_indication(FIRST_IP + middle)
    except ValueError:
        return False


def compare(name: str, said: Dict[str, str], channels: int) -> None:
    """Ends the program where a client has sent or received something else, or nothing."""
    if not ROWS <= set(said):
        raise SystemExit(f"bench-peers: {name} with {channels} channels lacks one of {', '.join(sorted(ROWS))}")
    for row, text in said.items():
        if not is_right(row, text, channels, PEERS[name].keeps_channels or row == "data_in"):
            raise SystemExit(f"bench-peers: {row} of {name} with {channels} channels is not what it should be:\n{text}")
