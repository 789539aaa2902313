"""STUN messages and ChannelData messages, as far as the checkers need them (RFC 8489; RFC 8656; RFC 6062)."""
import functools
import hashlib
import hmac
import ipaddress
from dataclasses import dataclass

COOKIE = bytes.fromhex("2112a442")

ALLOCATE, REFRESH, SEND, DATA = 3, 4, 6, 7
CREATE_PERMISSION, CHANNEL_BIND, CONNECT, CONNECTION_BIND, CONNECTION_ATTEMPT = 8, 9, 10, 11, 12
REQUEST, INDICATION, SUCCESS, ERROR = 0, 1, 2, 3

USERNAME, INTEGRITY, ERROR_CODE, CHANNEL_NUMBER, LIFETIME = 0x0006, 0x0008, 0x0009, 0x000C, 0x000D
PEER, PEER_DATA, REALM, NONCE, RELAYED = 0x0012, 0x0013, 0x0014, 0x0015, 0x0016
INTEGRITY_SHA256, PASSWORD_ALGORITHM, CONNECTION_ID, ICMP = 0x001C, 0x001D, 0x002A, 0x8004


@dataclass
class Message:
    """A STUN message. `seen` are the attributes up to the first integrity: what follows it is not protected by it
    (RFC 8489, section 14.5)."""

    raw: bytes
    method: int
    kind: int
    id: bytes
    seen: list
    integrity: tuple

    def values(self, kind):
        return [value for number, value in self.seen if number == kind]

    def first(self, kind):
        return next(iter(self.values(kind)), None)

    def number(self, kind):
        value = self.first(kind)
        return int.from_bytes(value, "big") if value is not None and len(value) == 4 else None

    def addresses(self, kind):
        return [address for address in (self.address(value) for value in self.values(kind)) if address]

    def address(self, value):
        """The IP address and the port of an XOR address (RFC 8489, section 14.2)."""
        if len(value) not in (8, 20):
            return None
        mask = (COOKIE + self.id)[: len(value) - 4]
        ip = bytes(a ^ b for a, b in zip(value[4:], mask))
        return ipaddress.ip_address(ip), int.from_bytes(value[2:4], "big") ^ 0x2112

    def code(self):
        value = self.first(ERROR_CODE)
        return (value[2] & 7) * 100 + value[3] if value is not None and len(value) >= 4 else None

    def is_response(self):
        return self.kind in (SUCCESS, ERROR)

    def is_signed_with(self, key):
        """Whether its MESSAGE-INTEGRITY is that of this key. Its length field counts up to the end of that attribute."""
        if not self.integrity or self.integrity[0] != INTEGRITY:
            return False
        _, at, value = self.integrity
        return integrity_of(key, self.raw[:2] + (at + 24 - 20).to_bytes(2, "big") + self.raw[4:at]) == value


# each checker reads the same messages
@functools.lru_cache(maxsize=10_000)
def integrity_of(key, text):
    return hmac.new(key, text, hashlib.sha1).digest()


@functools.lru_cache(maxsize=10_000)
def message_of(raw):
    """The message that these bytes are, or None."""
    if len(raw) < 20 or raw[0] & 0xC0 or raw[4:8] != COOKIE or len(raw) != 20 + int.from_bytes(raw[2:4], "big") or len(raw) % 4:
        return None
    word = int.from_bytes(raw[:2], "big")
    method = (word & 0xF) | (word >> 1 & 0x70) | (word >> 2 & 0xF80)
    seen, integrity, at = [], None, 20
    while at < len(raw):
        kind, length = int.from_bytes(raw[at : at + 2], "big"), int.from_bytes(raw[at + 2 : at + 4], "big")
        value = raw[at + 4 : at + 4 + length]
        if len(value) != length:
            return None
        if integrity is None:
            seen.append((kind, value))
            if kind in (INTEGRITY, INTEGRITY_SHA256):
                integrity = (kind, at, value)
        at += 4 + (length + 3) // 4 * 4
    return Message(raw, method, (word >> 4 & 1) | (word >> 7 & 2), raw[8:20], seen, integrity)


def has_unknown(indication):
    """Whether a Data indication has a comprehension-required attribute that is neither peer nor data (RFC 8656, section 11.4)."""
    return any(kind < 0x8000 and kind not in (PEER, PEER_DATA) for kind, _ in indication.seen)


def channel_of(raw):
    """The number and the data of a ChannelData message (RFC 8656, section 12.4), or None."""
    if len(raw) < 4 or not 0x40 <= raw[0] <= 0x4F:
        return None
    length = int.from_bytes(raw[2:4], "big")
    return (int.from_bytes(raw[:2], "big"), raw[4 : 4 + length]) if len(raw) >= 4 + length else None


def frame_length(raw):
    """How many bytes the first frame of a stream has, 0 if it is not whole yet, or -1 if no frame begins so (RFC 8656,
    section 12.5: over TCP ChannelData messages are padded)."""
    if raw and raw[0] & 0x80:
        return -1
    if len(raw) < 4:
        return 0
    length = int.from_bytes(raw[2:4], "big")
    whole = 4 + (length + 3) // 4 * 4 if raw[0] & 0x40 else 20 + length
    return whole if len(raw) >= whole else 0


def key_of(user, realm, password):
    """The long-term key (RFC 8489, section 9.2.2)."""
    return hashlib.md5(b":".join([user, realm, password])).digest()
