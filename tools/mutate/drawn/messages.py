"""What a server sends (RFC 8489; RFC 8656; RFC 6062)."""
import hashlib
import hmac

from checkers import stun

MAPPED = 0x0020
KINDS = {stun.REQUEST: 0, stun.INDICATION: 0x10, stun.SUCCESS: 0x100, stun.ERROR: 0x110}


def attribute(kind, value):
    return kind.to_bytes(2, "big") + len(value).to_bytes(2, "big") + value + bytes(-len(value) % 4)


def address(kind, ip, port, ident):
    """An XOR address (RFC 8489, section 14.2)."""
    mask = stun.COOKIE + ident
    family = b"\0\1" if ip.version == 4 else b"\0\2"
    return attribute(kind, family + (port ^ 0x2112).to_bytes(2, "big") + bytes(a ^ b for a, b in zip(ip.packed, mask)))


def error(code, phrase=b""):
    return attribute(stun.ERROR_CODE, bytes([0, 0, code // 100, code % 100]) + phrase)


def number(kind, value):
    return attribute(kind, value.to_bytes(4, "big"))


def message(method, kind, ident, attributes, key=None):
    """A message, signed with the key if there is one."""
    word = (method & 0xF) | (method & 0x70) << 1 | (method & 0xF80) << 2 | KINDS[kind]
    body = b"".join(attributes)
    size = len(body) + (24 if key is not None else 0)
    text = word.to_bytes(2, "big") + size.to_bytes(2, "big") + stun.COOKIE + ident + body
    if key is None:
        return text
    return text + attribute(stun.INTEGRITY, hmac.new(key, text, hashlib.sha1).digest())


def channel_data(channel, data, is_padded):
    return channel.to_bytes(2, "big") + len(data).to_bytes(2, "big") + data + bytes(-len(data) % 4 if is_padded else 0)
