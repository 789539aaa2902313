"""`leaves`: each packet of `transmit` is one that the client has to send, byte for byte, but for its transaction ID.

Unsigned are the first ALLOCATE and the Binding indication. All else is signed under a challenge that came: a response to a
ConnectionAttempt, and requests for an allocation, for 1800 s of one, and for what a call named (RFC 8656, sections 7 to 12;
RFC 6062, sections 4.3 and 4.4). The password makes the key of the integrity. Each other byte is the user name's, the challenge's,
or what the method and the call say, so the password is nowhere else (RFC 8489, section 9.2).
"""
import ipaddress

from . import stun
from .facts import walk
from .lines import address_in, bytes_in, ip_in

BINDING = 1
# REQUESTED-ADDRESS-FAMILY, REQUESTED-TRANSPORT, DONT-FRAGMENT and ADDITIONAL-ADDRESS-FAMILY
FAMILY, RELAYS, DONT_FRAGMENT, MORE_FAMILIES = 0x0017, 0x0019, 0x001A, 0x8000
IPV6 = bytes([2, 0, 0, 0])
# the families that an ALLOCATE requests: IPv4, IPv6, or both
FAMILIES = ([], [(FAMILY, IPV6)], [(MORE_FAMILIES, IPV6)])
LIFETIME = (stun.LIFETIME, (1800).to_bytes(4, "big"))
DELETED = (stun.LIFETIME, bytes(4))
CHANNELS = range(0x4000, 0x5000)
# 400, 446 and 447 (RFC 6062, section 6.3), with their reasons
REFUSALS = (b"\0\0\x04\x00Bad Request", b"\0\0\x04\x2eConnection Already Exists", b"\0\0\x04\x2fConnection Timeout or Failure")
SIGNATURE = (stun.USERNAME, stun.REALM, stun.NONCE, stun.INTEGRITY)


class Named:
    """What the calls up to now named, refused or not."""

    def __init__(self):
        self.ips, self.bound, self.connected, self.opened, self.lifetimes = set(), set(), set(), set(), [[LIFETIME]]

    def call(self, call):
        if call.name == "permit":
            self.ips.add(ip_in(call.words[2]))
        elif call.name == "bind":
            self.bound.add(address_in(call.words[2]))
            self.ips.add(address_in(call.words[2])[0])
        elif call.name == "connect":
            self.connected.add(address_in(call.words[1]))
        elif call.name == "socket" and call.words[6] != "-":
            self.opened.add(int(call.words[1]))
        elif call.name == "delete":
            self.lifetimes = [[LIFETIME], [DELETED]]


def peer(message, ip, port):
    """XOR-PEER-ADDRESS with this address (RFC 8489, section 14.2)."""
    mask = stun.COOKIE + message.id
    hidden = bytes(a ^ b for a, b in zip(ip.packed, mask))
    family = 1 if isinstance(ip, ipaddress.IPv4Address) else 2
    return stun.PEER, bytes([0, family]) + (port ^ 0x2112).to_bytes(2, "big") + hidden


def requests(message, relays, named):
    """The attributes, but for the signature, of the requests that may have this method."""
    method, number = message.method, message.first(stun.CHANNEL_NUMBER) or b""
    if method == stun.ALLOCATE:
        return [[relays, LIFETIME, *families] for families in FAMILIES]
    if method == stun.REFRESH:
        return named.lifetimes
    if method == stun.CREATE_PERMISSION:
        return [[peer(message, ip, 0)] for ip in named.ips]
    if method == stun.CHANNEL_BIND and int.from_bytes(number[:2], "big") in CHANNELS and number[2:] == bytes(2):
        return [[(stun.CHANNEL_NUMBER, number), peer(message, *address)] for address in named.bound]
    if method == stun.CONNECT:
        return [[peer(message, *address)] for address in named.connected]
    if method == stun.CONNECTION_BIND:
        return [[(stun.CONNECTION_ID, number.to_bytes(4, "big"))] for number in named.opened]
    return []


def contents(message, relays, named):
    """The attributes, but for the signature, of the signed messages that may have this class and method."""
    if message.kind == stun.REQUEST:
        return requests(message, relays, named)
    if message.method == stun.CONNECTION_ATTEMPT:
        return {stun.SUCCESS: [[]], stun.ERROR: [[(stun.ERROR_CODE, it)] for it in REFUSALS]}.get(message.kind, [])
    return []


def unsigned(message, relays):
    """The attributes of the messages that may have this class and method, and are not signed."""
    if (message.kind, message.method) == (stun.INDICATION, BINDING):
        return [[]]
    if (message.kind, message.method) == (stun.REQUEST, stun.ALLOCATE):
        return [[LIFETIME, relays, (DONT_FRAGMENT, b""), *families] for families in FAMILIES]
    return []


def written(attributes):
    """The bytes of attributes, with zeros as padding."""
    return b"".join(
        kind.to_bytes(2, "big") + len(value).to_bytes(2, "big") + value + bytes(-len(value) % 4) for kind, value in attributes
    )


def challenge_in(message, sent):
    """Realm and nonce of a challenge to one of these requests, or None."""
    if message is None or message.kind != stun.ERROR or message.code() not in (401, 438) or message.id not in sent:
        return None
    realm, nonce = message.first(stun.REALM), message.first(stun.NONCE)
    return (realm, nonce) if realm is not None and nonce is not None else None


def is_signed(message, signature, run, challenges):
    """Whether this is the signature under one of the challenges; that of a response is its integrity alone."""
    for realm, nonce in challenges:
        user = [(stun.USERNAME, run.user), (stun.REALM, realm), (stun.NONCE, nonce)] if message.kind == stun.REQUEST else []
        if signature[:-1] == user and message.is_signed_with(stun.key_of(run.user, realm, run.password)):
            return True
    return False


def wrong(raw, run, named, challenges):
    """What is wrong with a packet, or None."""
    message = stun.message_of(raw)
    if message is None or written(message.seen) != raw[20:]:
        return "it is no message, or has bytes that are in none of its attributes"
    relays = RELAYS, bytes([{"udp": 17, "tcp": 6}[run.relays], 0, 0, 0])
    if not message.integrity:
        is_known = sorted(message.seen) in [sorted(it) for it in unsigned(message, relays)]
        return None if is_known else "it is not signed, and neither the first ALLOCATE nor a Binding indication"
    content = sorted(it for it in message.seen if it[0] not in SIGNATURE)
    if content not in [sorted(it) for it in contents(message, relays, named)]:
        return f"method {message.method}, class {message.kind}: nobody named what it has"
    signature = sorted((it for it in message.seen if it[0] in SIGNATURE), key=lambda it: SIGNATURE.index(it[0]))
    return None if is_signed(message, signature, run, challenges) else "it is signed under no challenge that came"


def faults(runs):
    run, named, challenges = runs[0], Named(), set()
    for call, facts in walk(run):
        step = facts.take(call)
        if call.name == "transmit" and call.answer[0] == "send":
            what = wrong(bytes_in(call.answer[4]), run, named, challenges)
            if what:
                yield call, what
        named.call(call)
        challenges |= {challenge_in(one.message, facts.requests) for one in step.inputs} - {None}
