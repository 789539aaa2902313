"""A server that is drawn by a seed: it signs, refuses, is silent, forgets, and forges for others what nobody signed."""
import ipaddress

from checkers import stun

from . import messages

REALM = b"realm"
BINDING = 1
# The codes of refusals, those of requests for permissions, channels and data connections.
REFUSALS = [403, 486, 508, 446, 447]
UNSURE = [400, 437, 441, 500]


class Server:
    """Answers requests by what is drawn of `rng`. `manner` says how often it does what it may do."""

    def __init__(self, rng, head, manner):
        self.rng, self.head, self.manner = rng, head, manner
        self.key = stun.key_of(head.user, REALM, head.password)
        self.nonce, self.seen, self.is_allocated = b"nonce0", {}, False
        self.mapped = ipaddress.ip_address("203.0.113.7"), 51000
        self.connections = 0
        # whether it answers at all, and whether it has forgotten the allocation
        self.is_silent = self.has_forgotten = False
        self.channels = {}

    def lot(self, name):
        return self.rng.random() < self.manner.get(name, 0)

    def answers(self, raw):
        """The messages that answer a packet, one after the other: none, one, or some that others forged before it."""
        request = stun.message_of(raw)
        if request is None or request.kind != stun.REQUEST or self.is_silent or self.lot("loss"):
            return []
        if request.id not in self.seen:
            self.seen[request.id] = self.answer(request)
        found = [self.seen[request.id]] if self.seen[request.id] is not None else []
        if self.lot("forged"):
            code = self.rng.choice(REFUSALS + UNSURE + [401, 438])
            found.insert(self.rng.randrange(len(found) + 1), self.refusal(request, code, None))
        return found + found[-1:] * self.lot("copies")

    def refusal(self, request, code, key, *more):
        phrase = self.rng.choice([b"", b"no", b"Forbidden"])
        return messages.message(request.method, stun.ERROR, request.id, [messages.error(code, phrase), *more], key)

    def challenge(self, request, code):
        more = [messages.attribute(stun.REALM, REALM), messages.attribute(stun.NONCE, self.nonce)]
        return self.refusal(request, code, None, *more)

    def success(self, request, *attributes):
        return messages.message(request.method, stun.SUCCESS, request.id, attributes, self.key)

    def answer(self, request):
        if request.method == BINDING:
            if self.manner.get("no binding"):
                return None
            mapped = messages.address(messages.MAPPED, *self.mapped, request.id)
            return messages.message(BINDING, stun.SUCCESS, request.id, [mapped])
        if not request.integrity:
            return self.challenge(request, 401)
        if self.lot("stale"):
            self.renew_nonce()
        if request.first(stun.NONCE) != self.nonce:
            return self.challenge(request, 438)
        if request.method == stun.ALLOCATE:
            return self.allocated(request)
        if self.has_forgotten:
            return self.refusal(request, 437, self.key)
        if request.method == stun.REFRESH:
            return self.refreshed(request)
        if self.lot("refusal"):
            return self.refusal(request, self.rng.choice(REFUSALS), self.key)
        if self.lot("unsure"):
            return self.refusal(request, self.rng.choice(UNSURE), self.key)
        if self.lot("silence"):
            return None
        return self.granted(request)

    def renew_nonce(self):
        self.nonce = b"nonce%d" % self.rng.randrange(10**6)

    def allocated(self, request):
        if self.lot("no allocation"):
            return self.refusal(request, self.rng.choice([400, 401, 403, 486, 508, 437, 442]), self.rng.choice([self.key, None]))
        self.is_allocated = True
        family = request.first(0x0017) or request.first(0x8000)
        families = [6 if family and family[0] == 2 else 4]
        if request.first(0x8000):
            families = [4, 6]
        found = [messages.number(stun.LIFETIME, self.manner["lifetime"])]
        for one in families:
            ip = "10.0.0.4" if one == 4 else "2001:db8::4"
            found.append(messages.address(stun.RELAYED, ipaddress.ip_address(ip), 40000, request.id))
        return self.success(request, *found, messages.address(messages.MAPPED, *self.mapped, request.id))

    def refreshed(self, request):
        if request.number(stun.LIFETIME) == 0:
            self.is_allocated = False
            return self.success(request, messages.number(stun.LIFETIME, 0))
        if self.lot("short"):
            return self.success(request, messages.number(stun.LIFETIME, 300))
        if self.lot("refusal"):
            return self.refusal(request, self.rng.choice(REFUSALS), self.key)
        return self.success(request, messages.number(stun.LIFETIME, self.manner["lifetime"]))

    def granted(self, request):
        if request.method == stun.CONNECT:
            self.connections += 1
            return self.success(request, messages.number(stun.CONNECTION_ID, self.connections))
        if request.method == stun.CHANNEL_BIND:
            self.channels[int.from_bytes(request.first(stun.CHANNEL_NUMBER)[:2], "big")] = request.addresses(stun.PEER)[0]
        return self.success(request)

    def data_of(self, peer, data):
        """A Data indication from this peer, or ChannelData if it has a channel and the lot falls so."""
        channel = next((it for it, one in self.channels.items() if one == peer), None)
        if channel is not None and self.rng.random() < 0.5:
            return messages.channel_data(channel, data, self.head.transport == "tcp")
        ident = bytes(self.rng.randrange(256) for _ in range(12))
        attributes = [messages.address(stun.PEER, *peer, ident), messages.attribute(stun.PEER_DATA, data)]
        return messages.message(stun.DATA, stun.INDICATION, ident, attributes)
