"""What the lines of a run show: the requests that were sent, the replies that came, and what these granted.

Nothing here is known of a client but its calls and answers. A fact is what a signed success to a request granted that had
been sent: the client may hold less, and never more. Expiries are the latest that are possible.
"""
from dataclasses import dataclass, field

from . import stun
from .lines import address_in, bytes_in

SECOND = 1_000_000_000
# RFC 8656, sections 9 and 12, and the least lifetime that a REFRESH brings (section 7.2), in seconds
PERMISSION, CHANNEL, LEAST_LIFETIME = 300, 600, 600
# RFC 8489, section 6.2.1: how long a response is awaited
TIMEOUT = 39_500_000_000


@dataclass
class Request:
    """A request that was sent."""

    message: stun.Message
    time: int
    origin: tuple
    # the first signed reply, whatever its method
    reply: stun.Message = None

    def peer(self):
        found = self.message.addresses(stun.PEER)
        return found[0] if found else None


@dataclass
class Input:
    """A datagram, a frame of a stream, or bytes of a bound one."""

    local: tuple
    raw: bytes
    message: stun.Message = None
    # how the bytes came: "control", "waiting" or "bound"
    mode: str = "control"


@dataclass
class Held:
    """What permits a peer: the permission of its IP address, its channel, or its bound data connection."""

    permitted: dict
    channels: dict
    bound: dict


@dataclass
class Step:
    """What one call did."""

    # what was held before it
    before: Held
    inputs: list = field(default_factory=list)
    # the requests whose first signed reply came, and those to which a further one came
    replies: list = field(default_factory=list)
    copies: list = field(default_factory=list)
    challenges: list = field(default_factory=list)
    sent: stun.Message = None


class Facts:
    """All that the calls up to now show."""

    def __init__(self, run):
        self.run, self.key, self.realm = run, None, None
        self.requests, self.streams, self.broken = {}, {}, set()
        self.relayed, self.permitted, self.channels = {}, {}, {}
        self.sockets, self.bound = {}, {}

    def take(self, call):
        step = Step(Held(dict(self.permitted), dict(self.channels), dict(self.bound)))
        if call.name == "transmit" and call.answer[0] == "send":
            self.sent(call, step)
        elif call.name == "recv" and address_in(call.words[2]) == self.run.server and call.words[1] == self.run.transport:
            self.received(call, step)
        elif call.name == "socket" and call.answer == ["ok"] and call.words[6] != "-":
            self.sockets[address_in(call.words[6])] = int(call.words[1]), address_in(call.words[5])
        elif call.name == "delete" and call.answer == ["ok"]:
            self.relayed, self.permitted, self.channels = {}, {}, {}
        elif call.wait() is not None:
            self.expire(call.time)
        return step

    def expire(self, now):
        """After a `poll` after which nothing is pending what has expired is gone, but for channels, of which one goes at a time."""
        self.permitted = {ip: until for ip, until in self.permitted.items() if until > now}
        self.relayed = {address: until for address, until in self.relayed.items() if until > now}

    # ---- what is sent

    def sent(self, call, step):
        raw, origin = bytes_in(call.answer[4]), address_in(call.answer[2])
        step.sent = stun.message_of(raw)
        if step.sent is None or step.sent.kind != stun.REQUEST:
            return
        self.requests.setdefault(step.sent.id, Request(step.sent, call.time, origin))
        realm = step.sent.first(stun.REALM)
        if realm is not None and self.key is None:
            self.realm, self.key = realm, stun.key_of(self.run.user, realm, self.run.password)

    # ---- what comes

    def received(self, call, step):
        local, raw = address_in(call.words[3]), bytes_in(call.words[4])
        step.inputs = [Input(local, raw, stun.message_of(raw))] if self.run.transport == "udp" else self.frames(local, raw)
        if self.run.transport == "udp" and local != self.run.local:
            step.inputs = []
        for one in step.inputs:
            if one.message is not None and one.message.is_response() and one.mode != "bound":
                self.answered(one, call, step)

    def frames(self, local, raw):
        """The frames that are whole with this piece of the stream, or all bytes of a bound one."""
        if not raw:
            self.streams.pop(local, None)
            return []
        if local in self.bound:
            return [Input(local, raw, None, "bound")]
        if local in self.broken or local != self.run.local and local not in self.sockets:
            return []
        held, found = self.streams.get(local, b"") + raw, []
        while (length := stun.frame_length(held)) > 0:
            mode = "control" if local == self.run.local else "waiting"
            found.append(Input(local, held[:length], stun.message_of(held[:length]), mode))
            held = held[length:]
        if length < 0:
            self.broken.add(local)
        self.streams[local] = held
        return found

    def answered(self, one, call, step):
        """A response came: whose it is, and what it grants the first time if it is signed."""
        request, message = self.requests.get(one.message.id), one.message
        if request is None or (one.mode == "waiting") != (request.message.method == stun.CONNECTION_BIND):
            return
        if one.mode == "waiting" and request.origin != one.local:
            return
        if self.key is not None and message.is_signed_with(self.key):
            first = request.reply is None
            (step.replies if first else step.copies).append((request, message))
            if first:
                request.reply = message
                self.grant(request, message, one, call)
        elif message.kind == stun.ERROR and message.code() in (401, 438) and message.first(stun.NONCE) is not None:
            step.challenges.append((request, message, one))

    def grant(self, request, message, one, call):
        """What a signed success grants, by what was requested. One that is ignored, since its request was given up, takes no
        channel's number: another channel may have it by now."""
        asked, now = request.message.method, call.time
        if message.kind != stun.SUCCESS or message.method != asked and asked != stun.ALLOCATE:
            return
        lifetime, peer = message.number(stun.LIFETIME), request.peer()
        if asked == stun.ALLOCATE and lifetime is not None:
            for address in message.addresses(stun.RELAYED):
                self.relayed[address] = now + lifetime * SECOND
        elif asked == stun.REFRESH and lifetime is not None and lifetime >= LEAST_LIFETIME:
            for address, until in self.relayed.items():
                self.relayed[address] = max(until, now + lifetime * SECOND)
        elif asked == stun.CREATE_PERMISSION:
            self.permit(peer[0], now)
        elif asked == stun.CHANNEL_BIND:
            self.permit(peer[0], now)
            if call.answer != ["ignored"]:
                self.channels[int.from_bytes(request.message.first(stun.CHANNEL_NUMBER)[:2], "big")] = peer
        elif asked == stun.CONNECTION_BIND and one.local in self.sockets:
            self.bound[one.local] = self.sockets[one.local][1]

    def permit(self, ip, now):
        self.permitted[ip] = max(self.permitted.get(ip, 0), now + PERMISSION * SECOND)


def walk(run):
    """Each call with the facts before it; the caller takes it."""
    facts = Facts(run)
    for call in run.calls:
        yield call, facts
