"""`numbers`: two channels with one number are one channel, be they pending, active or reserved (RFC 8656, section 12)."""
from . import stun
from .facts import CHANNEL, SECOND, TIMEOUT, walk
from .lines import address_in, bytes_in

# neither a number nor its peer is bound again for so long after an expiry, in seconds
RESERVED = 300


class Claims:
    """The peer of each number, and until when it certainly is a channel's."""

    def __init__(self):
        self.held, self.asked, self.sent, self.latest, self.families = {}, {}, set(), 0, set()

    def ask(self, peer, now):
        """The caller requests a channel: it is pending until its request times out."""
        self.asked.setdefault(peer, []).append(now + TIMEOUT)

    def name(self, number, peer):
        """A request names the number for the peer. Returns another peer that has it."""
        held = self.held.get(number)
        if held and held[0] != peer and held[1] > self.latest:
            return held[0]
        if not held or held[0] != peer:
            waiting = self.asked.get(peer, [])
            self.held[number] = (peer, waiting.pop(0) if waiting else 0)
        return None

    def send(self, message):
        """A request for a channel is sent. Returns its number, its peer and another peer that has the number, if it is new and
        its allocation is there: one that waits in the queue or is retransmitted may outlive its channel."""
        number, peer = int.from_bytes(message.first(stun.CHANNEL_NUMBER)[:2], "big"), message.addresses(stun.PEER)[0]
        if message.id in self.sent or peer[0].version not in self.families:
            return None
        self.sent.add(message.id)
        other = self.name(number, peer)
        return (number, peer, other) if other else None

    def list(self, addresses):
        """These allocations are there, and no channel of another family."""
        self.families = {ip.version for ip, _ in addresses}
        self.held = {number: held for number, held in self.held.items() if held[0][0].version in self.families}

    def settle(self, number, peer, until):
        if self.held.get(number, (None, 0))[0] == peer:
            self.held[number] = (peer, until)


def learn(claims, facts, step, now):
    """A signed reply to a request for a channel grants it or refuses it; an allocation that ends takes its channels."""
    for request, message in step.replies:
        if request.message.method == stun.CHANNEL_BIND:
            number = int.from_bytes(request.message.first(stun.CHANNEL_NUMBER)[:2], "big")
            is_granted = message.kind == stun.SUCCESS and message.method == stun.CHANNEL_BIND
            until = now + (CHANNEL + RESERVED) * SECOND if is_granted else 0
            claims.settle(number, request.peer(), min(until, *facts.relayed.values()) if facts.relayed else 0)
        elif request.message.method == stun.REFRESH:
            lifetime = message.number(stun.LIFETIME)
            last = now + (lifetime or 0) * SECOND
            claims.held = {number: (peer, min(until, last)) for number, (peer, until) in claims.held.items()}


def faults(runs):
    claims, used = Claims(), {}
    for call, facts in walk(runs[0]):
        step = facts.take(call)
        claims.latest = max(claims.latest, call.time)
        if call.answer == ["handled"]:
            # it ignores the reply to a request that it has given up
            learn(claims, facts, step, call.time)
        if call.name == "bind" and call.answer == ["ok"]:
            claims.ask(address_in(call.words[2]), call.time)
        if call.name == "relayed":
            claims.list([address_in(word) for word in call.answer[3::2]])
        if step.sent is not None and step.sent.method == stun.CHANNEL_BIND:
            clash = claims.send(step.sent)
            if clash:
                yield call, f"the number {clash[0]:#x} is requested for {clash[1]}, and is that of {clash[2]}"
        if call.name != "send":
            used = {}
        elif call.answer[0] == "send" and (channel := stun.channel_of(bytes_in(call.answer[4]))):
            peer = address_in(call.words[2])
            if used.setdefault(channel[0], peer) != peer:
                yield call, f"data for {peer} and for {used[channel[0]]} go over one channel"
