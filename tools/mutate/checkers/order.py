"""`order`: the inputs out of a stream are the frames of all that arrives for it, in order, none twice and none left out.

It is seen by the payloads. Those of a stream come in the order of their frames, each once (RFC 8656, section 12.5). A Data
indication of a peer whose IP address has a permission when it is processed is delivered by the time at which `poll_recv` returns
nothing, and so are all bytes of a bound stream of which some are delivered (RFC 6062, section 4.3). It has one where
`permissions` listed it, and nothing since then can have ended it: a response can, as a 403 to the request that was to prolong it
(section 9.2), and so can each call that neither looks, sends nor receives. So is a ChannelData message of a channel whose number
`send` used, until such a call or response. A client that has ended ignores what comes, and a stream that the server has closed
holds nothing.
"""
from . import stun
from .facts import walk
from .given import carried
from .lines import address_in, bytes_in, ip_in

# The calls that take no permission away but by what they process.
KEEPING = ("relayed", "permissions", "have", "send", "transmit", "event", "recv", "poll_recv")


class Listed:
    """The IP addresses that have a permission for certain, when what arrives now is processed."""

    def __init__(self):
        self.ips, self.is_answered = set(), False

    def call(self, call):
        """A call was made, before what arrives by it."""
        if call.name == "relayed" or call.name not in KEEPING:
            self.ips = set()
        elif call.name == "permissions" and not self.is_answered:
            self.ips |= {ip_in(word) for word in call.answer[2:]}

    def arrived(self, one):
        """A response may take permissions away when it is processed: until all is, those that are listed may be of before."""
        if one.message is not None and one.message.kind != stun.INDICATION:
            self.ips, self.is_answered = set(), True

    def emptied(self):
        """All that has arrived is processed."""
        self.is_answered = False


class Used:
    """The peers of the channels that are active for certain when what arrives now is processed, by their numbers."""

    def __init__(self):
        self.peers, self.is_answered = {}, False

    def call(self, call):
        """A call was made, before what arrives by it."""
        if call.name not in KEEPING:
            self.peers = {}
        channel = stun.channel_of(bytes_in(call.answer[4])) if call.name == "send" and call.answer[0] == "send" else None
        if channel is not None and not self.is_answered:
            self.peers[channel[0]] = address_in(call.words[2])

    def arrived(self, one):
        """A response may take channels away when it is processed: until all is, those that are used may be of before."""
        if one.message is not None and one.message.kind != stun.INDICATION:
            self.peers, self.is_answered = {}, True

    def emptied(self):
        """All that has arrived is processed."""
        self.is_answered = False


def is_read(indication):
    """Whether it has neither an attribute that has to be known and is not, nor a peer that cannot be read."""
    return not stun.has_unknown(indication) and len(indication.addresses(stun.PEER)) == len(indication.values(stun.PEER))


class Waiting:
    """What has arrived and was not delivered: payloads of frames, and the bytes of bound streams."""

    def __init__(self):
        self.frames, self.bytes, self.begun = [], {}, set()

    def call(self, call, control):
        """A call was made, before what arrives by it: it may take permissions away, or close a stream."""
        is_closed = call.name == "recv" and not bytes_in(call.words[4])
        if call.name not in KEEPING or is_closed and address_in(call.words[3]) == control:
            self.frames = [(found, False) for found, _ in self.frames]
        elif is_closed:
            self.bytes.pop(address_in(call.words[3]), None)
            self.begun.discard(address_in(call.words[3]))

    def take(self, one, held, ips, peers):
        if one.mode == "bound":
            self.bytes[one.local] = self.bytes.get(one.local, b"") + one.raw
        elif found := carried(one, held):
            channel = stun.channel_of(one.raw)
            is_certain = peers.get(channel[0]) == found[0] if channel else found[0][0] in ips and is_read(one.message)
            self.frames.append((found, is_certain))

    def deliver(self, given, bound):
        """Removes what was delivered, and says what is wrong with it."""
        places = [place for place, (payload, _) in enumerate(self.frames) if payload == given]
        if places:
            skipped, self.frames = self.frames[: places[0]], self.frames[places[0] + 1 :]
            return "a frame before it was left out" if any(is_certain for _, is_certain in skipped) else None
        for local, held in self.bytes.items():
            if bound.get(local) == given[0] and held.startswith(given[1]):
                self.bytes[local] = held[len(given[1]) :]
                self.begun.add(local)
                return None
        return "no frame that arrived and was not delivered yet has these bytes"

    def end(self):
        """Nothing more is to come: what is left, and certain, was left out."""
        is_left = any(is_certain for _, is_certain in self.frames) or any(self.bytes[local] for local in self.begun)
        self.frames, self.bytes, self.begun = [], {}, set()
        return is_left


def faults_of(run):
    waiting, listed, used, last = Waiting(), Listed(), Used(), run.last_open()
    for call, facts in walk(run):
        step = facts.take(call)
        listed.call(call)
        used.call(call)
        waiting.call(call, run.local)
        for one in step.inputs:
            listed.arrived(one)
            used.arrived(one)
            waiting.take(one, step.before, listed.ips, used.peers)
        if call.answer[0] == "data":
            what = waiting.deliver((address_in(call.answer[2]), bytes_in(call.answer[3])), facts.bound)
            if what:
                yield call, what
        elif call.name == "poll_recv":
            listed.emptied()
            used.emptied()
            if waiting.end() and call.number < last:
                yield call, "what had arrived of a permitted peer was left out"


def faults(runs):
    for run in runs:
        if run.transport == "tcp":
            yield from faults_of(run)
