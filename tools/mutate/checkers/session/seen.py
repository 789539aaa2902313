"""What the lines of a session show: the tickets of its caller, the events, and which requests were for what."""
from .. import stun
from ..facts import Facts
from ..lines import address_in, word_of

ASKS = ("request", "request-for-data", "send")


def key_asked(call):
    """What a call requests: data for a peer requests its permission."""
    if call.name == "send":
        return f"permission {word_of(address_in(call.words[2])[0])}"
    return " ".join(call.words[1:3])


def event_of(call):
    """The words of an event, or none."""
    return call.answer if call.name == "event" and call.answer != ["none"] else None


class Tickets:
    """The tickets that were given for requests: those that still wait for their outcomes, by key, and all keys by ticket."""

    def __init__(self):
        self.waiting, self.keys, self.told = {}, {}, {}

    def take(self, call):
        event = event_of(call)
        if call.name in ASKS and call.answer[0] == "ticket":
            self.waiting[key_asked(call)] = int(call.answer[1])
            self.keys[int(call.answer[1])] = key_asked(call)
        elif event and event[0] == "outcome":
            self.told[int(event[1])] = event
            self.waiting.pop(" ".join(event[2:4]), None)


def keys_of(message):
    """What a request of the client is for, by its peers: a permission is also that of a channel's or a connection's peer."""
    peers = message.addresses(stun.PEER)
    if message.method == stun.CREATE_PERMISSION:
        return [f"permission {word_of(ip)}" for ip, _ in peers]
    kind = {stun.CHANNEL_BIND: "channel", stun.CONNECT: "connect"}.get(message.method)
    return [f"{kind} {word_of(ip)}:{port}" for ip, port in peers] if kind else []


def ip_of(key):
    """The IP address of a key's peer, as a word."""
    kind, word = key.split(" ")
    return word if kind == "permission" else word.rpartition(":")[0]


def walk(run):
    """Each call with what it did, the facts and the tickets after it."""
    facts, tickets = Facts(run), Tickets()
    for call in run.calls:
        step = facts.take(call)
        tickets.take(call)
        yield call, step, facts, tickets
