"""`processed`: only what `recv` and `poll_recv` process activates or prolongs a grant, and only they return data of peers.

A permission is active where `permissions` lists it, and a channel where `send` uses its number. Another call makes neither so:
not the one that requests it, and no `poll`, by which a grant only ends. Nor does one take an allocation or a permission away that
neither polls nor deletes, and over UDP no datagram but a response.
"""
from . import stun
from .facts import walk
from .lines import address_in, bytes_in, ip_in

INPUT = ("recv", "poll_recv")
# The calls that take no permission away, and those of them that may mark an allocation as expired, which is then not listed.
SPARING = ("send", "have", "transmit", "event", "keep", "release", "permit", "bind", "connect")
MARKING = ("permit", "bind", "connect")


def spares(call, step, run):
    """Whether all permissions are there after the call that were there before it."""
    is_answered = any(one.message is not None and one.message.kind != stun.INDICATION for one in step.inputs)
    return call.name in SPARING or call.name == "recv" and run.transport == "udp" and not is_answered


def listed_in(call):
    """What this look lists: the relayed addresses, or the permitted IP addresses of one of them."""
    if call.name == "relayed":
        return "relayed", {address_in(word) for word in call.answer[3::2]}
    return call.words[2], {ip_in(word) for word in call.answer[2:]}


class Active:
    """What was active when it was looked at last, what of it had its success and its time, what was called since, whether that
    spares all permissions, and whether it marks allocations as expired."""

    def __init__(self):
        self.active, self.granted, self.since = {}, {}, None
        self.is_spared, self.is_marked, self.is_looked = False, False, True

    def call(self, call, is_spared):
        """A call was made that does not look."""
        self.is_spared = is_spared and (self.is_spared or self.is_looked)
        self.is_marked = call.name in MARKING or self.is_marked and not self.is_looked
        self.since, self.is_looked = call.name, False

    def lost(self, call):
        """What is listed no longer, though nothing was called that takes it away."""
        self.is_looked = True
        kind, listed = listed_in(call)
        is_sure = self.is_spared and not (kind == "relayed" and self.is_marked)
        return self.active.get(kind, set()) - listed if is_sure else set()

    def look(self, call, facts):
        """What became active by a call that processes no input, or outlived a `poll` after its expiry."""
        kind, listed = listed_in(call)
        known = facts.relayed if kind == "relayed" else facts.permitted
        before, granted = self.active.get(kind, set()), self.granted.get(kind, set())
        self.active[kind], self.granted[kind] = listed, listed & set(known)
        if self.since not in INPUT:
            yield from (one for one in listed if one not in before or one in granted and one not in known)


def faults(runs):
    active = Active()
    for call, facts in walk(runs[0]):
        step = facts.take(call)
        if call.name in ("relayed", "permissions"):
            for one in active.lost(call):
                yield call, f"{one} is no longer active by `{active.since}`, which takes nothing away"
            for one in active.look(call, facts):
                yield call, f"{one} is active by `{active.since}`, which processes no input"
        elif call.name != "have":
            active.call(call, spares(call, step, runs[0]))
        if call.answer[0] == "data" and call.name not in INPUT:
            yield call, "data is returned by a call that processes no input"
        if call.name == "send" and call.answer[0] == "send" and (channel := stun.channel_of(bytes_in(call.answer[4]))):
            if facts.channels.get(channel[0]) != address_in(call.words[2]):
                yield call, f"the channel {channel[0]:#x} is active, and no input granted it"
