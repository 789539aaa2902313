"""`events`: each event has its cause in an earlier call.

What is told as created was granted by the signed success to a request for just that. What is told as failed was refused by a
signed reply, expired or timed out at a `poll`, or ended with the client (RFC 8656, sections 7 to 12; RFC 6062, section 4).
"""
from . import stun
from .facts import CHANNEL, PERMISSION, SECOND, TIMEOUT, walk
from .lines import address_in, ip_in


class Causes:
    """The events that the calls up to now may have caused."""

    def __init__(self, run):
        self.allowed, self.due, self.asked = set(), [], set(run.families)

    def allow(self, *event):
        self.allowed.add(event)

    def fails_from(self, time, *event):
        """A `poll` at that time or later may tell that it failed."""
        self.due.append((time, event))

    def poll(self, now):
        self.allowed |= {event for time, event in self.due if time <= now}

    def call(self, call, facts):
        """What the caller requests may time out. The end of a client fails what it still requests."""
        if call.name == "poll":
            self.poll(call.time)
        if call.answer == ["ok"] and call.name in ("permit", "bind"):
            peer = ip_in(call.words[2]) if call.name == "permit" else address_in(call.words[2])
            self.fails_from(call.time + TIMEOUT, "permit-failed", peer if call.name == "permit" else peer[0])
            self.fails_from(call.time + TIMEOUT, "bind-failed", peer)
        if call.answer == ["ok"] and call.name in ("connect", "socket"):
            self.allow("connect-failed", address_in(call.words[1 if call.name == "connect" else 5]))
        for one in facts.run.families if not facts.relayed else []:
            if one in self.asked:
                self.allow("allocate-failed", one)

    def reply(self, request, message, now, is_ignored):
        """A signed reply to a request creates or refuses what was requested."""
        asked, peer = request.message.method, request.peer()
        is_granted = message.kind == stun.SUCCESS
        if asked == stun.ALLOCATE:
            self.allocate(message, is_ignored)
        elif message.method == asked and asked in (stun.CREATE_PERMISSION, stun.CHANNEL_BIND):
            if asked == stun.CHANNEL_BIND:
                self.allow("bound" if is_granted else "bind-failed", peer)
                self.fails_from(now + CHANNEL * SECOND, "bind-failed", peer)
            self.allow("permitted" if is_granted else "permit-failed", peer[0])
            self.fails_from(now + PERMISSION * SECOND, "permit-failed", peer[0])

    def allocate(self, message, is_ignored):
        """The families whose address it brings are requested no more, nor are the others: these fail. A client that had ended
        ignores it, and has all families to report as failed."""
        found = message.addresses(stun.RELAYED) if message.kind == stun.SUCCESS else []
        brought = {str(address[0].version) for address in found}
        for address in found:
            self.allow("allocated", address)
        self.allowed |= {("allocate-failed", one) for one in self.asked - brought}
        if not is_ignored:
            self.asked -= brought
            self.allowed -= {("allocate-failed", one) for one in brought}


def told(call):
    """The event: its name, and what it is about."""
    name, about = call.answer[0], call.answer[-1]
    if name == "allocate-failed":
        return name, about
    return name, ip_in(about) if name in ("permitted", "permit-failed") else address_in(about)


def faults(runs):
    run = runs[0]
    causes = Causes(run)
    for call, facts in walk(run):
        step = facts.take(call)
        for request, message in step.replies:
            causes.reply(request, message, call.time, call.answer == ["ignored"])
        causes.call(call, facts)
        if call.name != "event" or call.answer == ["none"]:
            continue
        event = told(call)
        if event[0] == "connected":
            is_caused = event[1] in facts.bound.values()
        elif event[0] == "connect-failed":
            is_caused = event in causes.allowed or event[1] in [peer for _, peer in facts.sockets.values()]
        else:
            is_caused = event in causes.allowed
        if not is_caused:
            yield call, f"the event {' '.join(call.answer)} has no cause"
