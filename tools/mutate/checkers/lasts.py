"""`lasts`: a relay stays up while the server grants what is requested.

An accepted `permit` or `bind` is granted once the server's delay is over: so a client that says that it has nothing to send has
sent a request for it, or there is nothing that a server could answer. No `poll` says that a client has ended that has an
allocation, which was not deleted, and which no challenges, no refusal and no time ended (RFC 8656, sections 7 to 9 and 12). In the
whole run a signed success ends its request: it is not retransmitted then (RFC 8489, section 6.2.1), but for the packet that its
retransmissions overtook in the queue.
"""
from collections import Counter

from . import stun
from .facts import LEAST_LIFETIME, SECOND, walk
from .lines import address_in, ip_in

# docs/rattle/MACHINE.md: the pause between two requests, and how many challenges in a row are answered
CADENCE, CHALLENGES = 50_000_000, 9


class Requests:
    """Accepted requests for which nothing was sent yet."""

    def __init__(self):
        self.unsent, self.last_send, self.listed = {}, 0, set()

    def call(self, call, step):
        if call.answer == ["ok"] and call.name in ("permit", "bind"):
            peer = ip_in(call.words[2]) if call.name == "permit" else address_in(call.words[2])
            self.unsent[peer] = call.time
        if step.sent is not None:
            self.last_send = call.time
            peer = next(iter(step.sent.addresses(stun.PEER)), None)
            self.unsent.pop(peer[0] if peer and step.sent.method == stun.CREATE_PERMISSION else peer, None)

    def forgotten(self, call):
        """Those that were made before a call at which nothing is queued, and whose permission is not there."""
        if call.name != "transmit" or call.answer != ["none"] or call.time < self.last_send + CADENCE:
            return []
        asked = [peer for peer, time in self.unsent.items() if time <= call.time]
        return [peer for peer in asked if (peer[0] if isinstance(peer, tuple) else peer) not in self.listed]


class Life:
    """Until when an allocation lasts at least, and what may end the client before."""

    def __init__(self, run):
        self.run, self.until, self.challenges, self.may_end = run, 0, 0, False

    def call(self, call, step):
        self.may_end |= call.answer == ["ok"] and call.name in ("delete", "error")
        # Times may go back: what a later poll has ended is not there again.
        self.may_end |= call.name == "poll" and 0 < self.until <= call.time
        self.challenges += len(step.challenges)
        for request, message in step.replies:
            lifetime = message.number(stun.LIFETIME)
            if message.kind != stun.SUCCESS or message.method != request.message.method or call.answer == ["ignored"]:
                continue
            self.challenges = 0 if request.message.method != stun.ALLOCATE else self.challenges
            if request.message.method == stun.ALLOCATE and lifetime and message.addresses(stun.RELAYED):
                self.until = call.time + lifetime * SECOND
            elif request.message.method == stun.REFRESH and lifetime and lifetime >= LEAST_LIFETIME and len(self.run.families) == 1:
                self.until = call.time + lifetime * SECOND

    def is_on(self, now):
        return now < self.until and not self.may_end and self.challenges <= CHALLENGES


def ends_its_request(request, message):
    """The success grants what was requested: a REFRESH for 600 s or more."""
    asked = request.message.method
    if message.kind != stun.SUCCESS or message.method != asked or asked in (stun.ALLOCATE, stun.CONNECTION_BIND):
        return False
    return asked != stun.REFRESH or (message.number(stun.LIFETIME) or 0) >= LEAST_LIFETIME


def faults(runs):
    run = runs[0]
    requests, life, succeeded, again, last = Requests(), Life(run), set(), Counter(), run.last_open()
    for call, facts in walk(run):
        step = facts.take(call)
        requests.call(call, step)
        life.call(call, step)
        if call.name == "relayed":
            requests.listed = set()
        elif call.name == "permissions":
            requests.listed |= {ip_in(word) for word in call.answer[2:]}
        if step.sent is not None:
            again[step.sent.id] += step.sent.id in succeeded
            if again[step.sent.id] > 1 and call.number < last:
                yield call, "a request is sent again and again whose success had come"
        succeeded |= {request.message.id for request, message in step.replies if ends_its_request(request, message)}
        for peer in requests.forgotten(call) if call.number < last else []:
            yield call, f"nothing is to be sent, and nothing was sent to request {peer}"
        if call.name == "poll" and call.answer == ["closed"] and life.is_on(call.time):
            yield call, "the client has an allocation, and says that it has ended"
