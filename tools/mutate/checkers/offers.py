"""`offers`: a data connection is bound for an offer to its peer, which the caller took.

The offer came from the signed success to a CONNECT that an accepted `connect` had asked for, or from a ConnectionAttempt for this
peer, each with the CONNECTION-ID that the CONNECTION_BIND has (RFC 6062, sections 4.3 and 4.4). An indication counts only if the
peer's IP address had a permission, and a request only if it is signed.
"""
from . import stun
from .facts import walk
from .lines import address_in


class Offers:
    """What the server offered, what the caller took, and what is bound."""

    def __init__(self):
        self.asked, self.offered, self.taken, self.bound = set(), set(), {}, {}

    def call(self, call):
        if call.answer == ["ok"] and call.name == "connect":
            self.asked.add(address_in(call.words[1]))
        if call.answer == ["ok"] and call.name == "socket" and call.words[6] != "-":
            self.taken[address_in(call.words[6])] = int(call.words[1]), address_in(call.words[5])

    def attempt(self, one, held, key):
        """A ConnectionAttempt makes an offer."""
        message = one.message
        if one.mode != "control" or message is None or message.method != stun.CONNECTION_ATTEMPT:
            return
        peers, number = message.addresses(stun.PEER), message.number(stun.CONNECTION_ID)
        is_signed = message.kind == stun.REQUEST and key is not None and message.is_signed_with(key)
        if peers and (is_signed or message.kind == stun.INDICATION and peers[0][0] in held.permitted):
            self.offered.add((number, peers[0]))

    def reply(self, request, message):
        """A success to a CONNECT makes an offer, and one to a CONNECTION_BIND binds. Returns what is wrong with that."""
        asked, peer = request.message.method, request.peer()
        if message.kind != stun.SUCCESS or message.method != asked:
            return None
        if asked == stun.CONNECT and peer in self.asked:
            self.offered.add((message.number(stun.CONNECTION_ID), peer))
        if asked == stun.CONNECTION_BIND:
            number, taken = request.message.number(stun.CONNECTION_ID), self.taken.get(request.origin)
            self.bound[request.origin] = taken and taken[1]
            if taken is None or taken[0] != number or taken not in self.offered:
                return f"the connection {number} from {request.origin} is bound, and was not offered and taken so"
        return None


def named(call, run):
    """The peer of a bound data connection that an answer names, and its local address if it names that."""
    if call.name == "event" and call.answer[0] == "connected":
        return None, address_in(call.answer[1])
    if call.name == "recv" and call.answer[0] == "data" and address_in(call.words[3]) != run.local:
        return address_in(call.words[3]), address_in(call.answer[2])
    return None


def faults(runs):
    run, offers = runs[0], Offers()
    for call, facts in walk(run):
        step = facts.take(call)
        offers.call(call)
        for one in step.inputs:
            offers.attempt(one, step.before, facts.key)
        for request, message in step.replies:
            what = offers.reply(request, message)
            if what and call.answer != ["ignored"]:
                yield call, what
        if found := named(call, run):
            local, peer = found
            if peer not in ([offers.bound.get(local)] if local else offers.bound.values()):
                yield call, f"{peer} has a connection, and none was offered for it, taken and bound"
