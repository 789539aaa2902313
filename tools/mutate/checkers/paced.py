"""`paced`: requests that are timed from their first copies leave in their turn (RFC 8489, section 6.2.1).

No request leaves for the first time, and no indication, within the pause after another packet that is no reply, unless a call
between the two was made at an earlier time. No request leaves for the first time once the client has ended, since its grants are
gone. And of no permission or channel it is told that it failed before a request for it has left.
"""
from . import stun
from .lines import address_in, bytes_in, ip_in

# The pause of a client whose caller sets no other.
PAUSE = 50_000_000


class Sent:
    """What has left: when the last packet did that began a pause, and which requests, for which peers."""

    def __init__(self):
        self.last, self.ids, self.peers, self.has_ended = None, set(), set(), False

    def is_first(self, message):
        """Whether this packet is a request that leaves for the first time."""
        return message.kind == stun.REQUEST and message.id not in self.ids

    def is_early(self, call, message):
        """Whether this packet is an indication, or a request that leaves for the first time, within the pause."""
        waits = message.kind == stun.INDICATION or self.is_first(message)
        return waits and self.last is not None and call.time < self.last + PAUSE

    def note(self, call, message):
        if message.kind == stun.REQUEST:
            self.ids.add(message.id)
            if message.method in (stun.CREATE_PERMISSION, stun.CHANNEL_BIND):
                self.peers.update(ip for ip, _port in message.addresses(stun.PEER))
        if message.kind in (stun.REQUEST, stun.INDICATION):
            self.last = call.time


def failed_peer(call):
    """The IP address of the peer whose permission or channel failed, as this event tells."""
    if call.name != "event" or call.answer[0] not in ("permit-failed", "bind-failed"):
        return None
    word = call.answer[2]
    return ip_in(word) if call.answer[0] == "permit-failed" else address_in(word)[0]


def faults(runs):
    run, sent = runs[0], Sent()
    if not run.timed_from_send:
        return
    for call in run.calls:
        if sent.last is not None and call.time < sent.last and not call.is_look:
            sent.last = None
        peer = failed_peer(call)
        if peer is not None and peer not in sent.peers:
            yield call, f"{call.answer[0]} is told of {peer}, for which no request has left"
        if call.name == "poll" and call.answer[0] == "closed":
            sent.has_ended = True
        if call.name != "transmit" or call.answer[0] != "send":
            continue
        message = stun.message_of(bytes_in(call.answer[4]))
        if message is None:
            yield call, "the packet is no message"
            continue
        if sent.is_early(call, message):
            yield call, f"a packet leaves {call.time - sent.last} ns after the one before it"
        if sent.has_ended and sent.is_first(message):
            yield call, "a request leaves for the first time though the client has ended"
        sent.note(call, message)
