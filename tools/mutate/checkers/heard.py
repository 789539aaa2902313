"""`heard`: each payload is of a peer that was permitted, an ICMP report is about one, and its bytes had been received.

A peer is permitted by the permission of its IP address, by a channel, or by its bound data connection (RFC 8656, sections 9,
11.6 and 12; RFC 6062, section 4.3).
"""
from . import stun
from .facts import walk
from .lines import address_in, bytes_in


def is_reported(one, peer):
    """Whether the input is a Data indication with an ICMP report about this peer (RFC 8656, section 11.6)."""
    message = one.message
    is_icmp = message is not None and message.kind == stun.INDICATION and message.values(stun.ICMP)
    return is_icmp and peer in message.addresses(stun.PEER)


def may_carry(one, peer, held):
    """Whether a payload of this peer may have come by this input."""
    if one.mode == "bound":
        return held.bound.get(one.local) == peer
    if one.message is None:
        channel = stun.channel_of(one.raw)
        return channel is not None and held.channels.get(channel[0]) == peer
    return peer in one.message.addresses(stun.PEER) and peer[0] in held.permitted


def faults(runs):
    for call, facts in walk(runs[0]):
        step = facts.take(call)
        if call.answer[0] == "icmp":
            peer = address_in(call.answer[2])
            if not (peer[0] in step.before.permitted and any(is_reported(one, peer) for one in step.inputs)):
                yield call, f"an ICMP report about {peer} is told, which has no permission"
        if call.answer[0] == "data":
            peer, payload = address_in(call.answer[2]), bytes_in(call.answer[3])
            if not any(may_carry(one, peer, step.before) for one in step.inputs):
                yield call, f"data of {peer} is returned, which is not permitted"
            elif not any(payload in one.raw for one in step.inputs):
                yield call, f"data of {peer} is returned that was not received"
