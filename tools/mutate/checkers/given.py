"""`given`: the payload that a call returns is what one of its inputs carries, whose sender is permitted.

A Data indication needs a permission of the peer's IP address, a ChannelData message the channel of its number, and other
bytes a bound stream (RFC 8656, sections 11.4 and 12.6; RFC 6062, section 4.3). What permits an input came in an earlier call.
"""
from . import stun
from .facts import walk
from .lines import address_in, bytes_in


def carried(one, held):
    """The peer and the payload of an input, if the peer is permitted."""
    if one.mode == "bound":
        return held.bound[one.local], one.raw
    if one.mode == "waiting":
        return None
    if one.message is None:
        channel = stun.channel_of(one.raw)
        return (held.channels[channel[0]], channel[1]) if channel and channel[0] in held.channels else None
    peers, data = one.message.addresses(stun.PEER), one.message.values(stun.PEER_DATA)
    is_data = one.message.kind == stun.INDICATION and one.message.method == stun.DATA
    return (peers[-1], data[-1]) if is_data and peers and data and peers[-1][0] in held.permitted else None


def faults(runs):
    for call, facts in walk(runs[0]):
        step = facts.take(call)
        if call.answer[0] == "data":
            given = address_in(call.answer[2]), bytes_in(call.answer[3])
            if given not in [carried(one, step.before) for one in step.inputs]:
                yield call, f"data of {given[0]} is returned that no input of a permitted peer carries"
