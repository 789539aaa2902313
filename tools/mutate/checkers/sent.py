"""`sent`: what goes out goes where it should.

Each packet of `transmit` goes to the server over the client's transport: a CONNECTION_BIND from the local address that the
caller named for the connection with its ID, and all else from the control address (RFC 6062, section 4.3). What `send` gives is
for the peer that was named: over its bound data connection, in a ChannelData message of its channel, or in a Send indication
with its address (RFC 8656, sections 11.1 and 12.5).
"""
from . import stun
from .facts import walk
from .lines import address_in, bytes_in


def misdirected(call, run, opened):
    """What is wrong with the way of a packet of `transmit`."""
    origin, to, message = address_in(call.answer[2]), address_in(call.answer[3]), stun.message_of(bytes_in(call.answer[4]))
    if (call.answer[1], to) != (run.transport, run.server):
        return f"it goes to {to}"
    if run.transport == "tcp" and message is not None and message.method == stun.CONNECTION_BIND:
        is_right = (origin, message.number(stun.CONNECTION_ID)) in opened
    else:
        is_right = origin == run.local
    return None if is_right else f"it leaves {origin}"


def is_for(call, run, held):
    """Whether the packet of `send` is for the peer that was named, and carries these data."""
    peer, data, raw = address_in(call.words[2]), bytes_in(call.words[3]), bytes_in(call.answer[4])
    origin, to = address_in(call.answer[2]), address_in(call.answer[3])
    if to != run.server or call.answer[1] != run.transport:
        return False
    if call.words[1] == "tcp":
        return held.bound.get(origin) == peer and raw == data
    if origin != run.local:
        return False
    if (message := stun.message_of(raw)) is not None:
        named = message.addresses(stun.PEER), message.values(stun.PEER_DATA)
        return (message.kind, message.method) == (stun.INDICATION, stun.SEND) and named == ([peer], [data])
    channel = stun.channel_of(raw)
    return channel is not None and held.channels.get(channel[0]) == peer and channel[1] == data


def faults(runs):
    run, opened = runs[0], set()
    for call, facts in walk(run):
        step = facts.take(call)
        if call.name == "socket" and call.answer == ["ok"] and call.words[6] != "-":
            opened.add((address_in(call.words[6]), int(call.words[1])))
        if call.name == "transmit" and call.answer[0] == "send":
            what = misdirected(call, run, opened)
            if what:
                yield call, what
        if call.name == "send" and call.answer[0] == "send" and not is_for(call, run, step.before):
            yield call, f"it is not for {call.words[2]}"
