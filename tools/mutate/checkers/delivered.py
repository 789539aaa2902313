"""`delivered`: all data of peers is returned, once and in order.

Over UDP the `recv` returns it: that of a Data indication of a peer whose IP address has a permission, and of a ChannelData message
of an active channel (RFC 8656, sections 11.4 and 12.6). Which are active for certain is as the checker of `order` says. Over TCP
all that arrived is returned by the time at which `poll_recv` returns nothing, which that checker sees.
"""
from . import order, stun
from .facts import walk
from .lines import address_in, bytes_in


def brought(one, ips, peers):
    """The peer and the data that the datagram brings for certain, or None."""
    if one.message is None:
        channel = stun.channel_of(one.raw)
        return (peers[channel[0]], channel[1]) if channel is not None and channel[0] in peers else None
    message = one.message
    if (message.kind, message.method) != (stun.INDICATION, stun.DATA) or not order.is_read(message):
        return None
    named, data = message.addresses(stun.PEER), message.values(stun.PEER_DATA)
    return (named[-1], data[-1]) if named and data and named[-1][0] in ips else None


def lost_datagrams(run):
    listed, used, last = order.Listed(), order.Used(), run.last_open()
    for call, facts in walk(run):
        step = facts.take(call)
        listed.call(call)
        used.call(call)
        for one in step.inputs:
            found = brought(one, listed.ips, used.peers)
            given = (address_in(call.answer[2]), bytes_in(call.answer[3])) if call.answer[0] == "data" else None
            if found is not None and call.number < last and given != found:
                yield call, f"{len(found[1])} bytes of {found[0]} were not returned"
            listed.arrived(one)
            used.arrived(one)
        listed.emptied()
        used.emptied()


def faults(runs):
    for run in runs:
        yield from order.faults_of(run) if run.transport == "tcp" else lost_datagrams(run)
