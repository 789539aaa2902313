"""`sends`: data for a peer that can be reached is sent as it is, each refusal is true, and nothing else changes.

A peer can be reached where an allocation of its IP version is listed and `permissions` lists its IP address; over TCP a data
connection to it is bound, too (RFC 8656, sections 9 and 11.1; RFC 6062, section 4.3). `have` is true of exactly these IP
addresses. What is listed after a `send` is what was listed before it.
"""
from .facts import walk
from .lines import address_in, ip_in
from .sent import is_for

# The calls after which the same is listed as before.
LOOKS = ("relayed", "permissions", "have", "send")


class Listed:
    """The IP addresses that can be reached, by the lists of the last looks, and those before that are still to be listed."""

    def __init__(self):
        self.addresses, self.lists, self.before = [], {}, None

    def ips(self):
        """Those that are permitted in an allocation of their IP version, or None where not all was looked at."""
        if self.addresses is None or set(self.lists) != set(self.addresses):
            return None
        return {ip for address, ips in self.lists.items() for ip in ips if ip.version == address[0].version}

    def take(self, call):
        """What this call listed that was not listed before, or no longer, though nothing was called that may change it."""
        if call.name not in LOOKS:
            self.addresses, self.lists, self.before = None, {}, None
        elif call.name == "relayed":
            self.before = self.ips() if self.before is None else self.before
            self.addresses, self.lists = [address_in(word) for word in call.answer[3::2]], {}
        elif call.name == "permissions" and self.addresses is not None:
            self.lists[address_in(call.words[2])] = {ip_in(word) for word in call.answer[2:]}
        now = self.ips()
        if call.name not in ("relayed", "permissions") or now is None:
            return set()
        before, self.before = self.before, None
        return set() if before is None else before ^ now


def wrong(call, run, ips, held):
    """What is wrong with the answer of `send` or `have`, while these IP addresses can be reached."""
    where = call.words[2]
    ip = ip_in(where) if call.name == "have" else address_in(where)[0]
    is_reached = call.words[1] == run.relays and ip in ips
    if call.name == "have":
        return None if call.answer == ["yes" if is_reached else "no"] else f"{where} {'can' if is_reached else 'cannot'} be reached"
    if call.answer[0] == "send":
        return None if is_reached and is_for(call, run, held) else f"{where} is sent something else, or cannot be reached"
    if is_reached and (call.words[1] == "udp" or call.answer != ["refused", "no-socket"]):
        return f"{where} can be reached"
    return None if is_reached or call.answer == ["refused", "no-permission"] else f"it is no {call.answer[-1]}"


def faults(runs):
    run, listed = runs[0], Listed()
    for call, facts in walk(run):
        held, ips = facts.take(call).before, listed.ips()
        if call.name in ("send", "have") and ips is not None:
            what = wrong(call, run, ips, held)
            if what:
                yield call, what
        for ip in listed.take(call):
            yield call, f"{ip} became listed, or is no longer, by a call that sends data or looks"
