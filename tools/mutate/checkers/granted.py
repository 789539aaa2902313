"""`granted`: each active allocation and permission has the signed success to an own request, and its expiry is that success's.

What is active is read off `relayed`, `permissions`, `have` and the packets of `send` (RFC 8656, sections 7.3, 10.3 and 11).
"""
from .facts import walk
from .lines import address_in, ip_in


def claimed(call):
    """The relayed addresses and the permitted IP addresses of which the answer says that they are active."""
    if call.name == "relayed":
        return [address_in(word) for word in call.answer[3::2]], []
    if call.name == "permissions":
        return [], [ip_in(word) for word in call.answer[2:]]
    if call.name == "have" and call.answer == ["yes"]:
        return [], [ip_in(call.words[2])]
    if call.name == "send" and call.answer[0] == "send":
        return [], [address_in(call.words[2])[0]]
    return [], []


def faults(runs):
    for call, facts in walk(runs[0]):
        facts.take(call)
        relayed, permitted = claimed(call)
        for address in relayed:
            if address not in facts.relayed:
                yield call, f"the relayed address {address[0]} is active without a success, or past its lifetime"
        for ip in permitted:
            if ip not in facts.permitted:
                yield call, f"{ip} has a permission without a success, or past its 300 s"
