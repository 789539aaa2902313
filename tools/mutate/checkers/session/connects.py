"""`connects`: a data connection requests the permission of its peer first (RFC 6062, section 4.3).

A CONNECT leaves only for a peer whose permission was granted, and no request of a data connection ends since there was none.
"""
from .. import stun
from .seen import event_of, walk


def faults(runs):
    granted = set()
    for call, step, _facts, _tickets in walk(runs[0]):
        for request, message in step.replies:
            if request.message.method == stun.CREATE_PERMISSION and message.kind == stun.SUCCESS:
                granted.update(ip for ip, _ in request.message.addresses(stun.PEER))
        message = step.sent
        if message is not None and message.kind == stun.REQUEST and message.method == stun.CONNECT:
            for ip, _ in message.addresses(stun.PEER):
                if ip not in granted:
                    yield call, f"a CONNECT leaves for {ip}, whose permission was not granted"
        event = event_of(call)
        if event and event[0] == "outcome" and event[2] == "connect" and event[4:] == ["not-made", "no-permission"]:
            yield call, f"the data connection to {event[3]} was not requested, since there is no permission"
        if call.name == "request" and call.words[1] == "connect" and call.answer == ["refused", "no-permission"]:
            yield call, f"the data connection to {call.words[2]} was refused, since there is no permission"
