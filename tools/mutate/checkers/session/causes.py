"""`causes`: the end has a cause that the calls before show.

The server refused an allocation if it said so by another code than those of credentials, 400 and 401; by those it refused the
credentials, if the ALLOCATE had them. The allocation is forgotten if a response says so with 400, 437 or 441. Three rounds of the
path or of questions without a response end it as unanswered.
"""
from .. import stun
from .seen import event_of, walk

CREDENTIALS = ("400", "401")
FORGOTTEN = ("400", "437", "441")


def fault_of(why, has_credentials):
    """What is wrong with a cause, or none."""
    name, rest = why[0], why[1:]
    is_credentials = has_credentials and bool(rest) and rest[0] in CREDENTIALS
    if name == "refused" and is_credentials:
        return "the credentials are wrong"
    if name == "wrong-credentials" and not is_credentials:
        return "the server refuses"
    if name == "forgotten" and rest[0] not in FORGOTTEN:
        return "the server knows the allocation"
    if name == "unanswered" and rest[0] != "3":
        return "there are three rounds"
    return None


def faults(runs):
    has_credentials = False
    for call, step, _facts, _tickets in walk(runs[0]):
        if step.sent is not None and step.sent.method == stun.ALLOCATE and step.sent.integrity:
            has_credentials = True
        event = event_of(call)
        if event and event[0] in ("ending", "over"):
            wrong = fault_of(event[1:], has_credentials)
            if wrong:
                yield call, f"the cause is {' '.join(event[1:])}, but {wrong}"
