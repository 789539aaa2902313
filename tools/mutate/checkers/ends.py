"""`ends`: `poll` answers `closed` exactly of a client that has ended, and it ends for a cause that the calls show.

Causes are `error`; a response to an ALLOCATE that allocates nothing or cannot be trusted, or none in time; the expiry of each
allocation; a `delete`, once its reply or its time has come; and one challenge more in a row than are answered (RFC 8656, sections
7 and 8; RFC 8489, sections 6.2 and 9.2). After `error`, after a reply that confirms a `delete`, and after `closed` was answered a
client has ended: then `poll` answers so, or has the caller take at once what is pending. No reply confirms a `delete` if since
then a REFRESH of before has succeeded in each allocation, for 600 s or more: these stay (docs/rattle/DECISIONS.md).
"""
from . import stun
from .facts import LEAST_LIFETIME, SECOND, TIMEOUT, walk

# docs/rattle/MACHINE.md: how many challenges in a row are answered; RFC 8656, section 15.6: Allocation Mismatch
CHALLENGES, MISMATCH = 9, 437
VERSIONS = {"4": 4, "6": 6}


class Causes:
    """What may have ended the client up to now."""

    def __init__(self, run):
        self.families = {VERSIONS[word] for word in run.families}
        self.began, self.until, self.challenges, self.may_end = None, 0, 0, False
        self.allocations = 1
        # the ID of the last ALLOCATE, and whether it was answered by what may be no challenge for the client
        self.asked, self.is_in_doubt = None, False
        self.deletions = Deletions()

    def call(self, call, step):
        self.deletions.call(call, step, 1 if self.may_end else self.allocations)
        self.may_end |= call.answer == ["ok"] and call.name in ("delete", "error")
        if step.sent is not None and self.began is None:
            self.began = call.time
        if step.sent is not None and step.sent.method == stun.ALLOCATE and step.sent.id != self.asked:
            self.asked, self.is_in_doubt = step.sent.id, False
        if call.name == "poll":
            # Times may go back: what an earlier poll has ended is not there again.
            ends = self.until if self.until else None if self.began is None else self.began + TIMEOUT
            self.may_end |= ends is not None and ends <= call.time
        self.challenges += len(step.challenges)
        self.may_end |= self.challenges > CHALLENGES
        if not self.until:
            self.allocates(call, step)
        elif call.answer != ["ignored"]:
            self.refreshes(call, step)

    def allocates(self, call, step):
        """Each response that allocates nothing, and is no challenge, may end the client."""
        for request, message in step.replies:
            lifetime, is_success = message.number(stun.LIFETIME), message.kind == stun.SUCCESS
            families = {ip.version for ip, _ in message.addresses(stun.RELAYED)} & self.families
            if request.message.method == message.method == stun.ALLOCATE and is_success and lifetime and families:
                self.until, self.allocations = call.time + lifetime * SECOND, len(families)
        responses = sum(one.message is not None and one.message.is_response() for one in step.inputs)
        self.may_end |= not self.until and responses > len(step.challenges)
        self.is_in_doubt |= bool(step.challenges)

    def refreshes(self, call, step):
        for request, message in step.replies:
            lifetime = message.number(stun.LIFETIME) or 0
            if message.kind != stun.SUCCESS or message.method != request.message.method:
                continue
            self.challenges = 0
            if message.method == stun.REFRESH and lifetime >= LEAST_LIFETIME:
                granted = call.time + lifetime * SECOND
                self.until = granted if len(self.families) == 1 else min(self.until, granted)


class Deletions:
    """The REFRESHes of 0 seconds, and which of them a reply still confirms for certain."""

    def __init__(self):
        # by `delete`: the least number of allocations that it was for, and how many refreshes have succeeded since
        self.left, self.refreshed = [], []
        # the IDs of those that were sent, in this order, and how many challenges to them came: each is sent again for one
        self.ids, self.again = [], 0

    def call(self, call, step, allocations):
        if call.name == "delete" and call.answer == ["ok"]:
            self.left.append(allocations)
            self.refreshed.append(0)
        if step.sent is not None and is_deletion(step.sent) and step.sent.id not in self.ids:
            self.ids.append(step.sent.id)
        self.again += sum(is_deletion(request.message) for request, _, _ in step.challenges)
        for request, message in step.replies:
            if is_prolonged_by(request, message):
                self.refreshed = [it + 1 for it in self.refreshed]

    def are_confirmed(self, request):
        """Whether a reply to this request says that all is deleted. It was made by the `delete` at its place, or by a later one."""
        place = max(0, self.ids.index(request.message.id) - self.again)
        return place < len(self.left) and self.refreshed[place] < min(self.left[place:])


def is_deletion(message):
    return message.kind == stun.REQUEST and message.method == stun.REFRESH and message.number(stun.LIFETIME) == 0


def is_prolonged_by(request, message):
    """Whether an allocation lasts for 600 s or more with this reply."""
    is_refresh = request.message.method == message.method == stun.REFRESH and not is_deletion(request.message)
    return is_refresh and message.kind == stun.SUCCESS and (message.number(stun.LIFETIME) or 0) >= LEAST_LIFETIME


def has_ended(call, step, deletions):
    """Whether the client has ended for certain by this call."""
    if call.name == "error" or call.name == "poll" and call.answer == ["closed"]:
        return True
    if call.answer != ["handled"] or len(step.inputs) != 1:
        return False
    deletes = [message for request, message in step.replies if is_deletion(request.message) and message.method == stun.REFRESH and
               deletions.are_confirmed(request)]
    return any(message.kind == stun.SUCCESS or message.code() == MISMATCH for message in deletes)


def faults(runs):
    run = runs[0]
    causes, is_over = Causes(run), False
    for call, facts in walk(run):
        step = facts.take(call)
        causes.call(call, step)
        if call.name == "poll" and call.answer == ["closed"] and not (causes.may_end or causes.is_in_doubt and not causes.until):
            yield call, "it has ended, and nothing has ended it"
        if is_over and (call.wait() is not None or call.name == "poll" and call.answer[0] == "socket"):
            yield call, f"it has ended, and answers {call.answer[0]}"
        is_over |= has_ended(call, step, causes.deletions)
