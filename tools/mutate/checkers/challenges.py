"""`challenges`: at most nine challenges in a row are answered, and only a signed reply that answers something lowers their count.

Nine is the default limit. The tenth ends the client, which then takes no message (docs/rattle/DECISIONS.md). Challenges to a
CONNECTION_BIND, over its data connection, are not counted.
"""
from .facts import walk

LIMIT = 9


def faults(runs):
    count = 0
    for call, facts in walk(runs[0]):
        step = facts.take(call)
        if call.answer != ["ignored"] and any(message.method == request.message.method for request, message in step.replies):
            count = 0
        if any(one.mode == "control" for _, _, one in step.challenges) and call.answer == ["handled"]:
            count += 1
            # the tenth is processed too: it ends the client
            if count > LIMIT + 1:
                yield call, f"{count} challenges were processed without a signed reply between them"
