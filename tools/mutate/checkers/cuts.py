"""`cuts`: a stream in other pieces has the same payloads, and leaves the same client.

The second run makes the calls of the first with its streams in other pieces, each followed by `poll_recv` until that returns
nothing. All other calls have the same answers, and between two of them the same payloads come. Those of a data connection have
no bounds (RFC 8656, section 12.5; RFC 6062, section 4.3).
"""
from .lines import bytes_in

STREAM = ("recv", "poll_recv")


def parts(run):
    """The calls that pass no bytes in, each with the payloads that came since the one before."""
    is_stream, since, found = run.relays == "tcp", [], []
    for call in run.calls:
        if call.name in STREAM and call.answer[0] == "data":
            peer, payload = call.answer[2], bytes_in(call.answer[3])
            if is_stream and since and since[-1][0] == peer:
                since[-1] = peer, since[-1][1] + payload
            else:
                since.append((peer, payload))
        elif call.name not in STREAM and not call.is_look:
            found.append((call, since))
            since = []
    return found


def faults(runs):
    if len(runs) < 2:
        return
    whole, pieces = parts(runs[0]), parts(runs[1])
    for (call, given), (other, cut) in zip(whole, pieces):
        if given != cut:
            yield other, "other payloads came with the streams in pieces"
        if (call.time, call.words, call.answer) != (other.time, other.words, other.answer):
            yield other, f"it answers {' '.join(other.answer)[:60]}, and {' '.join(call.answer)[:60]} with the streams whole"
            return
    if len(whole) != len(pieces):
        yield (whole + pieces)[-1][0], "the calls are not the same"
