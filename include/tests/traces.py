#!/usr/bin/env python3
"""usage: traces.py OUT [COUNT]

Writes traces into the folder OUT/traces, a file each: those of the repository (the transcripts, but for the streams that
are cut at each place, the programs' inputs and the pages' examples), and COUNT that are drawn from them, 1,000 unless told
otherwise. The answers that a transcript says are in a file of the same name in OUT/answers, if all its lines are calls.

A drawn trace begins as one of the repository, so that its client has what the server granted. Then calls are changed,
left out, repeated and added, and bytes of packets flipped and cut. The same traces are drawn each time.
"""
import importlib.machinery
import importlib.util
import pathlib
import random
import re
import sys

ROOT = pathlib.Path(__file__).resolve().parent.parent.parent
PROGRAM = "turn_replay"
HEAD = re.compile(r"^(udp|tcp) \S+:\d+ \S+:\d+ (udp|tcp) ")
ADDRESSES = ["10.0.0.3:9000", "10.0.0.3:9001", "10.0.0.2:2000", "192.168.0.1:1000", "192.168.0.1:1001",
             "10.0.0.4:40000", "[00000000000000000000000000000001]:40000", "[20010db8000000000000000000000001]:9000"]
TRANSPORTS = ["udp", "udp", "tcp"]


def transcripts():
    """The traces of the transcripts, each with its answers, or with None if a line of it is bad."""
    path = str(ROOT / "tools" / "check" / "transcripts")
    loader = importlib.machinery.SourceFileLoader("transcripts", path)
    module = importlib.util.module_from_spec(importlib.util.spec_from_loader("transcripts", loader))
    # Its dataclass looks itself up there.
    sys.modules[module.__name__] = module
    sys.dont_write_bytecode = True
    loader.exec_module(module)
    for file in sorted(it for it in module.FOLDER.glob("*/*.txt") if it.parent.name not in ("states", "cuts")):
        for case in module.cases_of(file):
            trace = case.trace()
            answers, status = case.wanted(PROGRAM)
            # The package for Python reads texts.
            if PROGRAM in case.programs and (is_text(trace)):
                yield trace.decode(), "".join(f"{line}\n" for line in answers) if status == 0 else None


def is_text(data):
    try:
        data.decode()
        return True
    except UnicodeDecodeError:
        return False


def pages():
    """The traces in the pages and beside the programs."""
    for page in [ROOT / "README.md", *sorted((ROOT / "docs").rglob("*.md"))]:
        block = []
        for line in [*page.read_text().split("\n"), ""]:
            line = line.strip()
            if HEAD.match(line):
                block = [line]
            elif block and re.match(r"\d+ [a-z_]+( |$)", line):
                block.append(line)
            elif block:
                yield "".join(f"{line}\n" for line in block)
                block = []
    for program in ("turn_replay", "turn_live"):
        yield (ROOT / "crates" / program / "stdin").read_text()


def drawn_bytes(draw, text):
    """Bytes in hexadecimal, changed."""
    data = bytearray.fromhex(text if text != "-" else "")
    for _ in range(draw.choice([0, 1, 1, 2, 5])):
        at = draw.randrange(len(data) + 1)
        way = draw.randrange(4)
        if way == 0 and at < len(data):
            data[at] ^= 1 << draw.randrange(8)
        elif way == 1:
            data[at:at] = bytes(draw.randrange(256) for _ in range(draw.choice([1, 4, 20])))
        elif way == 2:
            del data[at:at + draw.choice([1, 4, 20])]
        else:
            data += data[at:]
    return bytes(data[:4000]).hex() or "-"


def drawn_call(draw, now, relayed, packets):
    """A call with arguments of its own."""
    address, peer = draw.choice(ADDRESSES), draw.choice(ADDRESSES[:2])
    ip = address.rsplit(":", 1)[0]
    carried = draw.choice(TRANSPORTS) if draw.random() < 0.2 else relayed
    sent = "".join(f"{draw.randrange(256):02x}" for _ in range(draw.choice([0, 1, 5, 300]))) or "-"
    packet = draw.choice(packets) if packets else "recv udp 10.0.0.2:2000 192.168.0.1:1000 00"
    name, way, source, to, data = packet.split(" ")
    return f"{now} " + draw.choice([
        "poll", "poll", "transmit", "transmit", "event", "poll_recv", "relayed",
        f"send {carried} {peer} {sent}", f"send {carried} {address} {sent}",
        f"permit {carried} {ip}", f"bind {carried} {address}", f"connect {address}",
        f"socket {draw.randrange(12)} {way} {to} {source} {peer} {draw.choice([*ADDRESSES[3:5], '-'])}",
        f"permissions {carried} {draw.choice(ADDRESSES[5:7])}", f"have {carried} {ip}",
        f"closed {draw.choice(ADDRESSES[3:5])} {source}", draw.choice(["delete", "error", "poll"]),
        f"{name} {way} {source} {to} {drawn_bytes(draw, data)}", f"{name} {way} {source} {to} {data}",
        f"{name} {way} {source} {to} {draw.choice(['-', '40000005' + '68656c6c6f000000', '4000ffff00'])}",
    ])


def cut_packet(draw, line):
    """A packet in two pieces, where it is one of a stream."""
    fields = line.split(" ")
    if len(fields) != 6 or fields[1:3] != ["recv", "tcp"] or len(fields[5]) < 4:
        return [line]
    at = 2 * draw.randrange(1, len(fields[5]) // 2)
    front, now = " ".join(fields[:5]), fields[0]
    return [f"{front} {fields[5][:at]}", f"{now} poll_recv", f"{front} {fields[5][at:]}", f"{now} poll_recv"]


def drawn(draw, traces):
    head, *calls = draw.choice(traces).rstrip("\n").split("\n")
    relayed = head.split(" ")[3]
    packets = [line.split(" ", 1)[1] for line in calls if " recv " in line]
    lines, now, late = [], 0, 0
    for line in calls:
        way = draw.random()
        now = int(line.split(" ")[0])
        if way < 0.02:
            late += draw.choice([1, 10**9, 3 * 10**11, 10**12])
        elif way < 0.04:
            continue
        elif way < 0.08:
            lines.append(f"{now + late} {line.split(' ', 1)[1]}")
        elif way < 0.14:
            lines.append(drawn_call(draw, now + late, relayed, packets))
        again = f"{now + late} {line.split(' ', 1)[1]}"
        lines += cut_packet(draw, again) if draw.random() < 0.3 else [again]
    for _ in range(draw.choice([5, 20, 60])):
        late += draw.choice([0, 0, 0, 5 * 10**7, 10**9, 6 * 10**10, 5 * 10**11])
        lines.append(drawn_call(draw, now + late, relayed, packets))
    return "".join(f"{line}\n" for line in [head, *lines])


def main():
    out, count = pathlib.Path(sys.argv[1]), int(sys.argv[2]) if len(sys.argv) > 2 else 1000
    for folder in ("traces", "answers"):
        (out / folder).mkdir(parents=True, exist_ok=True)
    told = dict(transcripts())
    answers = {trace: text for trace, text in told.items() if text is not None}
    traces = list(dict.fromkeys([*told, *pages()]))
    good = [it for it in dict.fromkeys([*answers, *pages()]) if HEAD.match(it) and len(it) < 20000]
    for number, trace in enumerate(traces):
        (out / "traces" / f"repository-{number:04}").write_bytes(trace.encode())
        if trace in answers:
            (out / "answers" / f"repository-{number:04}").write_bytes(answers[trace].encode())
    draw = random.Random("yarrowdoor")
    for number in range(count):
        (out / "traces" / f"drawn-{number:04}").write_bytes(drawn(draw, good).encode())
    print(f"traces: {len(traces)} of the repository, of which {len(answers)} have answers, and {count} drawn")


main()
