"""The lines of runs: a head, and then a call and its answer in turn (docs/rattle/LINES.md)."""
import ipaddress
from dataclasses import dataclass

NONE = "-"


def bytes_in(word):
    return b"" if word == NONE else bytes.fromhex(word)


def ip_in(word):
    """`a.b.c.d`, or 32 hexadecimal digits in brackets."""
    return ipaddress.ip_address(bytes.fromhex(word[1:-1])) if word.startswith("[") else ipaddress.ip_address(word)


def word_of(ip):
    """The word of an IP address, which `ip_in` reads."""
    return str(ip) if ip.version == 4 else f"[{ip.packed.hex()}]"


def address_in(word):
    ip, _, port = word.rpartition(":")
    return ip_in(ip), int(port)


@dataclass
class Call:
    """A call, its words without the time, and the words of its answer."""

    number: int
    time: int
    words: list
    answer: list

    @property
    def name(self):
        return self.words[0]

    @property
    def is_look(self):
        return self.name in ("relayed", "permissions", "have")

    def wait(self):
        """Until when the caller may wait, if this is a `poll` after which nothing is pending."""
        if self.name == "poll" and self.answer[0] == "wait" and int(self.answer[1]) > self.time:
            return int(self.answer[1])
        return None


@dataclass
class Run:
    """The run of a client, or of a session with the times of its settings: a probe's, a check's, an idle peer's, and leaving's."""

    transport: str
    local: tuple
    server: tuple
    relays: str
    families: list
    user: bytes
    password: bytes
    timed_from_send: bool
    calls: list
    settings: tuple = None

    def last_open(self):
        """The number of the last `poll` that a client answered which had not ended."""
        return max((call.number for call in self.calls if call.name == "poll" and call.answer != ["closed"]), default=0)


def run_of(lines):
    head, settings = lines[0].split(" "), None
    if head[0] == "session":
        settings = tuple(int(it) for it in head[1].split(","))
        head = head[2:]
    calls = []
    for number in range(1, len(lines) - 1, 2):
        words = lines[number].split(" ")
        calls.append(Call(number, int(words[0]), words[1:], lines[number + 1].split(" ")))
    ends = address_in(head[1]), address_in(head[2])
    is_timed = head[-1] == "timed_from_send" or settings is not None
    return Run(head[0], *ends, head[3], head[4].split(","), bytes_in(head[7]), bytes_in(head[8]), is_timed, calls, settings)


def runs_in(text):
    """The runs in a text, each begun by its head."""
    parts = []
    for line in text.splitlines():
        if line.startswith(("udp ", "tcp ", "session ")):
            parts.append([])
        if parts:
            parts[-1].append(line)
    return [run_of(part) for part in parts]
