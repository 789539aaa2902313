"""A caller of a session that is drawn by a seed, with the network between it and the server."""
import ipaddress
import random
from dataclasses import dataclass

from checkers.lines import address_in, bytes_in, word_of

from .program import Program, Stopped
from .server import Server

MS = 1_000_000
SECOND = 1_000 * MS
LOCAL = "192.168.0.1:1000"
REMOTE = "10.0.0.2:2000"
# So many steps has a run, each of which may be several calls, and so many calls are made at one time.
STEPS, MOST = 220, 200


@dataclass
class Head:
    """What the first line says."""

    transport: str
    relays: str
    families: str
    settings: str
    user: bytes = b"user"
    password: bytes = b"pass"

    def line(self):
        ends = f"{self.transport} {LOCAL} {REMOTE} {self.relays} {self.families}"
        return f"session {self.settings} {ends} sha1 auto {self.user.hex()} {self.password.hex()} {'0' * 64}"


def head_of(rng):
    transport = rng.choice(["udp", "udp", "tcp"])
    relays = rng.choice(["udp", "tcp"]) if transport == "tcp" else "udp"
    families = rng.choice(["4", "4", "4", "4,6"])
    probe = rng.choice([0, 0, 5 * SECOND, 15 * SECOND])
    leave = rng.choice([2 * SECOND, 2 * SECOND, 4 * SECOND, SECOND // 2])
    return Head(transport, relays, families, f"{probe},{rng.choice([0, 1])},0,{leave}")


def manner_of(rng):
    """What the server does, and how often: some runs have a calm one."""
    manner = {"lifetime": rng.choice([600, 700, 1000, 3600]), "loss": rng.choice([0, 0, 0.1])}
    for name, most in [("refusal", 0.5), ("unsure", 0.2), ("silence", 0.3), ("forged", 0.4), ("copies", 0.2), ("stale", 0.05)]:
        manner[name] = rng.choice([0, 0, most * rng.random()])
    manner["no allocation"] = rng.choice([0] * 5 + [0.9])
    manner["short"] = rng.choice([0] * 8 + [0.5])
    manner["no binding"] = rng.choice([False] * 5 + [True])
    return manner


class Caller:
    """Calls a session, and carries its packets to the server and back."""

    def __init__(self, path, seed):
        self.rng = random.Random(seed)
        self.head = head_of(self.rng)
        self.program = Program(path, self.head.line())
        self.server = Server(self.rng, self.head, manner_of(self.rng))
        self.now, self.wake, self.is_over, self.is_up = 0, 0, False, False
        # what is under way to the session: when it comes, to which end of a connection, and the bytes
        self.coming, self.sockets, self.ports = [], {}, 1001
        self.keys = self.drawn_keys()
        # what a caller wants above all
        self.wanted = self.rng.choice(self.keys) if self.rng.random() < 0.3 else None

    def drawn_keys(self):
        count = self.rng.choice([2, 3, 4, 12])
        ips = [ipaddress.ip_address(f"10.1.0.{n}") for n in range(1, count + 1)]
        if self.head.families != "4" or self.rng.random() < 0.2:
            ips.append(ipaddress.ip_address("2001:db8::77"))
        kinds = ["permission", "permission", "connect"] if self.head.relays == "tcp" else ["permission", "permission", "channel"]
        keys = [(self.rng.choice(kinds), ip) for ip in ips] + [(kinds[-1], ips[0])]
        return [f"{kind} {word_of(ip)}" + ("" if kind == "permission" else ":9000") for kind, ip in keys]

    def ask(self, *calls):
        """The answers to calls at this time."""
        return self.program.ask(*[f"{self.now} {call}" for call in calls])

    # ---- a run

    def run(self):
        """The lines of the run, and why it stopped before its end, if it did."""
        stopped = None
        try:
            self.settle()
            for _ in range(STEPS):
                self.step()
                if self.is_over:
                    break
            if not self.is_over:
                self.ask("leave")
            for _ in range(40):
                self.settle()
                if self.is_over:
                    break
                self.go_to(min([self.wake, *[at for at, _, _ in self.coming]]))
            self.afterwards()
        except Stopped as error:
            stopped = str(error)
        self.program.close()
        return "\n".join(self.program.text) + "\n", stopped

    def afterwards(self):
        for key in self.keys[:2]:
            self.ask(f"request {key}")
        self.ask("check")
        self.settle()

    def step(self):
        """Something comes, or is due, or the caller calls."""
        due = min([self.wake, *[at for at, _, _ in self.coming]])
        if self.is_up and self.rng.random() < 0.4:
            ahead = self.rng.choice([0, 0, 0, 20 * MS, SECOND, 5 * SECOND])
            if due > self.now + ahead:
                self.now += ahead
                self.call()
                self.settle()
                return
        self.go_to(due)
        self.settle()

    def go_to(self, time):
        """Goes to this time, and receives what has come by then."""
        self.now = max(self.now, time)
        here = [it for it in self.coming if it[0] <= self.now]
        self.coming = [it for it in self.coming if it[0] > self.now]
        if self.head.transport == "tcp":
            here = self.in_pieces(here)
        for _, local, raw in here:
            self.ask(f"recv {self.head.transport} {REMOTE} {local} {raw.hex() or '-'}")

    def in_pieces(self, here):
        """What comes to one end at a time, in one piece, or cut in two."""
        found = []
        for time, local, raw in here:
            if found and found[-1][1] == local:
                found[-1] = (time, local, found[-1][2] + raw)
            else:
                found.append((time, local, raw))
        pieces = []
        for time, local, raw in found:
            at = self.rng.randrange(1, len(raw)) if len(raw) > 1 and self.rng.random() < 0.2 else len(raw)
            pieces += [(time, local, it) for it in (raw[:at], raw[at:]) if it]
        return pieces

    # ---- what is due

    def settle(self):
        """Takes all that the session has to give at this time."""
        received = ["poll_recv"] if self.head.transport == "tcp" else []
        for _ in range(MOST):
            due, *others = self.ask("poll", *received, "event", "event", "transmit")
            self.note_events(others)
            self.send(others[-1])
            is_all = others[-2:] == [["none"], ["none"]] and others[0][0] != "data"
            if due[0] == "socket":
                self.offered(due)
            elif due[0] == "close":
                self.sockets.pop(due[1], None)
            elif due[0] == "closed" and is_all:
                self.is_over = True
                return
            elif due[0] == "wait" and is_all and int(due[1]) > self.now:
                self.wake = int(due[1])
                return
        raise Stopped(f"at {self.now} there is always something due")

    def note_events(self, answers):
        self.is_up = self.is_up or any(it[0] == "up" for it in answers)

    def send(self, answer):
        """Brings a packet to the server, if there is one, and what it answers on its way."""
        if answer[0] != "send":
            return
        at = self.now + self.rng.choice([0, 20 * MS, 20 * MS, 60 * MS, 700 * MS])
        self.coming += [(at, answer[2], raw) for raw in self.server.answers(bytes_in(answer[4]))]
        self.coming.sort(key=lambda it: it[0])

    def offered(self, answer):
        """The session asks for a data connection: it is opened, or it is not."""
        local = "-"
        if self.rng.random() < 0.8:
            local, self.ports = f"192.168.0.1:{self.ports}", self.ports + 1
            self.sockets[local] = answer[5]
        self.ask(" ".join(["socket", *answer[1:], local]))

    # ---- what the caller does

    def call(self):
        lots = [
            (30, self.request), (12, self.keep), (6, self.check), (8, self.data), (8, self.sends), (3, self.many), (3, self.mood),
            (2, self.error), (2, self.closed), (2, self.moved), (1, self.leave), (1, self.ends),
        ]  # fmt: skip
        self.rng.choices([it for _, it in lots], [it for it, _ in lots])[0]()

    def request(self):
        key = self.wanted if self.wanted and self.rng.random() < 0.7 else self.rng.choice(self.keys)
        word = self.rng.choice(["request", "request", "request-for-data"])
        self.ask(f"{word} {key}")
        if self.rng.random() < 0.3:
            self.ask(f"request {key}")

    def many(self):
        """Requests all that it knows of, and more; the server may challenge the first of them."""
        keys = self.keys + [f"permission 10.2.0.{n}" for n in self.rng.sample(range(250), self.rng.choice([3, 12, 16]))]
        self.ask(*[f"request {key}" for key in keys])
        if self.rng.random() < 0.5:
            self.server.renew_nonce()

    def keep(self):
        self.ask(f"{self.rng.choice(['keep', 'release'])} {self.rng.choice(self.keys)}")

    def check(self):
        self.ask("check")

    def peers(self):
        return [address_in(it.split(" ")[1]) for it in self.keys if not it.startswith("permission")]

    def data(self):
        """Data of peers comes, in one piece if it is a stream."""
        ips = [address_in(f"{it.split(' ')[1]}:9000") for it in self.keys if it.startswith("permission")]
        for _ in range(self.rng.choice([1, 1, 3])):
            peer = self.rng.choice(self.peers() + ips)
            raw = self.server.data_of(peer, bytes(self.rng.randrange(256) for _ in range(self.rng.choice([1, 5, 8]))))
            self.coming.append((self.now + 20 * MS, LOCAL, raw))
        self.coming.sort(key=lambda it: it[0])

    def sends(self):
        ip, port = self.rng.choice(self.peers() + [(ipaddress.ip_address("10.1.0.1"), 9000)])
        self.ask(f"send {self.head.relays} {word_of(ip)}:{port} 68656c6c6f")

    def mood(self):
        """The server is silent from now on, or speaks again, or has forgotten the allocation."""
        if self.rng.random() < 0.15:
            self.server.has_forgotten = True
        else:
            self.server.is_silent = not self.server.is_silent

    def error(self):
        if self.head.transport == "udp":
            self.ask(f"error {self.rng.randrange(1, 9)}")

    def closed(self):
        if self.sockets:
            local = self.rng.choice(sorted(self.sockets))
            self.ask(f"closed {local} {self.sockets.pop(local)} 5")

    def moved(self):
        """The client has another address at the server, as behind a NAT."""
        self.server.mapped = self.server.mapped[0], self.server.mapped[1] + 1

    def leave(self):
        if self.rng.random() < 0.5:
            self.ask("leave")
            if self.rng.random() < 0.5:
                self.settle()
                self.ends()

    def ends(self):
        if self.rng.random() < 0.5:
            self.ask(self.rng.choice(["no-route 3", "moved 4", "ended -" if self.head.transport == "tcp" else "moved 5"]))


def run_lines(path, seed):
    """The lines of the run of this seed, of the program there, and why it stopped before its end, if it did."""
    return Caller(path, seed).run()
