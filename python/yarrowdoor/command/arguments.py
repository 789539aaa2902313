"""The words of the command line."""
from __future__ import annotations

import argparse
from typing import Any, NoReturn

from ..address import Address, checked_peer
from ..uri import TurnUri, parse
from .credentials import PASSWORD, SECRET, USER

__all__ = ["parser"]

_ABOUT = "What a TURN server does, what is wrong with it, and packets through it."
_STATUS = "exit status: 0 all is well, 1 something fails, 2 it cannot be tried"
_SECRETS = (f"Password: {PASSWORD}, --password-file, or asked. Shared secret: {SECRET}, --secret-file or --ask-secret. User: "
            f"--user or {USER}.")


class _Parser(argparse.ArgumentParser):
    """Takes no abbreviations, so that no word of a password is taken for the name of a file."""

    def __init__(self, *args: Any, **words: Any) -> None:
        words["allow_abbrev"] = False
        super().__init__(*args, **words)

    def error(self, message: str) -> NoReturn:
        self.exit(2, f"{self.prog}: {message} (see {self.prog} --help)\n")


def parser() -> argparse.ArgumentParser:
    """What the command takes."""
    top = _Parser(prog="yarrowdoor", description=_ABOUT, epilog=_STATUS)
    commands = top.add_subparsers(dest="command", required=True, metavar="COMMAND", parser_class=_Parser)

    def add(name: str, short: str, long: str) -> argparse.ArgumentParser:
        command = commands.add_parser(name, help=short, description=long, epilog=f"{_SECRETS} {_STATUS.capitalize()}.",
                                      usage=f"yarrowdoor {name} [options] URI")
        _common(command)
        return command

    _check(add("check", "try all that a server does, and say what is wrong",
               "Tries all that a server does, a line for each, and says what is wrong and what to do."))
    _echo(add("echo", "send packets that come back, and count",
              "Sends packets by a relayed address to a peer that sends them back, or to a second relayed address, and prints how "
              "many came back, and how soon."))
    _relay(add("relay", "a local UDP port that sends from the relayed address",
               "Packets to a local UDP port leave from the relayed address to a peer. What the peer sends goes to the program that "
               "has sent last."))
    _probe(add("probe", "check again and again, as metrics for Prometheus",
               "Checks each so many seconds, and serves what was found as metrics for Prometheus. A line is "
               "printed if other steps fail than before."))
    _load(add("load", "many relayed addresses at one time, and packets through them",
              "Asks for relayed addresses until one is refused, sends packets between each two of them, "
              "holds them, and deletes all."))
    _bench(add("bench", "packets a second, loss, and processor time",
               "Sends as many packets as come back, by a relayed address to a peer that sends them back, or to a second relayed "
               "address, and prints how many a second that are."))
    return top


def _check(command: argparse.ArgumentParser) -> None:
    command.add_argument("--nonce", type=_seconds, default=0.0, metavar="S", help="also watch for S seconds how old a nonce gets")
    command.add_argument("--quota", type=_count, default=0, metavar="N", help="also ask for N relayed addresses at one time")
    _steps(command)


def _probe(command: argparse.ArgumentParser) -> None:
    command.add_argument("--every", type=_positive, default=30.0, metavar="S", help="seconds from check to check (30)")
    command.add_argument("--listen", type=_address, default=Address("127.0.0.1", 9643), metavar="IP:PORT",
                         help="where the metrics are, at /metrics (127.0.0.1:9643)")
    command.add_argument("--once", action="store_true", help="check once, print the metrics, and end")
    _steps(command)


def _load(command: argparse.ArgumentParser) -> None:
    command.add_argument("--allocations", type=_count, default=10, metavar="N", help="relayed addresses at one time (10)")
    command.add_argument("--rate", type=_positive, default=10.0, metavar="N", help="further ones a second (10)")
    command.add_argument("--packets", type=_packets, default=10, metavar="N", help="sent through each two of them (10)")
    command.add_argument("--hold", type=_seconds, default=5.0, metavar="S", help="seconds that all are held, and packets sent (5)")
    _traffic(command)
    _max_loss(command)


def _steps(command: argparse.ArgumentParser) -> None:
    """What steps a check has besides the usual ones."""
    command.add_argument("--peer", type=_address, metavar="IP:PORT", help="a peer that sends back what it is sent (this host)")
    command.add_argument("--security", action="store_true", help="also try which networks clients may send to")
    command.add_argument("--all", action="store_true", help="also try each transport at each address")
    _max_loss(command)


def _max_loss(command: argparse.ArgumentParser) -> None:
    command.add_argument("--max-loss", type=_percent, default=1.0, metavar="P",
                         help="percent of packets lost at each crossing that pass (1)")


def _echo(command: argparse.ArgumentParser) -> None:
    _traffic(command)
    command.add_argument("--count", type=_count, default=100, metavar="N", help="packets (100)")
    command.add_argument("--pause", type=_seconds, default=0.01, metavar="S", help="seconds between two (0.01)")


def _relay(command: argparse.ArgumentParser) -> None:
    command.add_argument("--peer", type=_address, required=True, metavar="IP:PORT", help="where packets go")
    command.add_argument("--listen", type=_address, default=Address("127.0.0.1", 0), metavar="IP:PORT",
                         help="the local port (127.0.0.1 and a free one)")


def _bench(command: argparse.ArgumentParser) -> None:
    _traffic(command)
    command.add_argument("--seconds", type=_seconds, default=5.0, metavar="S", help="how long (5)")
    command.add_argument("--rate", type=_seconds, default=0.0, metavar="N", help="packets a second (as many as come back)")


def _common(command: argparse.ArgumentParser) -> None:
    command.add_argument("uri", type=_uri, metavar="URI", help="turn:HOST[:PORT][?transport=tcp] or turns:HOST[:PORT]")
    command.add_argument("--user", metavar="NAME", help="whose relayed addresses are asked for")
    command.add_argument("--password-file", metavar="FILE", help="its first line is the password")
    command.add_argument("--secret-file", metavar="FILE", help="its first line is the shared secret")
    command.add_argument("--ask-secret", action="store_true", help="ask for the shared secret on the terminal")
    command.add_argument("--ca", metavar="FILE", help="a certificate that is trusted for turns:")
    family = command.add_mutually_exclusive_group()
    family.add_argument("-4", dest="family", action="store_const", const=4, help="reach the server over IPv4 only")
    family.add_argument("-6", dest="family", action="store_const", const=6, help="reach the server over IPv6 only")
    command.add_argument("--timeout", type=_seconds, default=1.5, metavar="S", help="the longest wait for an answer (1.5)")
    command.add_argument("--json", action="store_true", help="print one JSON object")
    command.add_argument("--pcap", metavar="FILE", help="write what is sent and received, for Wireshark")
    command.add_argument("-v", "--verbose", action="store_true", help="log each request and its answer")


def _traffic(command: argparse.ArgumentParser) -> None:
    command.add_argument("--peer", type=_address, metavar="IP:PORT", help="who sends back (a second relayed address)")
    command.add_argument("--size", type=_size, default=160, metavar="N", help="bytes of each packet (160)")
    command.add_argument("--channel", action="store_true", help="by a channel, in place of messages")


def _uri(text: str) -> TurnUri:
    try:
        return parse(text)
    except ValueError as error:
        raise argparse.ArgumentTypeError(str(error)) from None


def _address(text: str) -> Address:
    host, colon, port = text.rpartition(":")
    try:
        if colon and port.isdecimal() and int(port) < 65536:
            return checked_peer((host[1:-1] if host.startswith("[") else host, int(port)))
    except ValueError:
        pass
    raise argparse.ArgumentTypeError(f"{text!r} is not an IP address with a port, as 192.0.2.7:9000 or [2001:db8::7]:9000")


def _seconds(text: str) -> float:
    try:
        found = float(text)
    except ValueError:
        found = -1.0
    if not 0 <= found <= 86_400:
        raise argparse.ArgumentTypeError(f"{text!r} is not a number from 0 to 86400")
    return found


def _positive(text: str) -> float:
    found = _seconds(text)
    if found < 0.001:
        raise argparse.ArgumentTypeError(f"{text!r} is not a number from 0.001 to 86400")
    return found


def _percent(text: str) -> float:
    found = _seconds(text)
    if found > 100:
        raise argparse.ArgumentTypeError(f"{text!r} is not a number from 0 to 100")
    return found


def _count(text: str) -> int:
    if not text.isdecimal() or not 1 <= int(text) <= 100_000:
        raise argparse.ArgumentTypeError(f"{text!r} is not a number from 1 to 100000")
    return int(text)


def _packets(text: str) -> int:
    return 0 if text == "0" else _count(text)


def _size(text: str) -> int:
    if not text.isdecimal() or not 12 <= int(text) <= 65_456:
        raise argparse.ArgumentTypeError(f"{text!r} is not a number of bytes from 12 to 65456")
    return int(text)
