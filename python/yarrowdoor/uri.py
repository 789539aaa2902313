"""The URIs of TURN servers (RFC 7065): `turn:HOST[:PORT][?transport=udp|tcp]`, and `turns:` for TLS."""
from __future__ import annotations

import ipaddress
import re
import urllib.parse
from dataclasses import dataclass

from .address import canonical

__all__ = ["TurnUri", "parse"]

_FORM = re.compile(r"(?P<scheme>turns?):(?P<host>\[[^][/?#@]*\]|[^][/?#@:]+)(:(?P<port>[0-9]+))?"
                   r"(\?transport=(?P<transport>[^&#]*))?", re.IGNORECASE)
_PORTS = {False: 3478, True: 5349}
_NAME = re.compile(r"(?:[A-Za-z0-9._~!$&'()*+,;=-]|%[0-9A-Fa-f]{2})+")


@dataclass(frozen=True)
class TurnUri:
    """A server: its name or IP address, its port, `"udp"` or `"tcp"`, and whether TLS is used."""

    host: str
    port: int = 3478
    transport: str = "udp"
    secure: bool = False

    def __post_init__(self) -> None:
        object.__setattr__(self, "host", canonical(self.host))

    def __str__(self) -> str:
        if ":" in self.host:
            ip, percent, zone = self.host.partition("%")
            host = f"[{ip}%25{urllib.parse.quote(zone)}]" if percent else f"[{ip}]"
        else:
            host = urllib.parse.quote(self.host, safe="!$&'()*+,;=")
        return f"turn{'s' * self.secure}:{host}:{self.port}?transport={self.transport}"


def parse(text: str) -> TurnUri:
    """The server that a URI names. Ports are 3478 and 5349, and transports UDP and, for `turns`, TCP, unless it says others.

    `ValueError` if it is no such URI, and for what is not supported: TURN over DTLS, that is `turns` over UDP.
    """
    found = _FORM.fullmatch(text)
    if not found and "@" in text:
        raise ValueError("a URI of TURN has no user and no password, and no other @ (RFC 7065): pass them as arguments")
    if not found:
        raise ValueError(f"{text!r} has not the form turn:HOST[:PORT][?transport=udp|tcp], or turns: for TLS (RFC 7065)")
    secure = found["scheme"].lower() == "turns"
    transport = (found["transport"] if found["transport"] is not None else "tcp" if secure else "udp").lower()
    if transport not in ("udp", "tcp"):
        raise ValueError(f"{text!r}: the transport is none of udp and tcp")
    if secure and transport == "udp":
        raise ValueError(f"{text!r}: TURN over DTLS is not supported. Leave out ?transport=udp")
    port = int(found["port"]) if found["port"] else _PORTS[secure]
    if not 1 <= port <= 65535:
        raise ValueError(f"{text!r}: a port is from 1 to 65535")
    return TurnUri(_host(text, found["host"]), port, transport, secure)


def _host(text: str, host: str) -> str:
    if host.startswith("["):
        ip, percent, zone = host[1:-1].partition("%")
        if zone.startswith("25") and len(zone) > 2:  # A zone stands behind an escaped percent sign (RFC 6874).
            zone = urllib.parse.unquote(zone[2:])
        try:
            return str(ipaddress.IPv6Address(ip + percent + zone))
        except ValueError:
            raise ValueError(f"{text!r}: {host} is no IPv6 address") from None
    if not _NAME.fullmatch(host):
        raise ValueError(f"{text!r}: {host!r} is no name of a host")
    try:
        return urllib.parse.unquote(host, errors="strict")
    except UnicodeDecodeError:
        raise ValueError(f"{text!r}: {host!r} is not UTF-8") from None
