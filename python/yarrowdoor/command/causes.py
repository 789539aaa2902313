"""Why a door of a server is closed, and what to do: a sentence or two for each verdict."""
from __future__ import annotations

import ssl as tls
from typing import Dict, List, Optional

from .certificate import explain
from .handshakes import explain_alert
from .reach import NOT_OF_SERVER, Door, Heard, Verdict, Way

__all__ = ["about_closed", "about_other", "about_unwanted", "shown"]


def shown(heard: Heard, name: str) -> str:
    """What was received, in some words."""
    if heard.verdict is Verdict.HANDSHAKE and isinstance(heard.error, tls.SSLError):
        return f"TLS fails: {explain_alert(heard.error, name)[0]}"
    if heard.verdict is Verdict.REJECTED and heard.rejection is not None:
        return f"rejected by {heard.rejection.sender} (ICMP)"
    if heard.verdict is Verdict.LATE:
        return f"the answer comes after {heard.seconds:.1f} s"
    if heard.verdict is Verdict.ELSEWHERE:
        return f"the answer comes from {heard.other}"
    return str(heard.verdict.value)


def about_other(heard: Heard) -> str:
    """What it means that one of several addresses does not answer."""
    if heard.verdict in NOT_OF_SERVER:
        return f"There is no way from here to {heard.host} ({heard.error}), so that it was not tried."
    return (f"{heard.host} does not answer ({shown(heard, '')}): clients that try it first lose time, or fail. Start the server "
            "there, or take that address out of the name.")


def about_unwanted(door: Door, heard: Heard) -> str:
    """What it means that another transport than that of the URI does not work."""
    if isinstance(heard.error, tls.SSLCertVerificationError):
        return explain(heard.certificate, heard.error, door.name)
    if heard.verdict is Verdict.HANDSHAKE and isinstance(heard.error, tls.SSLError):
        return explain_alert(heard.error, door.name)[1]
    if door.transport == "tls":
        return "Without TLS, clients in networks that let nothing else through cannot use the server (coturn: cert=, pkey=)."
    if door.transport == "tcp":
        return "Without TCP, clients in networks that block UDP cannot use the server (coturn: remove no-tcp)."
    return "Without UDP, all data goes over TCP, where what is lost holds up what follows (coturn: remove no-udp)."


def about_closed(door: Door, heard: Heard, ways: Dict[str, Optional[Way]], all_heard: Dict[str, List[Heard]]) -> str:
    """Why the door of the URI is closed, and what to do."""
    where, layer = f"{heard.host} port {door.port}", "UDP" if door.transport == "udp" else "TCP"
    if isinstance(heard.error, tls.SSLCertVerificationError):
        return explain(heard.certificate, heard.error, door.name)
    if heard.verdict is Verdict.HANDSHAKE and isinstance(heard.error, tls.SSLError):
        return explain_alert(heard.error, door.name)[1]
    if heard.verdict is Verdict.REJECTED:
        return _about_rejected(door, heard, layer) + _instead(door, ways)
    if heard.verdict is Verdict.LATE:
        return (f"{where} answers after {heard.seconds:.1f} s, which is later than this check waits: a path so slow is of little "
                f"use "
                "for calls. Wait longer (--timeout) to check the rest.")
    if heard.verdict is Verdict.ELSEWHERE:
        return (f"{where} answers from {heard.other}, which clients do not take for an answer: the server has several addresses, "
                f"or a "
                "NAT before it changes the source. Let it listen on this address by name (coturn: listening-ip=), or mend that "
                "NAT.")
    if heard.verdict is Verdict.UNREACHABLE:
        return f"There is no way from here to {heard.host} ({heard.error}): look at this host's network first."
    if heard.verdict is Verdict.FORBIDDEN_HERE:
        return (f"A firewall of this host itself rejects what is sent to {where} over {layer}: let it out (`nft list ruleset`, "
                f"`iptables -L OUTPUT`). That says nothing of the server.{_instead(door, ways)}")
    if heard.verdict is Verdict.REFUSED:
        return _about_refused(door, where, layer, ways)
    if heard.verdict is Verdict.SILENT:
        return _about_silent(door, heard, layer, ways, all_heard)
    if heard.verdict in (Verdict.MUTE, Verdict.CLOSED):
        return _about_no_answer(door, heard, where)
    return _about_strange(door, heard, where)


def _about_rejected(door: Door, heard: Heard, layer: str) -> str:
    found, port = heard.rejection, f"{layer} {door.port}"
    who = f"{heard.host}, or a router before it," if found is None else \
        f"{heard.host} itself" if found.sender == heard.host.partition("%")[0] else f"{found.sender}, on the way to {heard.host},"
    if found is not None and found.has_no_route:
        return (f"{who} has no way to {heard.host} (ICMP: network unreachable): is the address right, and its network up? If other "
                "hosts are not reached either, it is this host's network.")
    mend = (f"Often that is the server's firewall (firewalld: `firewall-cmd --add-port={door.port}/{layer.lower()}`)."
            if found is None or found.sender == heard.host.partition("%")[0] else f"That is a firewall: open {port} there.")
    return (f"{who} rejects {port} by ICMP (\"prohibited\" or \"unreachable\"). {mend} If other hosts are not reached either, it "
            "is this host's network.")


def _about_refused(door: Door, where: str, layer: str, ways: Dict[str, Optional[Way]]) -> str:
    if door.transport == "udp" and ways.get("tcp") is not None:
        return _about_blocked(door, where)
    if door.transport == "tcp" and ways.get("udp") is not None:
        return (f"Nothing listens at {where} over TCP, and UDP answers there: the server has no TCP (coturn: remove no-tcp), or a "
                f"firewall rejects it. Use turn:{_host(door)}:{door.port}, or open TCP {door.port}.")
    return (f"Nothing listens at {where} over {layer}: is the server started, and is this its port (coturn: listening-port=, "
            f"listening-ip=)?{_instead(door, ways)}")


def _about_blocked(door: Door, where: str) -> str:
    return (f"UDP to {where} is blocked, and TCP is open: a firewall drops UDP, or the server has no-udp. Open UDP {door.port} and "
            f"the relay ports (coturn: 49152-65535). Until then use {_over_tcp(door)}; the rest of this check does.")


def _about_silent(door: Door, heard: Heard, layer: str, ways: Dict[str, Optional[Way]], all_heard: Dict[str, List[Heard]]) -> str:
    where = f"{heard.host} port {door.port}"
    if door.transport == "udp" and ways.get("tcp") is not None:
        return _about_blocked(door, where)
    if door.transport == "udp" and any(it.verdict is Verdict.MUTE for it in all_heard.get("tcp", ())):
        return (f"Nothing comes back from {where} over UDP, and TCP is accepted there and not answered: the server's process "
                f"hangs, "
                "since the system accepts connections for it. Look at it, and start it again.")
    if door.transport == "tcp" and ways.get("udp") is not None:
        return (f"Nothing comes back from {where} over TCP, and UDP answers there: a firewall drops TCP {door.port}. Open it, or "
                f"use "
                f"turn:{_host(door)}:{door.port}.")
    return (f"Nothing comes back from {where}: the host is down, has another address, a firewall on the way drops what is sent to "
            f"{layer} {door.port}, or the answers are later than this check waits (--timeout).{_instead(door, ways)}")


def _about_no_answer(door: Door, heard: Heard, where: str) -> str:
    """A connection was accepted, and nothing of use came."""
    if heard.other == "tls":
        return f"{where} is a port of TLS: the URI is turns:{_host(door)}:{door.port}."
    if heard.other == "hello":
        return (f"{where} speaks TLS, and its certificate, which is long, does not arrive: what is long is lost on the way (a "
                "small MTU). Raise it, or let routers answer with ICMP so that the server learns it.")
    if heard.other == "plain":
        return (f"{where} speaks plain TCP and no TLS: put the port of TLS into the URI (coturn: tls-listening-port=, 5349), let "
                f"the "
                f"server have a certificate (coturn: cert=, pkey=), or use turn:{_host(door)}:{door.port}?transport=tcp.")
    if heard.verdict is Verdict.CLOSED:
        return (f"{where} accepts the connection and ends it without an answer: a balancer or proxy whose server is down, a server "
                "that expects something else first (the PROXY protocol, or does not expect it), or one that refuses this host.")
    longer = "what is long is lost on the way (a small MTU)"
    if door.transport == "tls" and heard.certificate is None:
        longer = "the certificate, which is long, is lost on the way (a small MTU)"
    return (f"{where} accepts the connection and says nothing: the server's process hangs, a balancer has no server behind it, or "
            f"speaks the PROXY protocol to one that does not expect it, or {longer}. If it only answers late, wait longer "
            "(--timeout).")


def _about_strange(door: Door, heard: Heard, where: str) -> str:
    """Something else than a TURN server answered."""
    if heard.other == "tls" or heard.other == "a record of TLS":
        return f"{where} is a port of TLS: the URI is turns:{_host(door)}:{door.port}."
    if heard.verdict is Verdict.NO_TLS:
        if heard.other == "plain":
            return _about_no_answer(door, heard, where)
        return (f"Something listens at {where}, but speaks no TLS: it is no TURN server, or one without a certificate (coturn: "
                f"cert=, pkey=). Without TLS the URI is turn:{_host(door)}?transport=tcp.")
    seen = f"what comes begins with {heard.other}" if heard.other else "its answers are none of STUN"
    return (f"Something listens at {where}, but it is no TURN server: {seen}. Check the port; the usual ones are 3478, and 5349 "
            f"for "
            "TLS.")


def _instead(door: Door, ways: Dict[str, Optional[Way]]) -> str:
    """The URI of another transport that works, as a sentence."""
    if door.transport == "udp" and ways.get("tcp") is not None:
        return f" Until then use {_over_tcp(door)}; the rest of this check does."
    if door.transport == "tcp" and ways.get("udp") is not None:
        return f" UDP answers: use turn:{_host(door)}:{door.port}."
    if ways.get("tls") is not None:
        return f" TLS answers at its port: use turns:{_host(door)}; the rest of this check does."
    return ""


def _host(door: Door) -> str:
    return f"[{door.name}]" if ":" in door.name else door.name


def _over_tcp(door: Door) -> str:
    return f"turn:{_host(door)}:{door.port}?transport=tcp"
