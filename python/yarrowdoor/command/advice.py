"""What is wrong with a server, and what to do: a sentence or two for each failure. Options are those of coturn, by name."""
from __future__ import annotations

import ipaddress
import time
from typing import Optional

from .credentials import Credentials, rest_expiry
from .exchange import Said

__all__ = [
    "QUOTAS", "TAKEN", "about_address", "about_credentials", "about_family", "about_mapped", "about_outside_peer", "about_peer",
    "about_quota", "about_refusal", "about_silence", "about_streams", "same_network",
]

# The error of a peer that the server does not permit (RFC 8656, section 19).
_FORBIDDEN = 403
# The errors of a local port of which the server still has something, as it may after a client that had the same one.
TAKEN = (437, 441)
# The errors of a limit: of a user, and of the server.
QUOTAS = (486, 508)
# A server whose nonces are good for a second says 438 about once in that time.
_MANY_STALE = 8
_BLOCKS = tuple(ipaddress.ip_network(it) for it in ("127.0.0.0/8", "10.0.0.0/8", "172.16.0.0/12", "192.168.0.0/16", "100.64.0.0/10",
                                                    "169.254.0.0/16", "::1/128", "fc00::/7", "fe80::/10"))


def about_credentials(credentials: Credentials, realm: str, said: Optional[Said]) -> str:
    """Why a server takes user and password not (401; with some servers 400)."""
    expiry, now = rest_expiry(credentials.user), time.time()
    if expiry is not None and expiry < now:
        return (f"The user {credentials.user} has expired {_ago(now - expiry)} ago, on {_moment(expiry)}: fetch new credentials. "
                "If they were made just now, the clock of the host that makes them, or of this one, is off.")
    if expiry is not None:
        return (f"The user {credentials.user} is good until {_moment(expiry)}, and the realm {realm!r} refuses it: the secret that "
                "made the password is not the server's (static-auth-secret), the server has no use-auth-secret, its clock is "
                "ahead, "
                f"or the one here is late ({_moment(now)}).")
    hint = ""
    if said is not None and said.code == 400:
        hint = " This server says 400 for a wrong user or password, as pion does."
    return (f"The realm {realm!r} does not take the user {credentials.user!r} with this password: either the password is wrong, or "
            f"the realm has no such user. Compare both with the server's list (coturn: user=NAME:PASSWORD, or `turnadmin -l`), and "
            f"its realm= with {realm!r}, which is part of each key that is stored. A server with use-auth-secret knows no such "
            f"users: give its secret by YARROWDOOR_SECRET.{hint}")


def about_refusal(said: Said, credentials: Credentials, realm: str) -> str:
    """Why a server refuses a relayed address."""
    if said.code in (400, 401):
        return about_credentials(credentials, realm, said)
    if said.code == 300:
        named = f"to {said.alternate}" if said.alternate is not None else "to another one"
        return f"The server sends its clients {named} (300): check that one (coturn: alternate-server=)."
    if said.code == 486:
        return about_quota(said, credentials.user)
    sentence = {
        403: "The server forbids this user, or this address, a relayed address: see its lists of denied addresses.",
        437: "The server has a relayed address for this local port already: try again, another port is taken then.",
        440: "The server has no relayed address of this family.",
        441: "The server knows this local port under other credentials: try again, another port is taken then.",
        442: "The server does not relay over this transport: calls need UDP (coturn: remove no-udp-relay).",
        508: "The server has no room: its ports for relayed addresses, or its limit for all users, are used up (coturn: min-port=, "
             "max-port=, total-quota=), or the address at which it relays is not one of its host (relay-ip=; pion's RelayAddress).",
    }.get(said.code)
    return sentence or f"The server refuses ({said.code} {said.phrase}): see its log."


def about_quota(said: Said, user: str) -> str:
    """Which limit is met. Servers answer 486 for several."""
    if "andwidth" in said.phrase:
        return (f"A limit of bandwidth is met ({said.phrase!r}): the sessions together would have more than the server has "
                f"(coturn: "
                "bps-capacity=, which is shared out by max-bps=).")
    return (f"A limit is met ({said.phrase!r}): of the user {user!r}, who has as many relayed addresses as the server allows "
            f"(coturn: "
            "user-quota=), or of all users (total-quota=; coturn answers the same). Addresses that nobody gives back end by "
            "themselves, of most clients after 10 minutes, of this one after 30. Compare with the server's sessions.")


def about_silence(is_new_flow: bool, is_lossy: bool, stale: int, seconds: float) -> str:
    """Why a request has no answer, where others had."""
    if stale >= _MANY_STALE:
        return (f"The server has answered {stale} times that the nonce is stale (438), each time to a new one: several servers "
                f"behind "
                "one address share no nonces (let the balancer keep a client's address and port at one server), or its clock "
                "jumps.")
    if is_lossy:
        return (f"Nothing came back in {seconds:.1f} s, and other answers only after requests were sent again: the network on the "
                f"way "
                "loses many packets.")
    if is_new_flow:
        return ("Nothing came back to a new local port, while ports before it were answered: a firewall before the server lets in "
                "only "
                "so many new flows of one host in a time (a limit of rate, a guard against floods), or the server ends.")
    return ("The server has asked for credentials, and answers nothing to the request with them: see its log. Some servers are "
            "silent where they refuse; or a firewall on the way drops it, which is longer than the first one.")


def about_address(relayed: str, server: str) -> str:
    """What is wrong with a relayed address, or nothing. `server` is the address at which the server was asked."""
    ip = ipaddress.ip_address(relayed)
    if ip.is_unspecified:
        return (f"The relayed address is {relayed}, to which nothing can be sent: the server listens on all addresses and does not "
                "know its own. Name it (coturn: relay-ip=, and external-ip= behind a NAT).")
    if ip.is_global:
        return ""
    if ip.is_loopback:
        return (f"The relayed address {relayed} is a loopback one, which peers on other hosts cannot reach: let the server relay "
                "at an address of the network (coturn: relay-ip=, and external-ip= behind a NAT).")
    kind = "link-local" if ip.is_link_local else "private"
    return (f"The relayed address {relayed} is a {kind} one, which peers elsewhere cannot reach. If the server is behind a NAT, "
            f"let it give out the public address (coturn: external-ip=PUBLIC/{relayed}).")


def about_mapped(mapped: str, local: str, server: str, is_stream: bool) -> str:
    """What is wrong with this host's address as the server sees it, or nothing. `local` is that of the socket."""
    if mapped == local:
        return ""
    seen = ipaddress.ip_address(mapped)
    is_own = mapped == server
    if not is_own and (seen.is_global or not ipaddress.ip_address(server.partition("%")[0]).is_global):
        return ""
    what = "which is its own address" if is_own else "which is a private one"
    if is_stream:
        return (f"The server sees this host at {mapped}, {what}: a proxy or balancer makes the connection in its place. Its logs "
                f"and "
                "limits for each client then know only that one.")
    return (f"The server sees this host at {mapped}, {what}: a balancer or NAT before it puts its own address in place of the "
            "client's, so that clients learn a wrong address (STUN). Let it keep the source (Kubernetes: externalTrafficPolicy: "
            "Local, or the host's network).")


def same_network(one: str, other: str) -> bool:
    """Whether two addresses that are not global are in one block of such: who reaches the one may reach the other."""
    ips = [ipaddress.ip_address(it.partition("%")[0]) for it in (one, other)]
    return any(all(ip.version == block.version and ip in block for ip in ips) for block in _BLOCKS)


def about_family(family: int, said: Optional[Said]) -> str:
    """Why there is no relayed address of a family."""
    if said is not None and said.code in QUOTAS:
        return f"It was not tried whether the server has IPv{family} relayed addresses, since its limit is met."
    told = _told(said) if said is None or said.code else "(it granted one of the other family)"
    return (f"The server gives no IPv{family} relayed address {told}: peers that have only IPv{family} are not reached. To relay "
            f"to them it needs an IPv{family} address (coturn: another relay-ip=, and listening-ip=).")


def about_peer(ip: str, said: Optional[Said]) -> str:
    """Why the server lets a peer's address not send."""
    if said is None:
        return f"The server has answered nothing to the permission for {ip}."
    told = _told(said) if said.code else "(an error without a code)"
    if not said.code:
        return (f"The server refuses {ip}, which is its own relayed address, as a peer {told}: pion answers so where its "
                "PermissionHandler denies a peer. Let it permit that one, or relay at another address.")
    if said.code != _FORBIDDEN:
        return f"The server takes no permission for {ip} {told}, for another reason than that it forbids this peer: see its log."
    where = ipaddress.ip_address(ip)
    if where.is_loopback:
        return (f"The server refuses {ip} as a peer {told}: it forbids loopback addresses, as it should if others use it. So "
                "two of its relayed addresses cannot reach each other while they are loopback ones: let it relay at an address of "
                "the network (coturn: relay-ip=), or on a host that is only for tests set allow-loopback-peers.")
    if not where.is_global:
        return (f"The server refuses {ip} as a peer {told}: it forbids private ranges, and its own relayed address is in one. "
                f"Permit that one (coturn: allowed-peer-ip={ip}), or let it relay at a public address (external-ip=).")
    return (f"The server refuses {ip}, which is its own relayed address, as a peer {told}, so that two of its clients are not "
            f"joined: permit it (coturn: allowed-peer-ip={ip}, or remove the denied-peer-ip= that has it).")


def about_outside_peer(ip: str, said: Optional[Said]) -> str:
    """Why the server lets the address of a peer outside not send."""
    if said is None:
        return f"The server has answered nothing to the permission for {ip}."
    return (f"The server refuses {ip} as a peer {_told(said)}: permit it (coturn: allowed-peer-ip={ip}, or remove the "
            "denied-peer-ip= that has it), or name a peer elsewhere.")


def about_streams(said: Optional[Said]) -> str:
    """Why there is no relayed address for streams (RFC 6062)."""
    if said is not None and said.code in QUOTAS:
        return "It was not tried whether the server relays TCP, since its limit is met."
    return (f"The server relays no TCP {_told(said)}, so that peers are not reached by streams (RFC 6062): pion and ejabberd's "
            "library never do, coturn does without no-tcp-relay. Calls over UDP need it not.")


def _told(said: Optional[Said]) -> str:
    """What the server has said, in brackets."""
    return f"({said.code} {said.phrase})".replace(" )", ")") if said is not None and said.code else "(without an answer)"


def _moment(seconds: float) -> str:
    return time.strftime("%Y-%m-%d %H:%M UTC", time.gmtime(seconds))


def _ago(seconds: float) -> str:
    for size, unit in ((86400, "days"), (3600, "hours"), (60, "minutes")):
        if seconds >= 2 * size:
            return f"{seconds / size:.0f} {unit}"
    return f"{seconds:.0f} seconds"
