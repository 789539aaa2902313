"""The certificate of a TLS server: the names that it is for, its end, and what is wrong with it, also where it is refused."""
from __future__ import annotations

import contextlib
import socket
import ssl as tls
import time
from dataclasses import dataclass
from typing import Any, Dict, List, Optional, Tuple

from .steps import printable

__all__ = ["Certificate", "explain", "of_peer", "read_refused"]

# Flags of OpenSSL: a certificate that is trusted itself needs no issuer, and one that is out of date can be read.
_PARTIAL_CHAIN, _NO_CHECK_TIME = 0x80000, 0x200000
# What a verification says (openssl-verify(1)) of a name, and of an IP address, for which the certificate is not.
_OTHER_NAME = (62, 64)
_OUT_OF_DATE = 10
_SELF_SIGNED = 18


@dataclass(frozen=True)
class Certificate:
    """What a certificate says. Times are seconds since 1970."""

    names: Tuple[str, ...]
    issuer: str
    begins: float
    ends: float
    is_for_name: bool = True
    """whether it is for the server's name"""

    @property
    def end(self) -> str:
        """The day on which it ends."""
        return _day(self.ends)

    @property
    def days_left(self) -> float:
        """How many days it is good from now on."""
        return round((self.ends - time.time()) / 86_400, 1)


def of_peer(found: Dict[str, Any], is_for_name: bool = True) -> Certificate:
    """A certificate as `getpeercert` gives it."""
    names = tuple(str(value) for kind, value in found.get("subjectAltName", ()) if kind in ("DNS", "IP Address"))
    common = tuple(value for part in found.get("subject", ()) for name, value in part if name == "commonName")
    issuer = [value for part in found.get("issuer", ()) for name, value in part if name in ("organizationName", "commonName")]
    begins, ends = (tls.cert_time_to_seconds(found[it]) for it in ("notBefore", "notAfter"))
    shown = tuple(printable(it) for it in names or common)
    return Certificate(shown, printable(" ".join(issuer[-2:])), begins, ends, is_for_name)


def read_refused(host: str, port: int, name: str, seconds: float) -> Optional[Certificate]:
    """The certificate of a server that was refused, or None where it cannot be read. Nothing is sent over such a connection."""
    with contextlib.suppress(OSError, ValueError, KeyError):
        with _handshake(host, port, name, seconds, _context()) as first:
            encoded = first.getpeercert(True)
        if encoded is None:
            return None
        own = _context(encoded)
        with _handshake(host, port, name, seconds, own) as second:
            found = second.getpeercert() or {}
        own.check_hostname = True
        is_for_name = True
        try:
            _handshake(host, port, name, seconds, own).close()
        except tls.SSLCertVerificationError as error:
            is_for_name = error.verify_code not in _OTHER_NAME
        return of_peer(found, is_for_name)
    return None


def explain(certificate: Optional[Certificate], error: tls.SSLCertVerificationError, name: str) -> str:
    """What is wrong with a certificate, and what to do, in a sentence for each fault."""
    now, said = time.time(), []  # type: float, List[str]
    if certificate is None:
        return f"The certificate is refused: {error.verify_message}."
    if not certificate.is_for_name or error.verify_code in _OTHER_NAME:
        said.append(f"The certificate is for {', '.join(certificate.names) or 'no name'}, and not for {name}: get one for {name}, "
                    "or put a name that it is for into the URI.")
    if certificate.ends < now:
        said.append(f"The certificate is out of date since {certificate.end}: renew it, and let the server read it again (coturn: "
                    "cert= and pkey=, then a restart).")
    if error.verify_code == _OUT_OF_DATE and certificate.ends >= now:
        said.append(f"A certificate between the server's and the authority's is out of date; the server's own is good until "
                    f"{certificate.end}: let the server send the new chain of its authority (fullchain.pem in coturn's cert=).")
    if certificate.begins > now:
        said.append(f"The certificate begins on {_day(certificate.begins)} only: the clock of this host is late, or that of the "
                    "one that made it is early.")
    if error.verify_code in (_SELF_SIGNED, 19):
        said.append("The certificate is signed by itself, which browsers and clients refuse: get one of a public authority, or "
                    "name it by --ca FILE if you trust it.")
    elif error.verify_code in (20, 21):
        said.append(f"No authority that this system trusts has signed the certificate (issuer: {certificate.issuer}): let the "
                    "server send the whole chain (fullchain.pem in coturn's cert=), or name the authority by --ca FILE. If that "
                    "issuer is not the server's, a proxy on the way opens TLS.")
    return " ".join(said) or f"The certificate is refused: {error.verify_message}."


def _handshake(host: str, port: int, name: str, seconds: float, context: tls.SSLContext) -> tls.SSLSocket:
    sock = socket.create_connection((host, port), seconds)
    try:
        return context.wrap_socket(sock, server_hostname=name)
    except BaseException:
        sock.close()
        raise


def _context(encoded: Optional[bytes] = None) -> tls.SSLContext:
    """A context that takes any certificate, or only this one, whatever its name and times."""
    context = tls.SSLContext(tls.PROTOCOL_TLS_CLIENT)
    context.check_hostname = False
    context.verify_mode = tls.CERT_NONE if encoded is None else tls.CERT_REQUIRED
    if encoded is not None:
        context.load_verify_locations(cadata=encoded)
        context.verify_flags = tls.VerifyFlags(_PARTIAL_CHAIN | _NO_CHECK_TIME)
    return context


def _day(seconds: float) -> str:
    return time.strftime("%Y-%m-%d", time.gmtime(seconds))
