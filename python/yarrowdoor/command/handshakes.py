"""What the end of a TLS handshake means: an alert of the server, by its description (RFC 8446, section 6.2), or no TLS at all."""
from __future__ import annotations

import contextlib
import socket
import ssl as tls
import time
from typing import Optional, Tuple

__all__ = ["answers_hello", "explain_alert", "is_alert", "read_alert"]

_MOST = 16_384
# A ClientHello of TLS 1.2 (RFC 5246, section 7.4.1.2) without extensions, whose one cipher is none (RFC 5746, section 3.3): a
# server answers it with an alert of seven bytes.
_HELLO = b"\x16\x03\x01\0\x2d\x01\0\0\x29\x03\x03" + bytes(32) + b"\0\0\x02\0\xff\x01\0"
_ALERT, _HANDSHAKE = b"\x15\x03", b"\x16\x03"

# Words of OpenSSL's reasons, which differ from version to version, and what each means.
_MEANINGS: Tuple[Tuple[Tuple[str, ...], str, str], ...] = (
    (("PROTOCOL_VERSION", "UNSUPPORTED_PROTOCOL", "VERSION_TOO_LOW", "LEGACY_SIGALG"),
     "it has no version of TLS that this system takes",
     "The server, or the proxy before it, speaks older versions of TLS than 1.2, which clients refuse: let it speak 1.2 or 1.3 "
     "(coturn: remove no-tlsv1_2; a proxy: its least version)."),
    (("CERTIFICATE_REQUIRED", "BAD_CERTIFICATE", "UNKNOWN_CA"), "it wants a certificate of the client",
     "The server, or the proxy before it, asks its clients for a certificate (mutual TLS), which clients of TURN do not have: "
     "switch that off (a proxy: verify required; nginx: ssl_verify_client)."),
    (("UNRECOGNIZED_NAME",), "it does not know the name",
     "The proxy at this port serves other names and refuses {name} (SNI): add {name} and its certificate there, or put a name "
     "that it serves into the URI."),
    (("HANDSHAKE_FAILURE", "INSUFFICIENT_SECURITY", "NO_SHARED_CIPHER", "INTERNAL_ERROR"), "it ends the handshake",
     "The server, or the proxy before it, speaks TLS and takes none of this system's ciphers, has loaded no certificate, or wants "
     "one of the client: see its list of ciphers (coturn: cipher-list=), cert= and pkey=, and its log."),
    (("DH_KEY_TOO_SMALL", "EE_KEY_TOO_SMALL", "CA_MD_TOO_WEAK"), "its keys are too weak",
     "The keys or signatures of the server are weaker than this system takes: make a new key of 2,048 bits or more."),
)


def is_alert(error: tls.SSLError) -> bool:
    """Whether this error came of a server that does speak TLS."""
    reason = _reason(error)
    return "ALERT" in reason or _meaning(reason) is not None


def explain_alert(error: tls.SSLError, name: str) -> Tuple[str, str]:
    """What a server has ended the handshake for, and what to do. `name` is the one that it was asked for."""
    found = _meaning(_reason(error))
    if found is None:
        told = str(error.reason or error).replace("_", " ").lower()
        return f"it ends the handshake ({told})", "The server, or a proxy before it, speaks TLS and ends this: see its log."
    return found[0], found[1].format(name=name)


def read_alert(sock: socket.socket, context: tls.SSLContext, name: str, seconds: float) -> \
        Optional[tls.SSLError]:
    """The alert with which a server ends a handshake over this connection, or None if none comes within this many seconds.

    A server that ends a connection before it has read all of it resets it (RFC 9293, section 3.10.7.1). Then sending fails, and
    what the server sent before can still be read: so this reads on where it can send no more.
    """
    deadline = time.monotonic() + seconds
    incoming, outgoing = tls.MemoryBIO(), tls.MemoryBIO()
    handshake = context.wrap_bio(incoming, outgoing, server_hostname=name)
    is_made = False
    while True:
        try:
            if not is_made:
                handshake.do_handshake()
            is_made = True  # In TLS 1.3 the client has made its part before the server judges its certificate.
            if not handshake.read(_MOST):
                return None
        except tls.SSLWantReadError:
            pass
        except tls.SSLError as error:
            return error if is_alert(error) else None
        if outgoing.pending:
            with contextlib.suppress(OSError):
                sock.settimeout(max(0.01, deadline - time.monotonic()))
                sock.sendall(outgoing.read())
        incoming.write(_received(sock, deadline))
        if not incoming.pending:
            return None


def answers_hello(sock: socket.socket, seconds: float) -> bool:
    """Whether a server of TLS is at the other end of this connection: by an answer so short that any network carries it."""
    sock.settimeout(seconds)
    sock.sendall(_HELLO)
    return sock.recv(_MOST)[:2] in (_ALERT, _HANDSHAKE)


def _received(sock: socket.socket, deadline: float) -> bytes:
    """What comes next, or nothing at the end of the connection, and when the time is over."""
    with contextlib.suppress(OSError):
        left = deadline - time.monotonic()
        if left > 0:
            sock.settimeout(left)
            return sock.recv(_MOST)
    return b""


def _reason(error: tls.SSLError) -> str:
    """OpenSSL's word for it. Python has none for those that came with a later OpenSSL, but their text."""
    return str(error.reason or error).upper().replace(" ", "_")


def _meaning(reason: str) -> Optional[Tuple[str, str]]:
    for words, short, long in _MEANINGS:
        if any(it in reason for it in words):
            return short, long
    return None
