"""Handshakes of TLS that end badly: what the server sent before it reset the connection is read all the same."""
import contextlib
import socket
import ssl
import struct
import threading
import time
import unittest
from typing import Callable, Iterator, List
from unittest import mock

from yarrowdoor.command import causes, handshakes
from yarrowdoor.command.knock import knock
from yarrowdoor.command.reach import Door, Heard, Verdict
from yarrowdoor.wire import Tap

from .threaded import Ipv4Server, Threaded


def alert(description: int) -> bytes:
    """A record with a fatal alert (RFC 8446, sections 5.1 and 6)."""
    return struct.pack("!BHHBB", 21, 0x0301, 2, 2, description)


def reset(one: socket.socket) -> None:
    """Closes a connection so that its other end gets a reset."""
    one.setsockopt(socket.SOL_SOCKET, socket.SO_LINGER, struct.pack("ii", 1, 0))
    one.close()


@contextlib.contextmanager
def serving(serve: Callable[[socket.socket], None]) -> Iterator[int]:
    """Has each connection served, in one thread, and gives the port."""
    with socket.create_server(("127.0.0.1", 0)) as listening:
        def run() -> None:
            with contextlib.suppress(OSError):
                while True:
                    serve(listening.accept()[0])

        thread = threading.Thread(target=run)
        thread.start()
        try:
            yield listening.getsockname()[1]
        finally:
            listening.shutdown(socket.SHUT_RDWR)
            thread.join()


class Alerts(unittest.TestCase):
    """RFC 8446, section 6.2: 70 is protocol_version, 112 unrecognized_name, 116 certificate_required."""

    def heard(self, serve: Callable[[socket.socket], None]) -> Heard:
        with serving(serve) as port:
            return knock(Door("tls", port, "localhost", ssl.create_default_context()), "127.0.0.1", 1.0, Tap())

    def test_one_with_a_reset_behind_it_is_read(self) -> None:
        for description, said in ((70, "older versions of TLS"), (112, "(SNI)"), (116, "mutual TLS")):
            def serve(one: socket.socket) -> None:
                time.sleep(0.05)  # until the client knows that it is connected
                one.sendall(alert(description))
                reset(one)

            # The reset comes before the client has sent anything, and behind what the server has sent.
            with mock.patch("socket.create_connection", late(socket.create_connection)):
                found = self.heard(serve)
            self.assertEqual(found.verdict, Verdict.HANDSHAKE)
            door = Door("tls", 5349, "localhost")
            self.assertIn(said, causes.about_closed(door, found, {}, {}))

    def test_one_with_an_end_behind_it_is_read(self) -> None:
        def serve(one: socket.socket) -> None:
            one.sendall(alert(70))
            one.close()

        self.assertEqual(self.heard(serve).verdict, Verdict.HANDSHAKE)

    def test_one_of_which_only_the_short_answers_arrive(self) -> None:
        def serve(one: socket.socket) -> None:
            with contextlib.suppress(OSError), one:
                one.settimeout(2.0)
                if len(one.recv(4096)) < 60:  # To more it would send a certificate, which is lost.
                    one.sendall(alert(40))
                while one.recv(4096):
                    pass

        found = self.heard(serve)
        self.assertEqual((found.verdict, found.other), (Verdict.MUTE, "hello"))
        self.assertIn("a small MTU", causes.about_closed(Door("tls", 5349, "localhost"), found, {}, {}))

    def test_a_reset_alone_is_none(self) -> None:
        self.assertEqual(self.heard(reset).verdict, Verdict.CLOSED)

    def test_what_is_no_tls_is_none(self) -> None:
        def serve(one: socket.socket) -> None:
            one.sendall(b"220 mail.example.org ESMTP\r\n")
            one.close()

        self.assertEqual(self.heard(serve).verdict, Verdict.NO_TLS)

    def test_a_server_that_drips_is_left_in_time(self) -> None:
        def serve(one: socket.socket) -> None:
            with contextlib.suppress(OSError), one:
                for byte in alert(70)[:6]:
                    one.sendall(bytes([byte]))
                    time.sleep(0.3)

        self.assertIn(self.heard(serve).verdict, (Verdict.MUTE, Verdict.CLOSED, Verdict.NO_TLS))


class Bindings(unittest.TestCase):
    def test_one_that_was_lost_is_asked_again(self) -> None:
        # Of two requests the other one is answered: whether the server answers no Binding is seen by more than two of them.
        server, count = Ipv4Server(), 0

        def lose(data: bytes) -> List[bytes]:
            nonlocal count
            count += data[:2] == b"\0\1"
            server.answers_bindings = count > 3
            return []

        with Threaded(server, forger=lose) as threaded:
            found = knock(Door("udp", int(threaded.uri.rpartition(":")[2]), "127.0.0.1"), "127.0.0.1", 1.5, Tap())
            allocates = [it for it in threaded.received if it[:2] == b"\0\3"]
        self.assertEqual((found.verdict, found.has_binding, count, len(allocates)), (Verdict.ANSWERS, True, 4, 1))

    def test_a_server_that_answers_none(self) -> None:
        server = Ipv4Server()
        server.answers_bindings = False
        with Threaded(server) as threaded:
            found = knock(Door("udp", int(threaded.uri.rpartition(":")[2]), "127.0.0.1"), "127.0.0.1", 1.5, Tap())
        self.assertEqual((found.verdict, found.has_binding), (Verdict.ANSWERS, False))


class Reasons(unittest.TestCase):
    def test_one_that_python_has_no_word_for(self) -> None:
        """What OpenSSL 3.0 says of TLS 1.1, where the system lets a client begin with it."""
        error = ssl.SSLError(1, "[SSL] legacy sigalg disallowed or unsupported (_ssl.c:992)")
        setattr(error, "reason", None)
        self.assertTrue(handshakes.is_alert(error))
        self.assertIn("older versions of TLS", handshakes.explain_alert(error, "localhost")[1])


def late(connect: Callable[..., socket.socket]) -> Callable[..., socket.socket]:
    """Makes a connection, and waits until what the server sends on it at once has come."""
    def connected(*words: object) -> socket.socket:
        sock = connect(*words)
        time.sleep(0.15)
        return sock

    return connected


if __name__ == "__main__":
    unittest.main()
