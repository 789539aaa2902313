"""What is read from the server's packets beside the client."""
import struct
import unittest
from typing import Any

from yarrowdoor import reasons

from .server import COOKIE, attribute, xored

TRANSACTION = bytes(range(12))


def read(data: bytes) -> Any:
    return reasons.read(data)


def message(kind: int, body: bytes) -> bytes:
    return struct.pack("!HH", kind, len(body)) + COOKIE + TRANSACTION + body


ERROR = attribute(0x0009, b"\0\0\4\1no")
REFUSAL = message(0x0113, ERROR)
SUCCESS = message(0x0103, attribute(0x0020, xored(("192.0.2.7", 4000))) + attribute(0x0008, bytes(20)))


class Reading(unittest.TestCase):
    def test_responses(self) -> None:
        self.assertEqual(read(REFUSAL), (reasons.ALLOCATE, False, True, TRANSACTION, (401, "no"), None))
        self.assertEqual(read(SUCCESS), (reasons.ALLOCATE, False, True, TRANSACTION, None, ("192.0.2.7", 4000)))
        mapped = b"\0\2" + struct.pack("!H", 4000 ^ 0x2112) + bytes(a ^ b for a, b in zip(bytes(15) + b"\1", COOKIE + TRANSACTION))
        self.assertEqual(read(message(0x0103, attribute(0x0020, mapped))).mapped, ("::1", 4000))

    def test_a_phrase_that_cannot_be_printed(self) -> None:
        for phrase, wanted in ((b"Unauthorized\0\0", "Unauthorized"), (b"\0", ""), (b"a\x1b[31m b\n", "a[31m b"),
                               (b"\xff", "\ufffd"), ("für dich nicht".encode(), "für dich nicht")):
            self.assertEqual(read(message(0x0113, attribute(0x0009, b"\0\0\4\1" + phrase))).error, (401, wanted))

    def test_methods(self) -> None:
        for kind, method in ((0x0118, reasons.CREATE_PERMISSION), (0x0119, reasons.CHANNEL_BIND), (0x011A, reasons.CONNECT)):
            self.assertEqual(read(message(kind, ERROR)).method, method)

    def test_what_integrity_does_not_cover(self) -> None:
        late = message(0x0103, attribute(0x0008, bytes(20)) + attribute(0x0020, xored(("192.0.2.7", 4000))))
        self.assertEqual(read(late).mapped, None)

    def test_what_is_no_response(self) -> None:
        request, indication = read(message(0x0003, b"")), read(message(0x0017, b""))
        self.assertEqual((request.is_request, request.is_response), (True, False))
        self.assertEqual((indication.is_request, indication.is_response), (False, False))

    def test_what_is_no_message(self) -> None:
        for data in (b"", REFUSAL[:19], REFUSAL[:-1], b"\x40\0\0\0" + REFUSAL, REFUSAL[:4] + b"\0\0\0\0" + REFUSAL[8:]):
            self.assertIsNone(read(data))

    def test_what_has_no_attributes_to_read(self) -> None:
        """The last two bits of a length are 0, and attributes fill the message (RFC 8489, sections 5 and 14)."""
        for body in (b"\0\x09\0", b"\0\x09\xff\xff\0\0", b"\0\x09\xff\xff\0\0\4\1", b"\0\x09\0\5\0\0\4\1"):
            self.assertIsNone(read(message(0x0113, body)))

    def test_attributes(self) -> None:
        found = message(0x0104, attribute(0x000D, b"\0\0\2\x58") + attribute(0x0008, bytes(20)) + attribute(0x8022, b"late"))
        self.assertEqual([reasons.attribute(found, it) for it in (0x000D, 0x8022)], [b"\0\0\2\x58", None])

    def test_what_is_malformed(self) -> None:
        for value in (b"", b"\0\0\4", b"\0\0\2\1no", b"\0\0\7\1no", b"\0\0\4\x64no"):
            self.assertEqual(read(message(0x0113, attribute(0x0009, value))),
                             (reasons.ALLOCATE, False, True, TRANSACTION, None, None))
        for value in (b"", bytes(8), b"\0\1" + bytes(18)):
            self.assertEqual(read(message(0x0103, attribute(0x0020, value))).mapped, None)


class Streams(unittest.TestCase):
    """The messages of a stream, wherever it is cut."""

    STREAM = REFUSAL + b"\x40\0\0\5hello\0\0\0" + SUCCESS + b"\x40\1\0\0" + REFUSAL

    def test_each_cut_in_two(self) -> None:
        for place in range(len(self.STREAM) + 1):
            frames = reasons.Frames()
            found = [*frames.messages(self.STREAM[:place]), *frames.messages(self.STREAM[place:])]
            self.assertEqual(found, [REFUSAL, SUCCESS, REFUSAL])

    def test_byte_by_byte(self) -> None:
        frames = reasons.Frames()
        found = [it for byte in self.STREAM for it in frames.messages(bytes([byte]))]
        self.assertEqual(found, [REFUSAL, SUCCESS, REFUSAL])

    def test_what_is_no_stream_of_turn(self) -> None:
        frames = reasons.Frames()
        self.assertEqual([*frames.messages(REFUSAL + b"\x80\0\0\0"), *frames.messages(SUCCESS)], [REFUSAL])
        frames = reasons.Frames()
        self.assertEqual([*frames.messages(bytes(65_536)), *frames.messages(SUCCESS)], [])


if __name__ == "__main__":
    unittest.main()
