"""Captures: each message is decoded by tshark, with the headers that the addresses make."""
import contextlib
import io
import ipaddress
import os
import pathlib
import shutil
import struct
import subprocess
import sys
import tempfile
import unittest
from typing import Iterator, List, NamedTuple, Tuple
from unittest import mock

from yarrowdoor import reasons
from yarrowdoor.command.capture import Capture
from yarrowdoor.command.main import main

from .coturn import IS_HERE, WHY, coturn

TOP = pathlib.Path(__file__).resolve().parent.parent.parent
TOOLS, TRANSCRIPTS = TOP / "tools" / "draw", TOP / "transcripts"
HAS_TSHARK = shutil.which("tshark") is not None
NO_TSHARK = "tshark is not installed, which decodes captures"


class Segment(NamedTuple):
    """A packet of a capture, as its headers say it."""

    protocol: int
    source: Tuple[str, int]
    destination: Tuple[str, int]
    numbers: Tuple[int, int]
    flags: int
    data: bytes


class Kept(io.BytesIO):
    """A file whose bytes stay when it is closed."""

    def close(self) -> None:
        pass


def packets(file: bytes) -> Iterator[Tuple[float, bytes]]:
    """The packets of a file of libpcap, and their times."""
    magic, major, minor, _, _, _, link = struct.unpack_from("!IHHiIII", file)
    assert (magic, major, minor, link) == (0xA1B2C3D4, 2, 4, 101)
    place = 24
    while place < len(file):
        seconds, micros, kept, size = struct.unpack_from("!IIII", file, place)
        assert kept == size
        yield seconds + micros / 1e6, file[place + 16:place + 16 + kept]
        place += 16 + kept


def total(data: bytes) -> int:
    """The sum that a checksum makes 0xFFFF (RFC 1071)."""
    added: int = sum(struct.unpack(f"!{len(data + bytes(len(data) % 2)) // 2}H", data + bytes(len(data) % 2)))
    while added >> 16:
        added = (added & 0xFFFF) + (added >> 16)
    return added


def parsed(packet: bytes) -> Segment:
    """A packet, whose lengths and checksums have to be right."""
    if packet[0] >> 4 == 4:
        assert struct.unpack_from("!H", packet, 2)[0] == len(packet) and total(packet[:20]) == 0xFFFF
        protocol, ips, rest = packet[9], packet[12:20], packet[20:]
    else:
        assert struct.unpack_from("!H", packet, 4)[0] == len(packet) - 40
        protocol, ips, rest = packet[6], packet[8:40], packet[40:]
    assert total(ips + struct.pack("!II", len(rest), protocol) + rest) == 0xFFFF
    hosts = [str(ipaddress.ip_address(ips[it:it + len(ips) // 2])) for it in (0, len(ips) // 2)]
    ports = struct.unpack_from("!HH", rest)
    if protocol == 17:
        assert struct.unpack_from("!H", rest, 4)[0] == len(rest)
        return Segment(17, (hosts[0], ports[0]), (hosts[1], ports[1]), (0, 0), 0, rest[8:])
    number, seen = struct.unpack_from("!II", rest, 4)
    return Segment(6, (hosts[0], ports[0]), (hosts[1], ports[1]), (number, seen), rest[13], rest[20:])


class Headers(unittest.TestCase):
    def test_datagrams_of_both_families(self) -> None:
        for source, peer in ((("192.0.2.1", 1000), ("192.0.2.2", 3478)), (("2001:db8::1", 1000), ("2001:db8::2", 3478))):
            for data in (b"", b"odd", bytes(65_000)):
                with Capture(Kept()) as capture:
                    capture.datagram(source, peer, data, 1700000000.25)
                    [(when, packet)] = packets(capture._file.getvalue())  # type: ignore[attr-defined]
                self.assertEqual((parsed(packet), when), (Segment(17, source, peer, (0, 0), 0, data), 1700000000.25))

    def test_an_address_with_a_scope(self) -> None:
        with Capture(Kept()) as capture:
            capture.datagram(("fe80::1", 1, 0, 2), ("fe80::2%eth0", 2), b"x", 0.0)
            [(_, packet)] = packets(capture._file.getvalue())  # type: ignore[attr-defined]
        self.assertEqual(parsed(packet).destination, ("fe80::2", 2))

    def test_a_stream_is_numbered(self) -> None:
        here, there = ("192.0.2.1", 1000), ("192.0.2.2", 3478)
        with Capture(Kept()) as capture:
            capture.opened(here, there, 0.0)
            capture.piece(here, there, bytes(70_000), 0.0)
            capture.piece(there, here, b"abc", 0.0)
            capture.ended(there, here, 0.0)
            capture.ended(here, there, 0.0)
            found = [parsed(it) for _, it in packets(capture._file.getvalue())]  # type: ignore[attr-defined]
        # SYN, SYN and ACK, ACK; two pieces of at most 65,000 bytes; an answer; the ends of both (RFC 9293, section 3.5).
        self.assertEqual([it.flags for it in found], [2, 18, 16, 24, 24, 24, 17, 17])
        self.assertEqual([it.numbers for it in found],
                         [(0, 0), (0, 1), (1, 1), (1, 1), (65_001, 1), (1, 70_001), (4, 70_001), (70_001, 5)])
        self.assertEqual([len(it.data) for it in found], [0, 0, 0, 65_000, 5_000, 3, 0, 0])


def decoded(path: pathlib.Path) -> List[str]:
    """What tshark says of each packet: its protocol, and what is in it. All ports are those of STUN: a random one may be that of
    another protocol for tshark, as 44818 is of EtherNet/IP."""
    found = [parsed(it) for _, it in packets(path.read_bytes())]
    ports = {f"{'udp' if it.protocol == 17 else 'tcp'}.port=={port},stun" for it in found
             for port in (it.source[1], it.destination[1])}
    words = ["tshark", "-r", str(path), "-T", "fields", "-E", "separator=|", "-e", "_ws.col.Protocol", "-e", "_ws.col.Info",
             *(word for it in sorted(ports) for word in ("-d", it))]
    return subprocess.run(words, check=True, stdout=subprocess.PIPE, stderr=subprocess.DEVNULL, text=True).stdout.splitlines()


@unittest.skipUnless(HAS_TSHARK, NO_TSHARK)
class Decoded(unittest.TestCase):
    def captured(self, uri: str, *words: str) -> List[str]:
        with tempfile.TemporaryDirectory() as room, mock.patch.dict(os.environ, {"YARROWDOOR_PASSWORD": "pass"}), \
                contextlib.redirect_stdout(io.StringIO()):
            path = pathlib.Path(room, "packets.pcap")
            self.assertEqual(main(["check", uri, "--user", "user", "--pcap", str(path), *words]), 0)
            return decoded(path)

    def test_the_port_of_another_protocol(self) -> None:
        here, there, request = ("127.0.0.1", 44818), ("127.0.0.1", 2222), reasons.binding_request(bytes(12))
        with tempfile.TemporaryDirectory() as room:
            path = pathlib.Path(room, "packets.pcap")
            with path.open("wb") as file, Capture(file) as capture:
                capture.datagram(here, there, request, 0.0)
                capture.opened(here, there, 0.0)
                capture.piece(here, there, request, 0.0)
            found = [it for it in decoded(path) if " Len=0" not in it]
        self.assertEqual(found, ["STUN|Binding Request"] * 2)

    @unittest.skipUnless(IS_HERE, WHY)
    def test_each_message_of_a_check_is_named(self) -> None:
        with coturn() as server:
            forms = [[server.uri()], [server.uri("turn:127.0.0.1:{port}?transport=tcp")]]
            if server.certificate:
                forms.append([server.uri("turns:localhost:{tls_port}"), "--ca", server.certificate])
            for words in forms:
                lines = self.captured(*words)
                for wanted in ("Binding Request", "Allocate Request", "Allocate Error Response error-code: 401", "Allocate Success",
                               "CreatePermission Request", "CreatePermission Success", "Send Indication", "Data Indication",
                               "Channel-Bind Request", "Channel-Bind Success", "ChannelData TURN Message", "Refresh Success"):
                    self.assertTrue([it for it in lines if it.startswith("STUN|") and wanted in it], (words, wanted))
                rest = [it for it in lines if not it.startswith("STUN|") and not it.startswith("TCP|")]
                self.assertEqual((rest, [it for it in lines if "Malformed" in it]), ([], []))

    @unittest.skipUnless(TRANSCRIPTS.exists(), "the sources are not here")
    def test_each_message_of_a_transcript_is_named(self) -> None:
        # How many lines are of packets: of calls `recv`, and of answers `send`.
        for name in ("data_goes_by_indications_and_by_a_channel", "data_goes_both_ways_over_a_stream"):
            source = TRANSCRIPTS / "exchange" / f"{name}.txt"
            words = [it.split(" ") for it in source.read_text().splitlines()]
            count = sum(it[0] == "send" or it[0].isdecimal() and it[1] == "recv" for it in words)
            with tempfile.TemporaryDirectory() as room:
                path = pathlib.Path(room, "packets.pcap")
                subprocess.run([sys.executable, str(TOOLS / "lines-to-pcap"), str(source), str(path)], check=True)
                lines = decoded(path)
                full = [it for it in lines if " Len=0" not in it]  # A stream is opened by packets without data.
                self.assertEqual((len(full), [it for it in lines if "Malformed" in it]), (count, []))
                for wanted in ("Allocate Error Response error-code: 401", "Allocate Success Response", "Data Indication XOR-PEER"):
                    self.assertTrue([it for it in full if it.startswith("STUN|") and wanted in it], wanted)
                tool = [sys.executable, str(TOOLS / "lines-to-pcap"), "-", str(path)]
                again = subprocess.run(tool, input=source.read_text(), text=True)
                self.assertEqual((again.returncode, decoded(path)), (0, lines))


@unittest.skipUnless(TRANSCRIPTS.exists(), "the sources are not here")
class Lines(unittest.TestCase):
    def test_what_has_no_packet_is_told(self) -> None:
        with tempfile.TemporaryDirectory() as room:
            source, path = pathlib.Path(room, "lines"), pathlib.Path(room, "packets.pcap")
            source.write_text("udp 192.0.2.1:1 192.0.2.2:2 udp 4 sha1 auto 75 70 " + "00" * 32 + "\n0 poll\nwait 0\n")
            for words in ([str(source), str(path)], [str(source), str(path), "2"], [str(source)]):
                ran = subprocess.run([sys.executable, str(TOOLS / "lines-to-pcap"), *words], stderr=subprocess.PIPE, text=True)
                self.assertEqual(ran.returncode, 1)
                self.assertNotIn("Traceback", ran.stderr)
                self.assertNotEqual(ran.stderr, "")


if __name__ == "__main__":
    unittest.main()
