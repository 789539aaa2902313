"""Parts of the page that are computed here and not by the module, with values from standards and other programs."""
import hashlib
import hmac
import json
import random
import unittest

from web.test.browser import browser


def call(module, name, *words):
    """What a function of the page gives, called with these words. Bytes go as lists of numbers."""
    script = """
        const [module, name, words, done] = arguments;
        const revived = JSON.parse(words, (_, value) => (value?.bytes ? Uint8Array.from(value.bytes) : value));
        const written = (_, value) => (value instanceof Uint8Array ? { bytes: [...value] } : value);
        import(`./src/${module}.js`).then(async (found) => done(JSON.stringify(await found[name](...revived), written)));
    """
    text = json.dumps([{"bytes": list(it)} if isinstance(it, bytes) else it for it in words])
    found = browser().driver.execute_async_script(script, module, name, text)
    return json.loads(found, object_hook=lambda it: bytes(it["bytes"]) if "bytes" in it else it)


class Parts(unittest.TestCase):
    @classmethod
    def setUpClass(cls):
        browser().open()

    def test_md5_has_the_digests_of_rfc_1321(self):
        suite = {
            b"": "d41d8cd98f00b204e9800998ecf8427e", b"a": "0cc175b9c0f1b6a831c399e269772661",
            b"abc": "900150983cd24fb0d6963f7d28e17f72", b"message digest": "f96b697d7cb7938d525a2f31aaf161d0",
            b"1234567890" * 8: "57edf4a22be3c955ac49da2e2107b67a",
        }
        for data, digest in suite.items():
            self.assertEqual(call("md5", "md5", data).hex(), digest)

    def test_md5_is_that_of_python_at_each_length(self):
        draw = random.Random("md5")
        for length in (*range(54, 67), 119, 120, 128, 1000):
            data = draw.randbytes(length)
            self.assertEqual(call("md5", "md5", data), hashlib.md5(data).digest())

    def test_integrity_is_that_of_python(self):
        message = bytes.fromhex("0108003c2112a442a836efcc8b770dc7da41597c") + b"\0\x0d\0\4\0\0\3\xe8"
        for algorithm, size, head in (("sha1", 20, b"\0\x08\0\x14"), ("sha256", 32, b"\0\x1c\0\x20")):
            found = call("integrity", "signed", message + head + bytes(size), len(message), b"a key", algorithm)
            counted = message[:2] + (8 + 4 + size).to_bytes(2, "big") + message[4:]
            self.assertEqual(found, counted + head + hmac.new(b"a key", counted, algorithm).digest())

    def test_the_message_of_rfc_5769_is_read(self):
        # RFC 5769, section 2.2: a response over IPv4, with SOFTWARE, XOR-MAPPED-ADDRESS, MESSAGE-INTEGRITY and FINGERPRINT.
        message = bytes.fromhex("0101003c2112a442b7e7a701bc34d686fa87dfae8022000b7465737420766563746f7220002000080001a147e112a643"
                                "000800142b91f599fd9e90c38c7489f92af9ba53f06be7d780280004c07d4c96")
        (frame,) = call("decode", "decode", message, {"transport": "udp"})
        fields = {it["name"]: it["value"] for it in frame["fields"]}
        self.assertEqual(frame["title"], "Binding success")
        self.assertEqual(fields["SOFTWARE"], '"test vector"')
        self.assertEqual(fields["XOR-MAPPED-ADDRESS"], "192.0.2.1:32853")
        self.assertEqual(fields["FINGERPRINT"], "c07d4c96")
        self.assertEqual(fields["MESSAGE-INTEGRITY"], "2b91f599fd9e90c38c7489f92af9ba53f06be7d7")
        self.assertEqual(call("checks", "crc32", message[:-8]), 0xC07D4C96)

    def test_each_field_stands_where_its_bytes_are(self):
        message = bytes.fromhex("0103002c2112a4425386bd28bdd219b8a08ded1a001600080001bd522b12a446000d0004000003e8"
                                "0008001473ab3a7f1f80782b83e3ea333b6d47e608f296b7")
        (frame,) = call("decode", "decode", message, {"transport": "udp"})
        self.assertEqual([(it["name"], it["start"], it["end"]) for it in frame["fields"]], [
            ("Type", 0, 2), ("Length", 2, 4), ("Magic cookie", 4, 8), ("Transaction ID", 8, 20), ("XOR-RELAYED-ADDRESS", 20, 32),
            ("LIFETIME", 32, 40), ("MESSAGE-INTEGRITY", 40, 64)])

    def test_bytes_that_are_no_message_say_why(self):
        bad = {
            "": "neither", "ff": "neither", "0001": "shorter than a header", "0001000021120000" + "00" * 12: "no STUN message",
            "000100042112a442" + "00" * 12: "not as many bytes", "40000005aa": "fewer bytes",
        }
        for data, why in bad.items():
            (frame,) = call("decode", "decode", bytes.fromhex(data), {"transport": "udp"})
            self.assertIn(why, frame["fault"])
        (frame,) = call("decode", "decode", bytes.fromhex("000100042112a442" + "00" * 12 + "000d0008"), {"transport": "udp"})
        self.assertIn("past the end", frame["fault"])

    def test_codes_have_the_names_of_the_standards(self):
        # RFC 8489, section 14.8; RFC 8656, section 19; RFC 6062, section 6.3.
        names = {
            300: "Try Alternate", 400: "Bad Request", 401: "Unauthenticated", 403: "Forbidden", 420: "Unknown Attribute",
            437: "Allocation Mismatch", 438: "Stale Nonce", 440: "Address Family not Supported", 441: "Wrong Credentials",
            442: "Unsupported Transport Protocol", 443: "Peer Address Family Mismatch", 446: "Connection Already Exists",
            447: "Connection Timeout or Failure", 486: "Allocation Quota Reached", 500: "Server Error", 508: "Insufficient Capacity",
        }
        for code, name in names.items():
            self.assertRegex(call("notes", "errorNote", bytes([0, 0, code // 100, code % 100])), f"^{code} {name}: [a-z]")
        self.assertEqual(call("notes", "errorNote", bytes([0, 0, 6, 99])), "699")
        self.assertEqual([call("notes", "errorNote", bytes(it)) for it in ([], [0, 0, 4])], ["", ""])

    def test_data_is_text_where_it_is_text(self):
        shown = {
            b"hello": '"hello"', b"": "no data", b"\0\1": "0001", b"caf\xc3\xa9": "636166c3a9", b"\xff" * 9: "(9 bytes)",
            b"a" * 32: '"' + "a" * 32 + '"', b"a" * 33: '"' + "a" * 32 + '…"', b"\x7f": "7f", b"<b>": '"<b>"',
        }
        for data, text in shown.items():
            self.assertEqual(call("notes", "dataNote", data), text)

    def test_values_are_read_as_they_were_written(self):
        ident = bytes(range(12))
        for kind, text in (("address", "203.0.113.66:6666"), ("address", "[2001:db8::1]:65535"), ("seconds", "4294967295"),
                           ("channel", "4001"), ("family", "IPv6"), ("transport", "TCP"), ("number", "7")):
            value = call("values", "writeValue", kind, text, ident)
            self.assertEqual(call("values", "typedValue", kind, value, ident)["text"], text)
