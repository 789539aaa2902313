"""IP addresses: one form for each, however it is written."""
import unittest

from yarrowdoor import Address, TurnUri
from yarrowdoor.address import canonical, checked_ip, checked_peer
from yarrowdoor.asked import channel, permission

# Spellings of RFC 4291, section 2.2, and what RFC 5952, section 4, makes of them.
ROWS = [
    ("2001:db8::1", ("2001:DB8::1", "2001:0db8::0001", "2001:db8:0:0:0:0:0:1", "2001:db8:0::1", "2001:dB8::0.0.0.1")),
    ("2001:db8::1:0:0:1", ("2001:db8:0:0:1:0:0:1", "2001:db8::1:0:0:1", "2001:db8:0:0:1::1")),
    ("2001:db8:0:1:1:1:1:1", ("2001:db8::1:1:1:1:1", "2001:db8:0000:1:1:1:1:1")),
    ("2001:0:0:1::1", ("2001:0:0:1:0:0:0:1", "2001::1:0:0:0:1")),
    ("::1", ("0:0:0:0:0:0:0:1", "0::1", "::0:1")),
    ("::", ("0:0:0:0:0:0:0:0", "0::0")),
    ("::ffff:192.0.2.1", ("::FFFF:192.0.2.1", "::ffff:c000:201", "0:0:0:0:0:ffff:192.0.2.1")),
    ("192.0.2.1", ("192.0.2.1",)),
]


class Spellings(unittest.TestCase):
    def test_each_has_one_form(self) -> None:
        """Two spellings of one peer are one peer: of a permission, a channel, and data."""
        for wanted, spellings in ROWS:
            for text in (wanted, *spellings):
                with self.subTest(text=text):
                    self.assertEqual((canonical(text), checked_ip(text)), (wanted, wanted))
                    self.assertEqual(checked_peer((text, 9)), Address(wanted, 9))
                    self.assertEqual(TurnUri(text).host, wanted)
                    self.assertEqual({permission(checked_ip(text)), channel(checked_peer((text, 9)))},
                                     {permission(wanted), channel(Address(wanted, 9))})

    def test_a_zone_stays(self) -> None:
        self.assertEqual(canonical("FE80::0001%eth0"), "fe80::1%eth0")

    def test_what_is_no_address(self) -> None:
        for text in ("", "2001:db8::1::2", "2001:db8:::1", "1:2:3:4:5:6:7", "1:2:3:4:5:6:7:8:9", "12345::", "::192.0.2.256",
                     "192.0.2", "192.0.2.01", "example.org"):
            with self.subTest(text=text):
                self.assertEqual(canonical(text), text)
                with self.assertRaises(ValueError):
                    checked_ip(text)


if __name__ == "__main__":
    unittest.main()
