"""The table of defaults in docs/CONCEPTS.md, column by column, against what the library and the package do."""
import ctypes
import inspect
import pathlib
import unittest
from typing import Any, Dict, List, Mapping

from yarrowdoor import Client, Relay, TurnClient, layout as c, sync
from yarrowdoor.library import load
from yarrowdoor.settings import Times

PAGE = pathlib.Path(__file__).resolve().parents[2] / "docs" / "CONCEPTS.md"
# Sums of the waits of RFC 8489, section 6.2.1: 0.5 s doubled six times, and 16 times 0.5 s at the end.
WAITS = 39.5
FROM = "a queued request waits from"


def column(name: str) -> Dict[str, str]:
    """The cells of a column by the first cell of their rows."""
    lines = PAGE.read_text(encoding="utf-8").splitlines()
    rows = [[cell.strip() for cell in line.strip("|").split("|")] for line in lines if line.startswith("| ")]
    heading = next(row for row in rows if "Rattle, Rust" in row)
    place = next(at for at, cell in enumerate(heading) if name in cell)
    below = rows[rows.index(heading) + 1:]
    return {row[0]: row[place] for row in below if len(row) == len(heading)}


def told(value: float) -> str:
    """Seconds as the page has them."""
    return "never" if value == 0 else f"{value:g}"


def fails_after(times: Any) -> str:
    if times is None:
        return told(WAITS)
    assert isinstance(times, Times)
    waits: List[int] = []
    for place in range(times.count - 1):
        waits.append(min(times.initial << place, times.longest))
    return told((sum(waits) + times.last) / 1e9)


def named(of: Any) -> Mapping[str, Any]:
    return {name: it.default for name, it in inspect.signature(of.__init__).parameters.items()}


class Settings(ctypes.Structure):
    """struct yarrowdoor_settings, as its bytes."""

    _fields_ = [("bytes", ctypes.c_uint8 * c.SETTINGS.size)]


class Defaults(unittest.TestCase):
    def test_c(self) -> None:
        page, make = column("yarrowdoor_settings_of"), ctypes.CDLL(load().path).yarrowdoor_settings_of
        make.argtypes, make.restype = (ctypes.c_uint32, ctypes.c_char_p, ctypes.c_char_p), Settings
        found = c.SETTINGS.unpack(bytes(make(c.UDP, c.NO_ADDRESS, c.NO_ADDRESS).bytes))
        has_waits, family, other, algorithm, second, anonymous, nonces = found[4], found[7], found[8], *found[9:13]
        from_send, pause, keepalive, ahead = found[13], *found[16:19]
        self.assertEqual((has_waits, family, other, algorithm, second, anonymous), (0, 4, 0, 1, 0, 0))
        self.assertEqual([page[it] for it in ("family of the relayed address", "algorithms", "user name hidden")],
                         ["IPv4", "SHA-1", "no"])
        # 0 is the library's own default, which include/yarrowdoor.h names.
        self.assertEqual((keepalive, ahead), (0, 0))
        self.assertEqual((page["keepalive"], page["refresh ahead"]), ("never", "60"))
        self.assertEqual(page["pause between two requests"], told(pause / 1e9))
        self.assertEqual(page[FROM], {0: "its call", 1: "its first packet"}[from_send])
        self.assertEqual(page["challenges in a row"], str(nonces))

    def test_client_without_io(self) -> None:
        page, has = column("Python `Client`"), named(Client)
        self.assertEqual(page["pause between two requests"], told(has["pause"] / 1e9))
        self.assertEqual(page["keepalive"], told(has["keepalive"] / 1e9))
        self.assertEqual(page["refresh ahead"], told(has["refresh_ahead"] / 1e9))
        self.assertEqual(page[FROM], {False: "its call", True: "its first packet"}[has["timed_from_send"]])
        self.assertEqual(page["challenges in a row"], str(has["max_stale_nonces"]))
        self.assertEqual(page["algorithms"], ", ".join({"sha256": "SHA-256", "sha1": "SHA-1"}[it] for it in has["algorithms"]))
        self.assertEqual(page["a request fails after"], fails_after(has["times"]))

    def check_relay(self, page: Mapping[str, str], has: Mapping[str, Any]) -> None:
        common = {**named(TurnClient), **has}
        self.assertEqual(page["pause between two requests"], told(common["pause"]))
        self.assertEqual(page["keepalive"], told(common["keepalive"]))
        self.assertEqual(page["refresh ahead"], told(common["refresh_ahead"]))
        self.assertEqual(page["challenges in a row"], str(common["max_stale_nonces"]))
        self.assertEqual(page["family of the relayed address"], f"IPv{common['family']}")
        self.assertEqual(page["user name hidden"], {"auto": "no"}[common["anonymous"]])
        self.assertEqual(page["probe of the path"], told(common["probe"] or 0))
        self.assertEqual(page["a request fails after"], fails_after(common["times"]))
        self.assertEqual(page["waiting packets of peers"], f"{common['queue']:,}")

    def test_turn_client(self) -> None:
        self.check_relay(column("Python `TurnClient`"), {})
        self.check_relay(column("Python `TurnClient`"), {"queue": named(sync.TurnClient)["queue"]})

    def test_relay(self) -> None:
        self.check_relay(column("Python `Relay`"), named(Relay))


if __name__ == "__main__":
    unittest.main()
