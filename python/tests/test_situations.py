"""What a check says of servers in some sixty situations that operators have, each in network namespaces of its own.

The slow ones are tried with YARROWDOOR_SLOW=1; with YARROWDOOR_SITUATION=NAME,.. those only.
"""
import json
import os
import pathlib
import shutil
import subprocess
import sys
import tempfile
import unittest
from concurrent.futures import ThreadPoolExecutor
from typing import Any, Dict, Sequence

from . import coturn, situations
from .turn_servers import HAS_PION, build_pion, limit

NEEDED = ("unshare", "ip", "nft", "openssl", "sysctl")
WHY = "this user may make no network namespaces, or one of these is missing: " + ", ".join(NEEDED)
# Side by side, since most of their time they wait.
JOBS = 8
# Keys that are soon made.
EC = ("-newkey", "ec", "-pkeyopt", "ec_paramgen_curve:prime256v1")
# With delays of seconds, or hundreds of packets that are waited for.
SLOW = ("answers too late", "far away", "hangs over TCP", "policer", "much loss", "relay over IPv6 only", "nonces of a second",
        "NAT that is right", "relay at another address", "rejected over UDP", "certificate for a name", "resets")
# What does not come out alike each time: how many packets precede the reset depends on how the system acknowledges them.
UNSURE = ("reset after data",)


def has_namespaces() -> bool:
    """Whether this user may make what the situations need."""
    if not all(map(shutil.which, NEEDED)):
        return False
    words = ["unshare", "-n", "-m", "sh", "-c", f"{situations.SETUP.strip()} && ip netns exec srv nft list tables"]
    return subprocess.run(words, stdout=subprocess.DEVNULL, stderr=subprocess.DEVNULL).returncode == 0


def openssl(*words: str) -> None:
    subprocess.run(["openssl", *words], check=True, stderr=subprocess.DEVNULL)


def make_authority(certs: pathlib.Path, name: str) -> None:
    openssl("req", "-x509", *EC, "-nodes", "-subj", f"/O=Some Authority/CN={name}", "-keyout", f"{certs}/{name}.key",
            "-out", f"{certs}/{name}.pem", "-days", "100")


def sign(certs: pathlib.Path, name: str, issuer: str, days: int, extensions: str) -> None:
    """A certificate for turn.example.org, or of an authority, of an issuer."""
    (certs / f"{name}.ext").write_text(extensions)
    openssl("req", "-new", *EC, "-nodes", "-subj", f"/CN={name}", "-keyout", f"{certs}/{name}.key", "-out",
            f"{certs}/{name}.csr")
    openssl("x509", "-req", "-in", f"{certs}/{name}.csr", "-CA", f"{certs}/{issuer}.pem", "-CAkey", f"{certs}/{issuer}.key",
            "-CAcreateserial", "-out", f"{certs}/{name}.pem", "-days", str(days), "-extfile", f"{certs}/{name}.ext")


def make_certificates(certs: pathlib.Path) -> None:
    """Those that the situations name: of an authority, of one below it, and one that ends tomorrow."""
    leaf = "subjectAltName=DNS:turn.example.org\nbasicConstraints=CA:FALSE\n"
    make_authority(certs, "root")
    sign(certs, "good", "root", 90, leaf)
    sign(certs, "soon", "root", 1, leaf)
    sign(certs, "between", "root", 90, "basicConstraints=critical,CA:TRUE\n")
    sign(certs, "chained", "between", 90, leaf)


@unittest.skipUnless(coturn.IS_HERE, coturn.WHY)
@unittest.skipUnless(has_namespaces(), WHY)
class Situations(unittest.TestCase):
    def found(self, name: str, certs: pathlib.Path) -> Dict[str, Any]:
        """What a check says in a situation."""
        with tempfile.TemporaryDirectory() as room:
            words = [sys.executable, "-m", "tests.situations", name, room, str(certs)]
            shell = ["unshare", "-n", "-m", "--kill-child", "sh", "-c", f'{situations.SETUP.strip()} && exec "$@"', "sh", *words]
            ran = subprocess.run(shell, cwd=situations.TOP, stdout=subprocess.PIPE, stderr=subprocess.PIPE, text=True, timeout=300)
            self.assertEqual(ran.returncode, 0, ran.stderr)
            found: Dict[str, Any] = json.loads(ran.stdout)
            return found

    def judge(self, name: str, found: Dict[str, Any]) -> None:
        situation = situations.ALL[name]
        shown = json.dumps(found, indent=1)
        self.assertEqual(found["returned"], situation.status, shown)
        steps = {it["name"]: it for it in found["steps"]}
        if not situation.step:
            self.assertEqual([it for it in steps if steps[it]["outcome"] == "failed"], [], shown)
            self.assertEqual((steps["outside"]["outcome"], steps["outside"]["facts"]["in"]), ("ok", 3), shown)
        else:
            self.assertIn(situation.step, steps, shown)
            step = steps[situation.step]
            self.assertEqual(step["outcome"], situation.outcome, shown)
            for said in situation.said:
                self.assertIn(said, f"{step['said']} {step['advice']}", shown)
        if situation.is_alone:
            self.assertEqual([it for it in steps if steps[it]["outcome"] == "failed"], [situation.step], shown)
        if situation.seconds:
            self.assertLess(found["took"], limit(situation.seconds))

    def try_all(self, names: Sequence[str]) -> None:
        """Side by side, and those that go wrong once more, alone: on a busy machine a packet may be late."""
        with tempfile.TemporaryDirectory() as room:
            certs = pathlib.Path(room)
            make_certificates(certs)
            if HAS_PION:
                build_pion(room)
            else:
                names = [it for it in names if not situations.ALL[it].pion]
            with ThreadPoolExecutor(JOBS) as pool:
                running = [(it, pool.submit(self.found, it, certs)) for it in names]
            for name, found in running:
                with self.subTest(name):
                    try:
                        self.judge(name, found.result())
                    except AssertionError as error:
                        print(f"{name}: once more, since {str(error)[:200]}", file=sys.stderr)
                        self.judge(name, self.found(name, certs))

    def test_quick_ones(self) -> None:
        named = os.environ.get("YARROWDOOR_SITUATION")
        self.try_all(named.split(",") if named else [it for it in situations.ALL if it not in SLOW + UNSURE])

    @unittest.skipUnless(os.environ.get("YARROWDOOR_SLOW"), "it is slow: set YARROWDOOR_SLOW=1")
    def test_slow_ones(self) -> None:
        self.try_all(SLOW)


if __name__ == "__main__":
    unittest.main()
