"""A relay that comes back, in network namespaces: what tests/outage.py sees for each fault, over UDP and TCP.

Each is run once. `YARROWDOOR_OUTAGES=20` runs each so many times, sixteen at a time.
"""
import concurrent.futures
import json
import os
import pathlib
import shutil
import subprocess
import sys
import unittest
from typing import Any, Dict, List, Tuple

from . import coturn as server
from .test_path import has_namespaces

FAULTS = ("silence", "unplugged", "moved", "restarted")
RUNS = int(os.environ.get("YARROWDOOR_OUTAGES", "1"))
# Data flows again within so many seconds of the return.
SOON = 5.0
TOP = pathlib.Path(__file__).resolve().parent.parent


def run(transport: str, fault: str) -> Dict[str, Any]:
    """What one run has seen, or what it has said in place of that."""
    ran = subprocess.run(["unshare", "-n", sys.executable, "-m", "tests.outage", transport, fault], cwd=TOP, text=True,
                         stdout=subprocess.PIPE, stderr=subprocess.STDOUT, timeout=150)
    try:
        found: Dict[str, Any] = json.loads(ran.stdout.splitlines()[-1])
        return found
    except (IndexError, ValueError):
        return {"said": ran.stdout}


@unittest.skipUnless(has_namespaces() and shutil.which("nsenter") and shutil.which("tc"),
                     "this user may make no network namespace (unshare, nsenter, ip, tc)")
@unittest.skipUnless(server.IS_HERE, server.WHY)
class Outages(unittest.TestCase):
    def test_all(self) -> None:
        runs: List[Tuple[str, str]] = [(transport, fault) for transport in ("udp", "tcp") for fault in FAULTS] * RUNS
        with concurrent.futures.ThreadPoolExecutor(len(runs) if RUNS == 1 else 16) as pool:
            for (transport, fault), seen in zip(runs, pool.map(lambda it: run(*it), runs)):
                with self.subTest(transport=transport, fault=fault):
                    if RUNS > 1:
                        print(transport, fault, seen.get("seconds"), flush=True)
                    self.assertTrue(self.is_back(seen), seen)

    def is_back(self, seen: Dict[str, Any]) -> bool:
        """Whether data flows again soon, from a new address, and each change was told once."""
        kinds = [it.split()[0] for it in seen.get("states", [])]
        is_soon = seen.get("seconds") is not None and seen["seconds"] <= SOON
        return is_soon and bool(seen["is_new"]) and kinds == ["up", "down", "up"] and seen["lost"] == 0


if __name__ == "__main__":
    unittest.main()
