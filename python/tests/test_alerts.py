"""The alerts of docs/CHECK.md, as Prometheus evaluates them: each comes for what it is there for, and not before."""
import json
import pathlib
import re
import shutil
import subprocess
import tempfile
import textwrap
import unittest
from typing import Any, Dict, List

from .check_page import PAGE

LABELS = {"uri": "turn:turn.example.org"}
DOWN, CERTIFICATE = "TurnDown", "TurnCertificateEnds"


def series(**metrics: str) -> List[Dict[str, str]]:
    """What is scraped, a value each minute, as promtool writes it: `0+60x10` counts up by 60, ten times."""
    return [{"series": f'turn_{name}{{uri="{LABELS["uri"]}"}}', "values": values} for name, values in metrics.items()]


def case(metrics: List[Dict[str, str]], *expected: Any) -> Dict[str, Any]:
    """What is scraped, and for some minutes an alert with the labels of those that there are."""
    wanted = [
        {"eval_time": f"{minute}m", "alertname": name, "exp_alerts": [{"exp_labels": it} for it in labels]}
        for minute, name, labels in expected
    ]
    return {"interval": "1m", "input_series": metrics, "alert_rule_test": wanted}


FRESH = "0+60x10"
CASES = [
    case(series(up="1x10", probe_timestamp_seconds=FRESH, certificate_days="14x10"), (10, DOWN, []), (10, CERTIFICATE, [])),
    # the last check failed
    case(series(up="0x10", probe_timestamp_seconds=FRESH), (1, DOWN, []), (3, DOWN, [LABELS])),
    # one failed, and the next one did not
    case(series(up="1 0 1x8", probe_timestamp_seconds=FRESH), (3, DOWN, []), (5, DOWN, [])),
    # nothing is scraped
    case([], (1, DOWN, []), (3, DOWN, [{}])),
    # the probe is stuck
    case(series(up="1x10", probe_timestamp_seconds="0x10"), (5, DOWN, []), (7, DOWN, []), (9, DOWN, [LABELS])),
    case(series(certificate_days="13.9x10"), (0, CERTIFICATE, [LABELS])),
    case(series(certificate_days="-1x10"), (0, CERTIFICATE, [LABELS])),
]


@unittest.skipUnless(PAGE.exists(), "the sources are not here")
@unittest.skipUnless(shutil.which("promtool"), "promtool is not installed (Debian's package prometheus)")
class Alerts(unittest.TestCase):
    def test_each(self) -> None:
        (rules,) = re.findall(r"^```yaml\n(.*?)^```$", PAGE.read_text(encoding="utf-8"), re.M | re.S)
        with tempfile.TemporaryDirectory() as folder:
            room = pathlib.Path(folder)
            (room / "rules.yml").write_text(f"groups:\n- name: turn\n  rules:\n{textwrap.indent(rules, '  ')}", encoding="utf-8")
            tests = {"rule_files": ["rules.yml"], "evaluation_interval": "1m", "tests": CASES}
            (room / "tests.yml").write_text(json.dumps(tests), encoding="utf-8")
            for words in (["check", "rules", "rules.yml"], ["test", "rules", "tests.yml"]):
                ran = subprocess.run(["promtool", *words], cwd=room, stdout=subprocess.PIPE, stderr=subprocess.STDOUT, text=True)
                self.assertEqual(ran.returncode, 0, ran.stdout)


if __name__ == "__main__":
    unittest.main()
