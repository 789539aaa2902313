"""What turn_replay answers to the lines that the page gives, where the gate has left the program."""
import os
import subprocess

from web.test.browser import ROOT, browser

PROGRAM = os.environ.get("TURN_REPLAY") or str(ROOT / "crates" / "turn_replay" / "out" / "turn_replay")


def check_by_replay(test):
    """The answers that are shown are those of turn_replay to the lines of the page. Without the program nothing is compared, which
    tools/check/test-web says."""
    if not os.access(PROGRAM, os.X_OK):
        return
    page = browser()
    lines = page.driver.execute_script("return document.getElementById('lines').value")
    done = subprocess.run([PROGRAM], input=lines.encode(), capture_output=True, timeout=60)
    shown = [answer for answer in page.answers() if answer is not None]
    test.assertEqual((done.stdout.decode().splitlines(), done.returncode), (shown, 0))
