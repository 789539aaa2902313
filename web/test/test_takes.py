"""What is taken along: lines, links, captures. A link is written by anybody."""
import pathlib
import tempfile
import time
import unittest
import urllib.parse

from web.test.browser import ROOT, browser, tool

EXCHANGE = "exchange/data_is_delivered_and_answered"
# Captures that are compared: over UDP, over TCP with data connections, and to an IPv6 peer.
CAPTURED = (EXCHANGE, "exchange/data_goes_both_ways_over_a_stream", "connection/data_is_delivered_and_answered_over_its_connection",
            "channels/peers_of_both_families_have_channels")


class Takes(unittest.TestCase):
    def setUp(self):
        self.page = browser()

    def tearDown(self):
        self.assertEqual(self.page.errors(), [])

    def test_lines_are_those_of_the_transcript(self):
        self.page.open(f"#run={EXCHANGE}")
        (case,) = tool("check/transcripts").cases_of(pathlib.Path(ROOT / "transcripts" / f"{EXCHANGE}.txt"))
        self.assertEqual(self.page.driver.execute_script("return document.getElementById('lines').value"), case.trace().decode())

    def test_lines_and_link_are_copied(self):
        self.page.open(f"#run={EXCHANGE}")
        self.page.driver.execute_cdp_cmd("Browser.grantPermissions", {"permissions": ["clipboardReadWrite", "clipboardSanitizedWrite"]})
        for name, script in (("Copy lines", "document.getElementById('lines').value"), ("Copy link", "location.href")):
            wanted = self.page.driver.execute_script(f"return {script}")
            self.page.press(name)
            self.page.until("return document.getElementById('status').textContent.endsWith('copied.')")
            found = self.page.driver.execute_async_script("navigator.clipboard.readText().then(arguments[0])")
            self.assertEqual(found, wanted)

    def test_a_link_shows_the_same(self):
        self.page.open()
        for question in ("Forge a success", "Be silent for a minute", "Cut a stream"):
            with self.subTest(question):
                self.page.ask(question)
                wanted = self.page.rows(), self.page.chosen(), self.page.text("state")
                self.page.open("#" + self.page.driver.current_url.split("#", 1)[1])
                self.assertEqual((self.page.rows(), self.page.chosen(), self.page.text("state")), wanted)

    def back(self, script="history.back()", run=EXCHANGE):
        """Goes back as a reader does, and waits until the run is shown."""
        before = self.page.driver.execute_script("document.getElementById('state').dataset.step = ''; return location.href")
        self.page.driver.execute_script(script)
        self.page.until("return location.href !== arguments[0]", before)
        self.page.until("return document.getElementById('main').dataset.run === arguments[0]", run)
        self.page.settle()

    def test_back_leads_to_the_step_that_was_chosen_before(self):
        self.page.load(f"#run={EXCHANGE}")
        length = self.page.driver.execute_script("return history.length")
        for step in (3, 7):
            self.page.choose(step)
        self.page.find("#ladder").send_keys("\ue010")
        self.page.settle()
        self.assertEqual(self.page.driver.execute_script("return history.length"), length + 3)
        for step in (7, 3, 0):
            self.back()
            self.assertEqual((self.page.chosen(), self.page.text("packet-title")), (step, f"Step {step + 1}"))
        self.back("history.forward()")
        self.assertEqual(self.page.chosen(), 3)

    def test_a_key_that_is_held_down_leads_to_one_place(self):
        self.page.load(f"#run={EXCHANGE}")
        length = self.page.driver.execute_script("return history.length")
        self.page.driver.execute_script("""
            for (const repeat of [false, true, true, true]) {
                document.getElementById("ladder").dispatchEvent(new KeyboardEvent("keydown", { key: "ArrowDown", repeat, bubbles: true }));
            }
        """)
        self.page.settle()
        self.assertEqual(self.page.chosen(), 4)
        self.assertEqual(self.page.driver.execute_script("return history.length"), length + 1)
        self.back()
        self.assertEqual(self.page.chosen(), 0)

    def test_a_step_that_is_chosen_again_is_no_other_place(self):
        self.page.load(f"#run={EXCHANGE}&step=3")
        length = self.page.driver.execute_script("return history.length")
        self.page.choose(3)
        self.assertEqual(self.page.driver.execute_script("return history.length"), length)

    def test_back_leads_from_a_question_to_the_run_before(self):
        self.page.load(f"#run={EXCHANGE}&step=5")
        before = self.page.answers()
        self.page.ask("Flip one bit")
        self.page.ask("Cut a stream")
        self.back()
        self.assertTrue(self.page.text("asked").startswith("Flip one bit"))
        self.assertEqual(self.page.answers()[self.page.chosen()], "ignored")
        self.back()
        self.assertEqual((self.page.chosen(), self.page.answers(), self.page.text("asked")), (5, before, ""))
        self.back("history.forward()")
        self.assertTrue(self.page.text("asked").startswith("Flip one bit"))

    def test_an_edit_is_no_other_place(self):
        self.page.load(f"#run={EXCHANGE}")
        self.page.choose(3)
        length = self.page.driver.execute_script("return history.length")
        self.page.press("Leave it out")
        self.page.press("Undo")
        self.page.press("Redo")
        self.assertEqual(self.page.driver.execute_script("return history.length"), length)
        self.back()
        self.assertEqual((self.page.chosen(), self.page.text("summary")), (0, "12 steps, as recorded."))
        self.back("history.forward()")
        self.assertEqual((self.page.chosen(), self.page.answers()[3]), (3, None))

    def test_a_link_that_is_none_is_refused_and_shows_the_run(self):
        none = "The address names no run of this page."
        bad = {
            "#run=exchange/nothing": none, "#run=../../etc/passwd": none, "#run=<img src=x onerror=alert(1)>": none,
            "#hello": none, f"#run={EXCHANGE}&edit=think 1": "There is no edit think",
            f"#run={EXCHANGE}&edit=drop 99": "There is no place 99",
            f"#run={EXCHANGE}&edit=set 3 9999 00": "There is no place 9999",
            f"#run={EXCHANGE}&edit=set 3 0 0g": "Bytes are hexadecimal digits",
            f"#run={EXCHANGE}&edit=drop 3;drop 3": "Step 4 is left out", f"#run={EXCHANGE}&edit=add 0 x": "Bad moment",
            f"#run={EXCHANGE}&edit=__proto__ 1": "There is no edit __proto__", f"#run={EXCHANGE}&edit=add 0 1 constructor": "Bad call",
            f"#run={EXCHANGE}&edit=seed 00": "A seed is 64", f"#run={EXCHANGE}&edit=cut 3 10": "Only what came over TCP",
            f"#run={EXCHANGE}&edit=delay 3 9223372036854775807": "There is no time",
            f"#run={EXCHANGE}&edit=later 0 99999999999999999999": "There is no time",
            f"#run={EXCHANGE}&edit=<b>bold</b>": "There is no edit <b>bold</b>",
        }
        for fragment, why in bad.items():
            with self.subTest(fragment):
                self.page.open(urllib.parse.quote(fragment, safe="#&=/?"))
                self.assertIn(why, self.page.text("alert"))
                self.assertEqual(len(self.page.rows()), 12)
                self.assertEqual(self.page.text("summary"), "12 steps, as recorded.")
        self.assertEqual(self.page.driver.find_elements("css selector", "#alert b, #alert img"), [])

    def test_captures_are_those_of_lines_to_pcap(self):
        for name in CAPTURED:
            with self.subTest(name), tempfile.TemporaryDirectory() as room:
                wanted = pathlib.Path(room) / "wanted.pcap"
                tool("draw/lines-to-pcap").main([str(ROOT / "transcripts" / f"{name}.txt"), str(wanted)])
                self.page.open(f"#run={name}")
                self.assertEqual(self.capture(), wanted.read_bytes())

    def capture(self):
        """What the page saves."""
        for file in self.page.saved.glob("*"):
            file.unlink()
        self.page.press("Save capture for Wireshark")
        end = time.monotonic() + 30
        while time.monotonic() < end:
            files = list(self.page.saved.glob("*.pcap"))
            if files:
                return files[0].read_bytes()
            time.sleep(0.05)
        raise AssertionError("no capture was saved")

    def test_the_page_asks_no_other_server_for_anything(self):
        self.page.open()
        self.page.ask("Forge a success")
        names = self.page.driver.execute_script("return performance.getEntriesByType('resource').map((it) => it.name)")
        self.assertGreater(len(names), 10)
        self.assertEqual([name for name in names if not name.startswith(self.page.url)], [])

    def test_scripts_of_others_and_markup_are_refused(self):
        self.page.open()
        script = "const it = document.createElement('script'); it.text = 'document.title = `planted`'; document.body.append(it)"
        with self.assertRaisesRegex(Exception, "TrustedScript|trusted"):
            self.page.driver.execute_script(script)
        self.assertNotEqual(self.page.driver.title, "planted")
        self.page.errors()
