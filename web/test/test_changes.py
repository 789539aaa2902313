"""What a reader does to a run, and what the client answers then."""
import hashlib
import hmac
import re
import unittest

from web.test.browser import browser
from web.test.replay import check_by_replay

EXCHANGE = "#run=exchange/data_is_delivered_and_answered"
STREAM = "#run=exchange/data_goes_both_ways_over_a_stream"
# Steps of the first of them.
CHALLENGE, GRANT, REQUEST, PERMITTED, DATA = 1, 3, 6, 7, 9


class Changes(unittest.TestCase):
    def setUp(self):
        self.page = browser()
        self.page.open(EXCHANGE)
        self.before = self.page.answers()

    def tearDown(self):
        self.assertEqual(self.page.errors(), [])

    def flip(self, step, byte, bit):
        """Flips a bit as a reader does: by a click on the step, on the byte and on the bit."""
        self.page.choose(step)
        self.page.driver.find_elements("css selector", ".bytes [role=gridcell]")[byte].click()
        self.page.find(f".bits [data-bit='{bit}']").click()
        self.page.settle()

    def differing(self):
        return [at for at, (_, _, before) in enumerate(self.page.rows()) if before is not None]

    def test_a_flipped_bit_of_a_signed_success_is_ignored(self):
        self.flip(PERMITTED, 40, 3)
        self.assertEqual(self.page.answers()[PERMITTED], "ignored")
        self.assertIn("its signature is wrong", self.page.text("packet"))
        self.assertIn("pending", self.page.text("state"))
        # The event, the data and the packet to the peer, and the wake-up time: there is no permission.
        self.assertEqual(self.differing(), [PERMITTED, 8, 9, 10, 11])
        self.assertEqual(self.page.answers()[8:11], ["none", "ignored", "refused no-permission"])
        check_by_replay(self)

    def test_a_flipped_bit_that_hides_the_signature_grants_no_allocation(self):
        # The type of MESSAGE-INTEGRITY, 0008, becomes 0009.
        self.flip(GRANT, 41, 0)
        self.assertEqual(self.page.answers()[GRANT], "ignored")
        self.assertIn("there is no MESSAGE-INTEGRITY", self.page.text("packet"))
        self.assertTrue(self.page.find("#no-grants").is_displayed())
        check_by_replay(self)

    def test_each_bit_of_a_signed_success_counts(self):
        # Of the transaction ID, the peer's address, the integrity's value; not in the padding, which a success has none of.
        for byte in (8, 19, 24, 43):
            with self.subTest(byte=byte):
                self.page.open(EXCHANGE)
                self.flip(PERMITTED, byte, 7)
                self.assertEqual(self.page.answers()[PERMITTED], "ignored")

    def test_undo_and_redo_are_what_they_say(self):
        self.flip(PERMITTED, 40, 3)
        flipped = self.page.answers()
        self.page.press("Undo")
        self.assertEqual((self.page.answers(), self.differing()), (self.before, []))
        self.page.press("Redo")
        self.assertEqual(self.page.answers(), flipped)
        self.page.press("Original")
        self.assertEqual(self.page.answers(), self.before)
        self.page.find("#ladder").click()
        self.page.chord("y")
        self.assertEqual(self.page.answers(), flipped)
        self.page.chord("z")
        self.assertEqual(self.page.answers(), self.before)

    def test_what_is_left_out_is_not_made(self):
        self.page.choose(GRANT)
        self.page.press("Leave it out")
        self.assertIsNone(self.page.answers()[GRANT])
        self.assertEqual(self.page.answers()[4:6], ["none", "refused no-allocation"])
        check_by_replay(self)

    def test_a_copy_of_a_reply_changes_nothing(self):
        self.page.choose(PERMITTED)
        self.page.press("Repeat it")
        answers = self.page.answers()
        self.assertEqual((answers[PERMITTED + 1], answers[:8] + answers[9:]), ("ignored", self.before))
        self.assertIn("a response counts once", self.page.text("packet"))
        check_by_replay(self)

    def test_a_step_changes_places_with_the_next(self):
        self.page.choose(PERMITTED)
        self.page.press("Swap it with the next")
        lines = [line for line, _, _ in self.page.rows()]
        self.assertEqual([line.split(" ")[1] for line in lines[7:9]], ["event", "recv"])
        self.assertEqual(self.page.answers()[7:9], ["none", "handled"])
        check_by_replay(self)

    def test_a_reply_that_is_late_comes_behind_others(self):
        self.page.choose(GRANT)
        self.fill("Delay it", 100)
        rows = self.page.rows()
        self.assertEqual(rows[11][0][:14], "150000000 recv")
        self.assertEqual([answer for _, answer, _ in rows[3:5]], ["none", "refused no-allocation"])
        check_by_replay(self)

    def fill(self, name, value):
        """Types a number into the form of this button, and presses it."""
        button = [it for it in self.page.driver.find_elements("css selector", "#change form button") if it.text == name][0]
        field = button.find_element("xpath", "..").find_element("css selector", "input")
        field.clear()
        field.send_keys(str(value))
        button.click()
        self.page.settle()

    def test_nothing_comes_for_a_minute(self):
        self.page.choose(REQUEST)
        self.fill("Be silent behind it", 60)
        # RFC 8489, section 6.2.1: the request times out 39.5 s after it was made, and the reply is too late.
        self.assertIn("permit-failed udp 10.0.0.3", self.page.answers())
        late = [answer for line, answer, _ in self.page.rows() if line.startswith("60100000000 recv")]
        self.assertEqual(late, ["ignored", "ignored"])
        check_by_replay(self)

    def test_a_stream_is_cut_anywhere(self):
        self.page.open(STREAM)
        before, rows = self.page.answers(), self.page.rows()
        step = next(at for at, (line, _, _) in enumerate(rows) if " recv tcp" in line and len(line.split(" ")[-1]) > 100)
        self.page.choose(step)
        self.fill("Cut it", 30)
        answers = self.page.answers()
        self.assertEqual(answers[step:step + 3], ["handled", "none", before[step]])
        self.assertEqual(answers[step + 3:], before[step + 1:])
        self.assertIn("the beginning of a frame", self.page.text("packet"))
        self.page.choose(step + 2)
        self.assertIn("the rest of a frame", self.page.text("packet"))
        check_by_replay(self)

    def test_a_call_is_added_behind_a_step(self):
        self.page.choose(PERMITTED)
        line = self.page.find("#call-line")
        line.clear()
        line.send_keys("100000000 have udp 10.0.0.3")
        self.page.press("Add")
        self.assertEqual(self.page.rows()[PERMITTED + 1][:2], ["100000000 have udp 10.0.0.3", "yes"])
        check_by_replay(self)

    def test_a_line_that_is_no_call_is_refused_and_changes_nothing(self):
        self.page.choose(PERMITTED)
        bad = {
            "100000000 have udp 10.0.0": "Bad argument", "x poll": "Bad moment", "1 think": "Bad call", "": "Bad moment",
            "1 poll now": "Bad argument", "01 poll": "Bad moment", "4611686018427387905 poll": "Bad moment",
        }
        for line, why in bad.items():
            with self.subTest(line):
                field = self.page.find("#call-line")
                field.clear()
                field.send_keys(line)
                self.page.press("Add")
                self.assertEqual((self.page.text("alert"), self.page.answers()), (f"{why}.", self.before))

    def test_a_field_is_changed_and_signed_again(self):
        self.page.choose(GRANT)
        self.page.find("button[aria-label='Change LIFETIME']").click()
        field = self.page.find("#packet form input")
        self.assertEqual(field.get_attribute("value"), "1000")
        field.clear()
        field.send_keys("2000\n")
        self.page.settle()
        self.assertIn("its signature is wrong", self.page.text("packet"))
        self.page.press("Sign it as the server")
        self.assertIn("it is signed with the key", self.page.text("packet"))
        self.assertIn("until 2,000.05 s", self.page.text("state"))
        message = bytes.fromhex(self.page.rows()[GRANT][0].split(" ")[-1])
        key = hashlib.md5(b"user:realm:pass").digest()
        self.assertEqual(hmac.new(key, message[:-24], "sha1").digest(), message[-20:])
        self.assertEqual(self.page.answers()[:11], self.before[:11])
        check_by_replay(self)

    def test_a_value_that_is_none_is_refused(self):
        self.page.choose(GRANT)
        bad = (("LIFETIME", "soon"), ("LIFETIME", "4294967296"), ("XOR-RELAYED-ADDRESS", "10.0.0.4"), ("MESSAGE-INTEGRITY", "xy"))
        for name, value in bad:
            with self.subTest(name, value=value):
                self.page.choose(GRANT)
                self.page.find(f"button[aria-label='Change {name}']").click()
                field = self.page.find("#packet form input")
                field.clear()
                field.send_keys(f"{value}\n")
                self.assertIn("That is not", self.page.find("#packet form [role=alert]").text)
                self.assertEqual(self.page.answers(), self.before)

    def test_an_attribute_is_left_out(self):
        self.page.choose(GRANT)
        self.page.find("button[aria-label='Change MESSAGE-INTEGRITY']").click()
        [it for it in self.page.driver.find_elements("css selector", "#packet form button") if it.text == "Leave out"][0].click()
        self.page.settle()
        message = self.page.rows()[GRANT][0].split(" ")[-1]
        self.assertEqual((self.page.answers()[GRANT], message[4:8], len(message)), ("ignored", "0014", 80))

    def test_codes_and_text_are_said_in_words(self):
        labels = self.page.driver.execute_script("""
            return [...document.querySelectorAll("#ladder [role=option]")].map((row) => [row.querySelector("text:last-of-type").textContent,
                row.getAttribute("aria-label")]);
        """)
        # RFC 8489, section 14.8, has the name of the code; 68656c6c6f is ASCII.
        self.assertIn("Allocate error 401 Unauthenticated: prove who you are", labels[CHALLENGE][0])
        self.assertIn("Allocate error 401 Unauthenticated: prove who you are; handled", labels[CHALLENGE][1])
        self.assertIn('Data indication "hello" → data udp 10.0.0.3:9000 "hello"', labels[DATA][0])
        self.assertIn('Send indication "hello"', labels[DATA + 1][0])
        self.page.choose(DATA + 1)
        self.assertIn('send udp 10.0.0.3:9000 "hello"', self.page.text("packet"))
        self.page.open("#run=channels/a_channel_carries_data_both_ways")
        carried = [row.get_attribute("aria-label") for row in self.page.driver.find_elements("css selector", "#ladder [role=option]")]
        self.assertTrue(any(re.search(r'ChannelData 4000 "\w+"', label) for label in carried), carried)

    def test_the_first_difference_is_found(self):
        self.flip(PERMITTED, 40, 3)
        self.page.choose(0)
        self.page.press("Next difference")
        self.assertEqual(self.page.chosen(), PERMITTED)
        self.assertEqual(self.page.text("summary"), "1 step is changed; 5 answers differ from the original.")
        self.assertIn("differs: it was handled", self.page.text("packet"))


class States(unittest.TestCase):
    """Grants with the times at which they end: by the lifetimes of RFC 8656, sections 3.2, 9 and 12."""

    def state_at(self, fragment, step):
        browser().open(f"{fragment}&step={step}")
        return browser().text("state")

    def test_grants_end_when_their_lifetimes_do(self):
        state = self.state_at(STREAM, 999)
        self.assertIn("allocation", state)
        self.assertRegex(state, r"allocation 10\.0\.0\.4:40000, over UDP active until 1,000\.07 s")
        self.assertRegex(state, r"permission 10\.0\.0\.3 active until 300\.22 s")
        self.assertRegex(state, r"channel 10\.0\.0\.3:9000, number 4000 active until [36]")

    def test_a_channel_outlasts_its_permission(self):
        state = self.state_at("#run=channels/a_channel_carries_data_both_ways", 999)
        self.assertRegex(state, r"permission 10\.0\.0\.3 active until 300\.\d+ s")
        self.assertRegex(state, r"channel 10\.0\.0\.3:9000, number 4000 active until 600\.\d+ s")

    def test_a_channel_that_ended_is_reserved(self):
        state = self.state_at("#run=channels/a_channel_that_is_not_renewed_ends_after_600_seconds", 999)
        self.assertRegex(state, r"channel 10\.0\.0\.3:9000 reserved until \d")

    def test_phases_are_those_of_the_machine(self):
        for step, phase in ((0, "Requesting"), (CHALLENGE, "Authenticating"), (GRANT, "Allocated")):
            self.assertIn(f"Phase\n{phase}", self.state_at(EXCHANGE, step))
        self.assertIn("Phase\nClosed", self.state_at("#run=deletion/a_deletion_ends_the_client", 999))
