"""The starting points: what each shows, as the standards and the machine of docs/rattle/MACHINE.md have it."""
import unittest

from web.test.browser import browser
from web.test.replay import check_by_replay

# Each question: the answer of the step that it shows, words of why, words of the state, and words that are not in the state.
SHOWN = {
    "Forge a success": ("ignored", "there is no MESSAGE-INTEGRITY", "No allocation", "10.0.0.4:40000"),
    "Flip one bit": ("ignored", "its signature is wrong", "pending", "permitted"),
    "Spoil the allocation": ("handled", "its signature is wrong", "Closed", "10.0.0.4:40000"),
    "Replay yesterday's reply": ("ignored", "no request of this client has its transaction ID", "No allocation", "10.0.0.4:40000"),
    "Let the nonce go stale": ("handled", "it is a challenge", "pending", "until 300"),
    "Lose a packet": (None, "lost on its way", "No allocation", "10.0.0.4:40000"),
    "Be silent for a minute": ("closed", "", "Closed", "10.0.0.4:40000"),
    "Answer from elsewhere": ("ignored", "it came from 203.0.113.66:2000", "No allocation", "10.0.0.4:40000"),
    "Send data as a stranger": ("ignored", "203.0.113.66:6666, has no permission", "until 300.1 s", "203.0.113.66"),
    "Cut a stream": ("handled", "it came from the server", "No allocation", "10.0.0.4:40000"),
}


class Questions(unittest.TestCase):
    def test_each_question_shows_its_answer(self):
        page = browser()
        page.open()
        script = "return [...document.querySelectorAll('#questions button')].map((it) => it.firstChild.textContent)"
        self.assertEqual(page.driver.execute_script(script), list(SHOWN))
        for name, (answer, why, there, gone) in SHOWN.items():
            with self.subTest(name):
                page.ask(name)
                self.assertEqual(page.answers()[page.chosen()], answer)
                self.assertIn(why, page.text("packet"))
                self.assertIn(there, page.text("state"))
                self.assertNotIn(gone, page.text("state"))
        self.assertEqual(page.errors(), [])

    def test_turn_replay_answers_the_same_to_each_question(self):
        page = browser()
        page.open()
        for name in SHOWN:
            with self.subTest(name):
                page.ask(name)
                check_by_replay(self)

    def test_an_ending_that_no_standard_asks_for_is_said_to_be_our_choice(self):
        page = browser()
        page.open()
        page.ask("Spoil the allocation")
        self.assertIn("That ending is our choice. RFC 8489, section 9.2.5, would have the client discard the reply", page.text("asked"))
        self.assertEqual(page.answers()[-1], "closed")

    def test_the_true_success_counts_behind_the_forged_one(self):
        page = browser()
        page.open()
        page.ask("Forge a success")
        page.choose(page.chosen() + 1)
        self.assertIn("10.0.0.4:40000, over UDP", page.text("state"))
        self.assertNotIn("203.0.113.66", page.text("state"))

    def test_a_stale_nonce_leads_to_the_same_request_under_another_one(self):
        page = browser()
        page.open()
        page.ask("Let the nonce go stale")
        at, answers = page.chosen(), page.answers()
        # RFC 8489, section 9.2.5: the late success of the first request counts no more, and that of the second one does.
        self.assertEqual(answers[at + 1], "ignored")
        self.assertIn(b"fresh".hex(), answers[at + 2])
        self.assertEqual(answers[at + 3:at + 5], ["handled", "permitted udp 10.0.0.3"])

    def test_a_silent_server_gets_seven_requests_and_the_client_ends(self):
        page = browser()
        page.open()
        page.ask("Be silent for a minute")
        sent = [line.split(" ")[0] for line, answer, _ in page.rows() if answer and answer.startswith("send ")]
        # RFC 8489, section 6.2.1: 500 ms, and twice as long after each; counted from the challenge, at 0.
        times = [0, 50, 500, 1_500, 3_500, 7_500, 15_500, 31_500]
        self.assertEqual(sent, [str(time * 1_000_000) for time in times])
        self.assertEqual(page.rows()[page.chosen()][:2], ["39500000000 poll", "closed"])
