"""The run with the page's server: whatever packet is left out, the client sends its request again, and recovers."""
import unittest

from web.test.browser import browser
from web.test.replay import check_by_replay

LIVE = "#run=page/a_server_that_reacts"
# What a client of the page's module answers to the lines that the page gives, which are replayed from the beginning.
REPLAYED = """
const done = arguments[0];
Promise.all(["./src/replay.js", "./yarrowdoor/src/library.js"].map((name) => import(name))).then(async ([replay, { Library }]) => {
    const source = await (await fetch("yarrowdoor/yarrowdoor.wasm")).arrayBuffer(), library = await Library.load({ source });
    const [head, ...lines] = document.getElementById("lines").value.trim().split("\\n");
    done(replay.answersTo(library, head, lines));
});
"""


class Live(unittest.TestCase):
    def setUp(self):
        self.page = browser()
        self.page.open(LIVE)

    def tearDown(self):
        self.assertEqual(self.page.errors(), [])

    def packets(self):
        """The steps that are packets: the number of the step, its time in seconds, and the packet's bytes."""
        found = []
        for at, (line, answer, _) in enumerate(self.page.rows()):
            words = line.split(" ")
            data = words[-1] if words[1] == "recv" else (answer or "").split(" ")[-1] if (answer or "").startswith("send ") else None
            if data:
                found.append((at, int(words[0]) / 1e9, data))
        return found

    def test_without_a_loss_all_goes_well(self):
        self.assertEqual(self.page.text("summary"),
                         "0 packets are lost; 0 requests are sent again; the data comes back in the end.")
        events = [answer for line, answer, _ in self.page.rows() if line.endswith(" event")]
        self.assertEqual(events, ["allocated udp 10.0.0.4:40000", "permitted udp 10.0.0.3", "bound udp 10.0.0.3:9000"])
        check_by_replay(self)

    def test_the_client_recovers_from_each_lost_packet(self):
        steps = [step for step, _, _ in self.packets()]
        self.assertEqual(len(steps), 12)
        for number, step in enumerate(steps):
            with self.subTest(packet=number):
                self.page.open(LIVE)
                before = self.page.rows()
                self.page.choose(step)
                label = self.page.driver.execute_script("return document.getElementById('step-' + arguments[0]).textContent", step)
                self.page.press("Leave it out")
                # RFC 8489, section 6: requests are sent again, and indications and ChannelData are not.
                again = 0 if "Data" in label or "Send" in label else 1
                self.assertEqual(self.page.text("summary"), f"1 packet is lost; {again} request{'s are' if again == 0 else ' is'} sent "
                                 "again; the data comes back in the end.")
                self.assertEqual(self.page.rows()[:step], before[:step])
                self.assertEqual(self.page.chosen(), step)
                replayed = self.page.driver.execute_async_script(REPLAYED)
                self.assertEqual(replayed, [answer for answer in self.page.answers() if answer is not None])
                check_by_replay(self)

    def test_a_lost_request_goes_out_again_after_half_a_second(self):
        self.page.choose(0)
        self.page.press("Leave it out")
        (_, first, sent), (_, again, same) = self.packets()[:2]
        # RFC 8489, section 6.2.1: RTO is 500 ms, and the request is the same one.
        self.assertEqual((first, again, same), (0, 0.5, sent))
        self.assertIn("lost on its way", self.page.text("packet"))

    def test_a_server_that_gets_nothing_is_given_up(self):
        edits = "&".join(f"edit=lose+{number}" for number in range(7))
        self.page.open(f"{LIVE}&{edits}")
        # RFC 8489, section 6.2.1: seven requests, and the end 8 s after the last one.
        self.assertEqual([time for _, time, _ in self.packets()], [0, 0.5, 1.5, 3.5, 7.5, 15.5, 31.5])
        self.assertEqual(self.page.rows()[-1][:2], ["39500000000 poll", "closed"])
        self.assertEqual(self.page.text("summary"),
                         "7 packets are lost; 6 requests are sent again; the data does not come back.")

    def test_a_loss_is_undone_and_is_in_the_link(self):
        before = self.page.rows()
        self.page.choose(self.packets()[3][0])
        self.page.press("Leave it out")
        lost = self.page.rows()
        self.assertNotEqual(lost, before)
        fragment = "#" + self.page.driver.current_url.split("#", 1)[1]
        self.page.press("Undo")
        self.assertEqual(self.page.rows(), before)
        self.page.open(fragment)
        self.assertEqual(self.page.rows(), lost)

    def test_an_edit_of_another_kind_is_refused(self):
        for edit in ("drop 3", "lose x", "lose", "set 3 0 00", "lose 99999"):
            with self.subTest(edit):
                self.page.open(f"{LIVE}&edit={edit.replace(' ', '+')}")
                self.assertIn("In this run packets can be left out", self.page.text("alert"))
                self.assertIn("0 packets are lost", self.page.text("summary"))

    def test_the_calls_of_the_run_cannot_be_changed(self):
        self.page.choose(self.packets()[1][0])
        changing = self.page.driver.find_elements("css selector", "#packet button, #change form, #sign")
        self.assertEqual([it.text for it in changing], [])
