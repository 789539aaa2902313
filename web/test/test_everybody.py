"""By keyboard alone, with a screen reader, in a narrow window, in the dark."""
import os
import pathlib
import re
import shutil
import tempfile
import unittest

from selenium.webdriver.common.action_chains import ActionChains
from selenium.webdriver.common.keys import Keys

from web.test.browser import browser

EXCHANGE = "#run=exchange/data_is_delivered_and_answered"
# The ratio of contrast of each text with what is behind it, least first (WCAG 2.2, 1.4.3), with the text.
CONTRAST = """
const parsed = (text) => (text.match(/[0-9.]+/g) ?? []).map(Number);
const light = ([r, g, b]) => [r, g, b].map((it) => it / 255).map((it) => (it <= 0.04045 ? it / 12.92 : ((it + 0.055) / 1.055) ** 2.4))
    .reduce((sum, it, at) => sum + it * [0.2126, 0.7152, 0.0722][at], 0);
const behind = (it) => {
    for (; it; it = it.parentElement) {
        const chosen = it.matches("[role=option][aria-selected=true]") && it.querySelector(".row");
        const [r, g, b, a = 1] = parsed(chosen ? getComputedStyle(chosen).fill : getComputedStyle(it).backgroundColor);
        if (r !== undefined && a > 0) { return [r, g, b]; }
    }
    return [255, 255, 255];
};
const found = [], walker = document.createTreeWalker(document.body, NodeFilter.SHOW_TEXT);
while (walker.nextNode()) {
    const text = walker.currentNode.textContent.trim(), it = walker.currentNode.parentElement;
    if (!text || !it.checkVisibility() || it.closest(".unseen, :disabled, option, script")) { continue; }
    const style = getComputedStyle(it), isDrawn = it.namespaceURI.endsWith("svg");
    const [one, other] = [light(parsed(isDrawn ? style.fill : style.color)), light(behind(it))].sort((a, b) => b - a);
    found.push([(one + 0.05) / (other + 0.05), text.slice(0, 40)]);
}
return found.sort(([one], [other]) => one - other);
"""
# What runs out of the window on the right, or is laid out in no width; parts that scroll by themselves are apart.
OUTSIDE = """
const width = document.documentElement.clientWidth, found = [];
for (const it of document.querySelectorAll("body *")) {
    const box = it.getBoundingClientRect();
    const isApart = it.closest("#ladder, textarea, .bytes, .scroll, .skip, .unseen, svg") || !it.checkVisibility();
    if (box.width && !isApart && (box.right > width + 1 || box.left < -1)) {
        found.push(`${it.tagName}#${it.id}.${it.className} ${box.left}-${box.right}`);
    }
}
return [document.documentElement.scrollWidth > width, found];
"""


class Everybody(unittest.TestCase):
    def setUp(self):
        self.page = browser()
        self.page.scheme("light")
        self.page.size(1300)

    def tearDown(self):
        self.assertEqual(self.page.errors(), [])

    def tab_to(self, is_it, key=Keys.TAB):
        """Presses Tab until what has the focus is it, and gives how often."""
        for count in range(1, 400):
            self.page.keys(key)
            if is_it(*self.page.focused()):
                return count
        self.fail("it is not reached by Tab")

    def test_a_forged_reply_is_seen_by_keyboard_alone(self):
        self.page.load()
        count = self.tab_to(lambda tag, _, text: tag == "button" and text.startswith("Forge a success"))
        self.assertLessEqual(count, 3)
        self.page.keys(Keys.ENTER)
        self.page.until("return document.getElementById('asked').textContent.startsWith('Forge')")
        self.page.settle()
        self.assertEqual((self.page.focused()[1], self.page.answers()[self.page.chosen()]), ("ladder", "ignored"))

    def test_a_bit_is_flipped_by_keyboard_alone(self):
        self.page.load(EXCHANGE)
        self.tab_to(lambda tag, *_: tag == "button")
        self.page.keys(Keys.ENTER)
        self.assertEqual(self.page.focused()[1], "ladder")
        self.page.keys(*[Keys.ARROW_DOWN] * 7)
        self.page.settle()
        self.assertEqual(self.page.chosen(), 7)
        self.tab_to(lambda tag, *_: self.page.driver.execute_script("return document.activeElement.getAttribute('role')") == "gridcell")
        self.page.keys(Keys.END)
        self.tab_to(lambda tag, *_: self.page.driver.execute_script("return document.activeElement.dataset.bit") == "0")
        self.page.keys(Keys.SPACE)
        self.page.settle()
        self.assertEqual(self.page.answers()[7], "ignored")
        self.tab_to(lambda tag, ident, _: ident == "undo", Keys.SHIFT + Keys.TAB)
        self.page.keys(Keys.ENTER)
        self.page.settle()
        self.assertEqual(self.page.answers()[7], "handled")

    def test_the_focus_stays_where_it_was_after_an_edit(self):
        self.page.load(EXCHANGE + "&step=7")
        focus = "document.querySelector(arguments[0]).focus()"
        said = "const it = document.activeElement; return it.dataset.bit ?? it.getAttribute('aria-label') ?? it.id ?? it.textContent"
        kept = (
            # What is pressed or typed, and what has the focus then.
            ("[data-bit='3']", (Keys.SPACE,), "flip bit 3 of byte 0, which is "),
            (".bits input", (Keys.END, Keys.BACKSPACE, Keys.BACKSPACE, "0", "1", Keys.ENTER), "byte 0, two hexadecimal digits"),
            ("button[aria-label='Change MESSAGE-INTEGRITY']", (Keys.ENTER, "00", Keys.ENTER), "Change MESSAGE-INTEGRITY"),
        )
        for selector, keys, label in kept:
            with self.subTest(selector):
                edits = int(self.page.find("#main").get_attribute("data-edits"))
                self.page.driver.execute_script(focus, selector)
                self.page.keys(*keys)
                self.page.settle()
                self.assertEqual(int(self.page.find("#main").get_attribute("data-edits")), edits + 1)
                label_of = "return document.activeElement.getAttribute('aria-label')"
                self.assertIn(label, self.page.driver.execute_script(label_of) or self.page.driver.execute_script(said))

    def test_the_focus_goes_to_the_ladder_where_a_button_can_do_no_more(self):
        self.page.load(EXCHANGE + "&step=7")
        for text in ("Repeat it", "Leave it out", "Undo", "Undo"):
            button = [it for it in self.page.driver.find_elements("css selector", "#main button") if it.text == text][0]
            self.page.driver.execute_script("arguments[0].focus()", button)
            self.page.keys(Keys.ENTER)
            self.page.settle()
            tag, ident, focused = self.page.focused()
            button = [it for it in self.page.driver.find_elements("css selector", "#main button") if it.text == text][0]
            if button.is_enabled():
                self.assertEqual((tag, focused), ("button", text))
            else:
                self.assertEqual(ident, "ladder", text)

    def test_what_is_found_of_a_packet_later_leaves_a_form_as_it_is(self):
        self.page.load(EXCHANGE + "&step=2")
        # The step is chosen, and the form opened, before the page has looked for reasons.
        typed = self.page.driver.execute_async_script("""
            const done = arguments[0];
            document.getElementById("step-3").dispatchEvent(new MouseEvent("click", { bubbles: true }));
            document.querySelector("button[aria-label='Change LIFETIME']").click();
            const input = document.activeElement;
            const state = document.getElementById("state"), again = () => {
                state.dataset.step === "3" ? done([input.isConnected, document.activeElement === input]) : setTimeout(again, 4);
            };
            again();
        """)
        self.assertEqual(typed, [True, True])
        self.assertIn("it is signed with the key", self.page.text("packet"))

    def test_the_tour_says_a_sentence_for_each_step_and_lights_its_way(self):
        self.page.load(EXCHANGE + "&step=5")
        self.page.press("Take the tour")
        rows, told = self.page.rows(), []
        for step, (line, answer, _) in enumerate(rows):
            self.assertEqual((self.page.chosen(), self.page.text("tour-title")), (step, f"Tour: step {step + 1} of 12"))
            told.append(self.page.text("tour-text"))
            self.assertRegex(told[-1], r"^[A-Z](?!.*[.!?] ).*\.$")
            picture = self.page.find("#tour-picture svg").get_attribute("aria-label")
            way = "from client" if answer.startswith("send ") else "to client" if " recv " in line else "At the client"
            self.assertIn(way, picture)
            lit = [it.text for it in self.page.driver.find_elements("css selector", "#tour .party.lit text")]
            is_far = "peer" in picture
            self.assertEqual(lit, ["client"] if "At" in picture else ["client", "NAT", "server"] + ["peer"] * is_far)
            self.assertEqual(is_far, "10.0.0.3:9000" in (answer or "") or " send udp 10.0.0.3" in line)
            self.assertEqual(self.page.focused()[1], "tour-next")
            self.page.keys(Keys.ENTER)
            self.page.settle()
        self.assertEqual(len(set(told)), 12)
        self.assertFalse(self.page.find("#tour").is_displayed())
        self.assertEqual(self.page.focused()[1], "ladder")

    def test_the_tour_follows_the_ladder_and_ends_with_an_edit(self):
        self.page.load()
        self.page.press("Take the tour")
        self.page.choose(9)
        self.assertEqual(self.page.text("tour-title"), "Tour: step 10 of 12")
        self.page.find("#tour-before").click()
        self.page.settle()
        self.assertEqual(self.page.chosen(), 8)
        self.page.press("Leave it out")
        self.assertFalse(self.page.find("#tour").is_displayed())

    def test_a_page_that_gets_no_scripts_says_what_to_do(self):
        self.page.load()
        self.assertEqual(self.page.driver.find_elements("id", "unstarted"), [])
        try:
            self.page.driver.get((self.page.folder / "index.html").as_uri())
            self.page.until("return document.getElementById('unstarted').checkVisibility({ visibilityProperty: true })")
            self.assertIn("Run tools/build/web --serve, and open http://127.0.0.1:8656/", self.page.text("unstarted"))
            self.page.driver.execute_cdp_cmd("Emulation.setScriptExecutionDisabled", {"value": True})
            self.page.driver.get(self.page.url)
            shown = [it.text for it in self.page.driver.find_elements("css selector", "noscript p")]
            self.assertEqual(len(shown), 1)
            self.assertIn("This page needs JavaScript", shown[0])
        finally:
            self.page.driver.execute_cdp_cmd("Emulation.setScriptExecutionDisabled", {"value": False})
            self.page.errors()
            self.page.load()

    def test_what_scrolls_can_be_scrolled_by_keyboard(self):
        for width in (390, 1024, 1440):
            self.page.size(width)
            self.page.open(EXCHANGE + "&step=9")
            script = """
                const scrolls = (it) => /auto|scroll/.test(getComputedStyle(it).overflow) && it.checkVisibility()
                    && (it.scrollWidth > it.clientWidth + 1 || it.scrollHeight > it.clientHeight + 1);
                const isReached = (it) => it.tabIndex >= 0 || it.querySelector("a, button, input, [tabindex='0']");
                return [...document.querySelectorAll("main *, nav *")].filter((it) => scrolls(it) && !isReached(it)).map((it) => it.outerHTML);
            """
            self.assertEqual(self.page.driver.execute_script(script), [])

    def test_keys_go_through_the_ladder(self):
        self.page.open(EXCHANGE)
        self.page.find("#ladder").click()
        for key, step in ((Keys.END, 11), (Keys.ARROW_UP, 10), (Keys.HOME, 0), (Keys.ARROW_UP, 0), (Keys.PAGE_DOWN, None)):
            self.page.keys(key)
            self.page.settle()
            self.assertTrue(step is None and self.page.chosen() > 1 or self.page.chosen() == step)
            active = self.page.find("#ladder").get_attribute("aria-activedescendant")
            self.assertEqual(active, f"step-{self.page.chosen()}")

    def test_the_focus_can_be_seen(self):
        self.page.load()
        for _ in range(12):
            self.page.keys(Keys.TAB)
            style = self.page.driver.execute_script("return getComputedStyle(document.activeElement).outline")
            self.assertIn("solid", style)
            self.assertGreaterEqual(float(re.search(r"([0-9.]+)px", style)[1]), 2)

    def test_each_control_has_a_name_and_a_role(self):
        self.page.open(EXCHANGE + "&step=3")
        self.page.driver.execute_script("document.querySelectorAll('details').forEach((it) => (it.open = true))")
        self.page.driver.execute_cdp_cmd("Accessibility.enable", {})
        nodes = self.page.driver.execute_cdp_cmd("Accessibility.getFullAXTree", {})["nodes"]
        told = [(it["role"]["value"], it.get("name", {}).get("value", ""), it.get("properties", [])) for it in nodes if not it["ignored"]]
        focusable = [(role, name) for role, name, properties in told if "focusable" in {each["name"] for each in properties}]
        self.assertEqual([role for role, name in focusable if role != "RootWebArea" and not name.strip()], [])
        wanted = {"banner", "navigation", "main", "listbox", "option", "grid", "gridcell", "toolbar", "heading", "contentinfo"}
        self.assertLessEqual(wanted, {role for role, _, _ in told})
        options = [name for role, name, _ in told if role == "option" and name.startswith("Step ")]
        self.assertEqual(len(options), 12)
        self.assertEqual(options[3], "Step 4, at 0.05 s; received from 10.0.0.2:2000: Allocate success; handled")
        self.assertIn("flip bit 0 of byte 0, which is 1", [name for _, name, _ in told])

    def test_headings_ids_and_language_are_in_order(self):
        self.page.open(EXCHANGE)
        script = "return [...document.querySelectorAll('h1, h2, h3')].map((it) => Number(it.tagName[1]))"
        levels = self.page.driver.execute_script(script)
        self.assertEqual((levels[0], levels.count(1)), (1, 1))
        self.assertTrue(all(after - before <= 1 for before, after in zip(levels, levels[1:])))
        ids = self.page.driver.execute_script("return [...document.querySelectorAll('[id]')].map((it) => it.id)")
        self.assertEqual(len(ids), len(set(ids)))
        self.assertEqual(self.page.driver.execute_script("return [document.documentElement.lang, document.title !== '']"), ["en", True])
        # WCAG 2.2, 2.5.8: what is pressed is not smaller than 24 pixels.
        script = "return [...document.querySelectorAll('button, select, input')].map((it) => it.getBoundingClientRect().height || 24)"
        self.assertGreaterEqual(min(self.page.driver.execute_script(script)), 24)

    def test_what_differs_is_told_in_words_and_signs_as_well_as_in_colour(self):
        self.page.open()
        self.page.ask("Flip one bit")
        row = self.page.find("#ladder [aria-selected=true]")
        self.assertIn("ignored; changed, differs: it was handled", row.get_attribute("aria-label"))
        self.assertIn("+≠", row.get_attribute("textContent"))
        self.assertEqual(len(row.find_elements("css selector", ".cross")), 1)
        self.assertEqual(self.page.driver.execute_script("return document.querySelectorAll('#ladder .cross').length"), 2)
        told = self.page.driver.execute_script("return document.getElementById('status').textContent")
        self.assertTrue(told.startswith("Step 8, at 0.1 s; received from"), told)

    def test_all_text_has_contrast_in_light_and_in_dark(self):
        for scheme in ("light", "dark"):
            self.page.scheme(scheme)
            self.page.open()
            for question in ("Forge a success", "Let the nonce go stale", "Lose a packet", "Take the tour"):
                with self.subTest(scheme, question=question):
                    self.page.press(question)
                    self.page.until("return document.getElementById('main').getAttribute('aria-busy') === 'false'")
                    self.page.driver.execute_script("document.querySelectorAll('details').forEach((it) => (it.open = true))")
                    found = self.page.driver.execute_script(CONTRAST)
                    self.assertGreater(len(found), 100)
                    self.assertGreaterEqual(found[0][0], 4.5, found[:5])
        back = self.page.driver.execute_script("return getComputedStyle(document.body).backgroundColor")
        self.assertEqual(back, "rgb(22, 23, 27)")

    def test_nothing_runs_out_of_a_narrow_window(self):
        for width in (360, 500, 800, 959, 960, 1300):
            with self.subTest(width=width):
                self.page.size(width)
                self.page.open()
                for question in ("Forge a success", "Lose a packet", "Take the tour"):
                    self.page.press(question)
                    self.page.driver.execute_script("document.querySelectorAll('details').forEach((it) => (it.open = true))")
                    self.assertEqual(self.page.driver.execute_script(OUTSIDE), [False, []])
                    drawn = self.page.driver.execute_script("return document.querySelector('#ladder svg').getBoundingClientRect().width")
                    self.assertLessEqual(drawn, width)

    def test_the_answer_to_a_question_is_in_sight(self):
        for width, height in ((360, 640), (390, 844), (500, 800), (1024, 800), (1300, 780)):
            self.page.size(width, height)
            for question in ("Forge a success", "Spoil the allocation", "Lose a packet"):
                with self.subTest(width=width, question=question):
                    self.page.load()
                    self.page.ask(question)
                    row = self.page.driver.execute_script("""
                        const box = document.querySelector("#ladder [aria-selected=true]").getBoundingClientRect();
                        return [box.top, box.bottom];
                    """)
                    self.assertTrue(0 <= row[0] < row[1] <= height, row)

    def test_pictures_show_the_page(self):
        with tempfile.TemporaryDirectory() as folder:
            self.page.size(1200, 780)
            self.page.load()
            self.page.ask("Forge a success")
            self.picture(folder, "forged")
            self.page.ask("Flip one bit")
            self.page.driver.find_elements("css selector", ".bytes [role=gridcell]")[43].click()
            ActionChains(self.page.driver).move_to_element(self.page.find("#questions-title")).perform()
            self.page.driver.execute_script("document.querySelector('#packet .bits').scrollIntoView({block: 'end'})")
            self.picture(folder, "flipped")
            if os.environ.get("WEB_PICTURES"):
                shutil.copytree(folder, os.environ["WEB_PICTURES"], dirs_exist_ok=True)

    def picture(self, folder, name):
        self.page.driver.execute_script("document.activeElement.blur()")
        picture = self.page.driver.get_screenshot_as_png()
        # A page without its run is some 20 kB: most of it is one colour.
        self.assertGreater(len(picture), 60_000)
        (pathlib.Path(folder) / f"{name}.png").write_bytes(picture)
