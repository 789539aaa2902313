"""The page in Chromium: made by tools/build/web, served on 127.0.0.1, and driven by the WebDriver protocol."""
import atexit
import functools
import importlib.machinery
import importlib.util
import pathlib
import re
import shutil
import signal
import sys
import tempfile
import threading

from selenium import webdriver
from selenium.webdriver.chrome.options import Options
from selenium.webdriver.chrome.service import Service
from selenium.webdriver.common.action_chains import ActionChains
from selenium.webdriver.common.by import By
from selenium.webdriver.common.keys import Keys

ROOT = pathlib.Path(__file__).resolve().parent.parent.parent
ARGUMENTS = ("--headless=new", "--no-sandbox", "--disable-gpu", "--disable-dev-shm-usage", "--hide-scrollbars",
             "--disable-lcd-text", "--force-device-scale-factor=1",
             # Tests change the fragment more often than a person does, and Chromium would hold that back.
             "--disable-ipc-flooding-protection")
# Seconds in which the page does anything, on a machine that does much else.
PATIENCE = 60


@functools.lru_cache(maxsize=None)
def tool(name):
    """The module of a program in tools/."""
    loader = importlib.machinery.SourceFileLoader(re.sub("[-/]", "_", name), str(ROOT / "tools" / name))
    module = importlib.util.module_from_spec(importlib.util.spec_from_loader(loader.name, loader))
    sys.modules[loader.name] = module
    loader.exec_module(module)
    return module


class Browser:
    """Chromium with the page. One is enough for all tests."""

    def __init__(self):
        room = tempfile.TemporaryDirectory(prefix="test-web-")
        atexit.register(room.cleanup)
        self.folder = pathlib.Path(room.name) / "page"
        tool("build/web").make(self.folder)
        self.server = tool("build/web").server(self.folder, 0)
        threading.Thread(target=self.server.serve_forever, daemon=True).start()
        self.url = f"http://127.0.0.1:{self.server.server_address[1]}/"
        self.driver = webdriver.Chrome(service=Service(shutil.which("chromedriver")), options=self.options(room.name))
        atexit.register(self.close)
        # Whoever stops the tests stops the browser too.
        signal.signal(signal.SIGTERM, lambda *_: sys.exit(143))
        self.driver.set_script_timeout(10 * PATIENCE)
        self.is_loaded = False

    def options(self, room):
        options = Options()
        options.binary_location = shutil.which("chromium")
        for word in (*ARGUMENTS, f"--user-data-dir={room}/profile"):
            options.add_argument(word)
        options.set_capability("goog:loggingPrefs", {"browser": "ALL"})
        options.add_experimental_option("prefs", {"download.default_directory": f"{room}/saved"})
        self.saved = pathlib.Path(room) / "saved"
        return options

    def close(self):
        self.driver.quit()
        self.server.shutdown()

    def size(self, width, height=900):
        """Makes the page so wide, which a window cannot be where that is narrow."""
        metrics = {"width": width, "height": height, "deviceScaleFactor": 1, "mobile": False}
        self.driver.execute_cdp_cmd("Emulation.setDeviceMetricsOverride", metrics)

    def scheme(self, name):
        """`light` or `dark`."""
        self.driver.execute_cdp_cmd("Emulation.setEmulatedMedia", {"features": [{"name": "prefers-color-scheme", "value": name}]})

    def load(self, fragment=""):
        """Loads the page anew, with this fragment, and waits until its run is shown."""
        self.driver.get("about:blank")
        self.driver.get(self.url + fragment)
        self.is_loaded = True
        self.settle()

    def open(self, fragment="#"):
        """Shows what a fragment names, as a link does, in the page as it is loaded."""
        if not self.is_loaded:
            self.load(fragment)
            return
        self.driver.execute_script("""
            document.getElementById("main").setAttribute("aria-busy", "true");
            history.replaceState(null, "", arguments[0]);
            dispatchEvent(new HashChangeEvent("hashchange"));
        """, fragment)
        self.settle()

    def settle(self):
        """Waits until the run is shown, with the state after the step that is chosen."""
        self.until("""
            const chosen = document.querySelector("#ladder [aria-selected=true]"), byId = (id) => document.getElementById(id);
            return byId("main").getAttribute("aria-busy") === "false" && byId("state").dataset.step === chosen?.dataset.index;
        """)

    def until(self, script, *words):
        """Waits until a script is true, and gives what it returns."""
        found = self.driver.execute_async_script(f"""
            const done = arguments[arguments.length - 1], end = performance.now() + {PATIENCE * 1000}, test = () => {{ {script} }};
            const again = () => {{
                const found = test();
                found || performance.now() > end ? done(found) : setTimeout(again, 4);
            }};
            again();
        """, *words)
        assert found, f"not after {PATIENCE} s: {script}\n{self.errors()}"
        return found

    def errors(self):
        """What the console has of errors since it was asked last."""
        return [entry["message"] for entry in self.driver.get_log("browser") if entry["level"] in ("SEVERE", "WARNING")]

    def rows(self):
        """The steps of the ladder: each as its line, its answer, and the answer that it differs from."""
        return self.driver.execute_script("""
            const rows = [...document.querySelectorAll("#ladder [role=option]")];
            return rows.map(({dataset: it}) => [it.line, it.answer ?? null, it.before ?? null]);
        """)

    def answers(self):
        return [answer for _, answer, _ in self.rows()]

    def chosen(self):
        """The number of the step that is chosen."""
        return int(self.driver.execute_script("return document.querySelector('#ladder [aria-selected=true]').dataset.index"))

    def choose(self, index):
        """Chooses a step by a click on it."""
        script = "document.getElementById('step-' + arguments[0]).dispatchEvent(new MouseEvent('click', {bubbles: true}))"
        self.driver.execute_script(script, index)
        self.settle()

    def text(self, element):
        return self.driver.find_element(By.ID, element).text

    def find(self, selector):
        return self.driver.find_element(By.CSS_SELECTOR, selector)

    def press(self, name):
        """Clicks the button of this name."""
        found = [it for it in self.driver.find_elements(By.TAG_NAME, "button") if it.text.split("\n")[0] == name and it.is_displayed()]
        assert len(found) == 1, f"{len(found)} buttons {name}"
        found[0].click()
        self.settle()

    def ask(self, question):
        """Presses the button of a question."""
        before = self.driver.execute_script("return document.getElementById('asked').textContent")
        self.driver.execute_script("document.getElementById('asked').textContent = ''")
        found = [it for it in self.driver.find_elements(By.CSS_SELECTOR, "#questions button") if it.text.startswith(question)]
        assert len(found) == 1, f"{question}: {len(found)}, after {before}"
        found[0].click()
        self.until("return document.getElementById('asked').textContent.startsWith(arguments[0])", question)
        self.settle()

    def keys(self, *keys):
        """Types into what has the focus."""
        ActionChains(self.driver).send_keys(*keys).perform()

    def chord(self, key):
        """Types a key with Control."""
        ActionChains(self.driver).key_down(Keys.CONTROL).send_keys(key).key_up(Keys.CONTROL).perform()

    def focused(self):
        """What has the focus: its tag, ID and text."""
        script = "const it = document.activeElement; return [it.tagName.toLowerCase(), it.id, it.textContent.slice(0, 60)]"
        return self.driver.execute_script(script)


@functools.lru_cache(maxsize=None)
def browser():
    """The browser of all tests."""
    return Browser()
