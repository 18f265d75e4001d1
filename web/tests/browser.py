"""The page in headless Chromium, by Debian's chromium, chromium-driver and python3-selenium.

    /usr/bin/python3 -B web/tests/browser.py OUT [PICTURES]

OUT is what web/build.sh made. Each mode is tried, and the cases of examples/cases with both modules; so are the stop
button, broken inputs, links, the keyboard and the width of a phone. A message on the console or a request to another
host is a failure. PICTURES is a folder for screenshots, at 1280 and at 390 pixels.
"""

from __future__ import annotations

import base64
import functools
import http.server
import json
import shutil
import subprocess
import sys
import tempfile
import threading
import time
import unittest
from pathlib import Path
from typing import Any
from urllib.parse import urlencode, urlsplit

from selenium import webdriver
from selenium.common.exceptions import WebDriverException
from selenium.webdriver.chrome.service import Service
from selenium.webdriver.common.by import By
from selenium.webdriver.common.keys import Keys
from selenium.webdriver.support.ui import Select, WebDriverWait

HERE = Path(__file__).resolve().parent
KEY = "a7e8b266ea9514109c9a658bc61f21124fe41c0814138e4855d11a7599f94bc6"
MODULES = ("popsample.wasm", "popsample32.wasm")
# A busy machine is slow. What is wanted comes in a tenth of a second.
SECONDS = 300
ARGUMENTS = ("--headless=new", "--no-sandbox", "--disable-gpu", "--disable-dev-shm-usage")

# An orientation of a path always has a sink, so that a run goes on for hours.
PATH = "p edge 200 199\n" + "".join(f"e {v} {v + 1}\n" for v in range(1, 200))

CASES_PAGE = """<!doctype html><meta charset="utf-8"><title>cases</title><link rel="icon" href="icon.svg">
<pre id="said"></pre>
<script type="module">
import { compareArrays } from "./arrays.mjs";
import { compare } from "./compare.mjs";
import { load } from "./popsample/index.js";
const cases = await (await fetch("cases.json")).json();
const module = new URL(new URLSearchParams(location.search).get("module"), new URL("popsample/", location.href));
const popsample = await load(module);
const said = [compareArrays(popsample, 200), compare(popsample, cases)].map(({ told }) => told).join("\\n");
document.getElementById("said").textContent = said;
</script>
"""


# Whether the browser can run a module.
VALIDATE = """
const [file, done] = arguments;
fetch(`/popsample/${file}`).then((answer) => answer.arrayBuffer()).then((bytes) => done(WebAssembly.validate(bytes)));
"""


class Quiet(http.server.SimpleHTTPRequestHandler):
    """Serves files and logs nothing."""

    def log_message(self, *_: Any) -> None:
        """Logs nothing."""


def served(folder: Path) -> http.server.ThreadingHTTPServer:
    """A server of a folder, for this machine alone."""
    server = http.server.ThreadingHTTPServer(("127.0.0.1", 0), functools.partial(Quiet, directory=str(folder)))
    threading.Thread(target=server.serve_forever, daemon=True).start()
    return server


def browser(tries: int = 3) -> webdriver.Chrome:
    """A Chromium that logs its console and its network. On a busy machine it may start too late for its driver."""
    options = webdriver.ChromeOptions()
    for argument in ARGUMENTS:
        options.add_argument(argument)
    options.binary_location = "/usr/bin/chromium"
    options.set_capability("goog:loggingPrefs", {"browser": "ALL", "performance": "ALL"})
    try:
        return webdriver.Chrome(service=Service("/usr/bin/chromedriver"), options=options)
    except WebDriverException:
        if tries == 1:
            raise
        return browser(tries - 1)


class PageTest(unittest.TestCase):
    """The page, with the modules that the browser can run."""

    site: Path
    modules: list[str]
    pictures: Path | None = None

    @classmethod
    def setUpClass(cls) -> None:
        cls.server = served(cls.site)
        cls.base = f"http://127.0.0.1:{cls.server.server_port}/"
        cls.driver = browser()
        cls.driver.set_script_timeout(SECONDS)
        cls.driver.get(f"{cls.base}cases.json")
        cls.modules = [file for file in MODULES if cls.driver.execute_async_script(VALIDATE, file)]

    @classmethod
    def tearDownClass(cls) -> None:
        cls.driver.quit()
        cls.server.shutdown()
        cls.server.server_close()

    def setUp(self) -> None:
        self.driver.get("about:blank")
        self.driver.set_window_size(1280, 1000)
        self.logs()

    def tearDown(self) -> None:
        console, hosts = self.logs()
        self.assertEqual(console, [])
        self.assertLessEqual(hosts, {urlsplit(self.base).netloc, ""})

    def logs(self) -> tuple[list[str], set[str]]:
        """What the console shows since the last call, and the hosts to which requests went."""
        events = [json.loads(entry["message"])["message"] for entry in self.driver.get_log("performance")]
        sent = [event["params"]["request"]["url"] for event in events if event["method"] == "Network.requestWillBeSent"]
        console = [entry["message"] for entry in self.driver.get_log("browser")]
        return console, {urlsplit(url).netloc for url in sent}

    def by_id(self, name: str) -> Any:
        """The element with this id."""
        return self.driver.find_element(By.ID, name)

    def text(self, name: str) -> str:
        """What an element shows."""
        return str(self.by_id(name).text)

    def wait(self, condition: Any) -> None:
        """Waits for a condition."""
        WebDriverWait(self.driver, SECONDS, 0.05).until(lambda _: condition())

    def settled(self) -> str:
        """What the page says once nothing runs."""
        unsettled = ("", "Loading …", "Sampling …")
        self.wait(lambda: self.text("said") not in unsettled and not self.by_id("stop").is_enabled())
        return self.text("said")

    def open(self, module: str = "", **settings: str) -> str:
        """Opens the page with these settings in its address, and gives back what it says of its first sample."""
        self.driver.get("about:blank")
        named = urlencode({"module": module or self.modules[0]})
        self.driver.get(f"{self.base}index.html?{named}#{urlencode(settings)}")
        return self.settled()

    def write(self, name: str, text: str) -> None:
        """Writes into a field and leaves it, as a paste does."""
        self.driver.execute_script("arguments[0].value = arguments[1]", self.by_id(name), text)
        for event in ("input", "change"):
            self.driver.execute_script("arguments[0].dispatchEvent(new Event(arguments[1]))", self.by_id(name), event)

    def press(self, name: str) -> None:
        """Clicks on what has this id, wherever the page is scrolled to."""
        self.driver.execute_script("arguments[0].click()", self.by_id(name))

    def shown(self) -> str:
        """The picture on the canvas, as a URL of its data."""
        return str(self.driver.execute_script("return document.getElementById('canvas').toDataURL()"))


class ModesTest(PageTest):
    """Each mode with each module."""

    def test_cases_and_arrays_agree(self) -> None:
        for module in set(MODULES).difference(self.modules):
            print(f"{module}: left out, since this Chromium has no tables of 64 bits", file=sys.stderr)
        for module in self.modules:
            self.driver.get(f"{self.base}cases.html?module={module}")
            self.wait(lambda: "cases:" in self.text("said"))
            wanted = r"^arrays: 600 agree, 0 differ\ncases: [1-9][0-9]* agree, 0 differ$"
            self.assertRegex(self.text("said"), wanted, module)

    def test_a_first_sample_comes_by_itself(self) -> None:
        self.driver.get(f"{self.base}index.html")
        self.assertIn("A maze of 24 by 24 cells", self.settled())
        self.assertFalse(self.by_id("waiting").is_displayed())
        self.assertRegex(self.by_id("key").get_attribute("value"), "^[0-9a-f]{64}$")
        # How long that takes depends on the machine, so it is printed.
        mark = "return performance.getEntriesByName('first sample')[0].startTime"
        print(f"the first sample stands after {self.driver.execute_script(mark):.0f} ms", file=sys.stderr)

    def test_a_page_from_a_file_says_what_it_needs(self) -> None:
        self.driver.get((self.site / "index.html").as_uri())
        self.wait(lambda: "needs JavaScript and a web server" in self.text("waiting"))
        # The console says that scripts of files are refused, and here it may.
        self.logs()

    def test_a_maze(self) -> None:
        outputs = {self.open(module, mode="maze", size="16", key=KEY) and self.shown() for module in self.modules}
        self.assertEqual(len(outputs), 1, "the modules draw one maze")
        self.press("again")
        self.wait(lambda: self.settled() and self.shown() not in outputs)

    def test_a_tree_of_a_pasted_graph(self) -> None:
        for module in self.modules:
            self.open(module, mode="graph", what="tree", root="2", key=KEY)
            self.write("graph", Path(HERE / "../../examples/roads.col").read_text(encoding="utf-8"))
            # README.md: the first output.
            self.wait(lambda: "pops 2" in self.by_id("output").get_attribute("textContent"))
            self.assertIn("A spanning tree of 8 vertices; 2 pops", self.settled())

    def test_an_orientation(self) -> None:
        self.assertIn("An orientation of 7 edges", self.open(mode="graph", what="orient", key=KEY))

    def test_a_formula_and_one_whose_clauses_clash(self) -> None:
        self.assertIn("A solution for 6 variables", self.open(mode="formula", key=KEY))
        self.assertTrue(self.by_id("player").is_displayed())
        self.write("formula", Path(HERE / "../../examples/channels.cnf").read_text(encoding="utf-8"))
        self.wait(lambda: "by rounds" in self.settled())
        self.assertFalse(self.by_id("player").is_displayed())

    def test_a_histogram_of_each_kind(self) -> None:
        # Worked by hand: a triangle has 3 trees and 2 orientations without sinks; 1 or 2 has 3 solutions.
        triangle = "p edge 3 3\ne 1 2\ne 2 3\ne 3 1 2\n"
        for what, text, outcomes in (
            ("tree", triangle, 3),
            ("orient", triangle, 2),
            ("formula", "p cnf 2 1\n1 2 0\n", 3),
        ):
            said = self.open(mode="histogram", what=what, count="4096", text=text, key=KEY)
            self.assertIn(f"4096 samples of {outcomes} outcomes", said)
            self.assertEqual(len(self.driver.find_elements(By.CSS_SELECTOR, "#bars rect")), outcomes)
            cells = [
                float(row.find_elements(By.TAG_NAME, "td")[3].get_attribute("textContent"))
                for row in self.driver.find_elements(By.CSS_SELECTOR, "#bars tr")[1:]
            ]
            self.assertEqual(sum(cells), 4096)


class UseTest(PageTest):
    """What a user does beside choosing."""

    def test_a_run_is_played(self) -> None:
        self.open(mode="maze", size="8", key=KEY)
        step, pictures = self.by_id("step"), []
        last = int(step.get_attribute("max"))
        self.assertGreater(last, 5)
        self.assertIn("the end of the run", self.text("step-said"))
        pictures.append(self.shown())
        self.press("first")
        self.assertIn("After 0 of", self.text("step-said"))
        for _ in range(3):
            pictures.append(self.shown())
            self.press("next")
        self.assertEqual(len(set(pictures)), 4)
        self.assertIn(f"After 3 of {last} pops: a cycle will be popped", self.text("step-said"))
        step.send_keys(Keys.ARROW_LEFT)
        self.assertIn("After 2 of", self.text("step-said"))
        self.press("back")
        self.assertEqual(self.shown(), pictures[2])
        self.driver.execute_script("document.querySelector('[name=by][value=layers]').click()")
        self.assertLess(int(step.get_attribute("max")), last)
        self.press("play")
        self.wait(lambda: "the end of the run" in self.text("step-said"))
        self.assertEqual(self.shown(), pictures[0])
        self.wait(lambda: self.text("play") == "Play")

    def test_a_run_is_stopped_and_another_one_goes(self) -> None:
        self.open(mode="graph", what="orient", key=KEY)
        self.write("graph", PATH)
        self.wait(lambda: self.by_id("stop").is_enabled())
        self.assertTrue(self.by_id("progress").is_displayed())
        self.press("stop")
        self.assertIn("was stopped", self.settled())
        self.assertFalse(self.by_id("progress").is_displayed())
        triangle = "p edge 3 3\ne 1 2\ne 2 3\ne 3 1\n"
        self.write("graph", triangle)
        self.wait(lambda: "An orientation of 3 edges" in self.settled())

    def test_a_later_sample_stops_the_one_before(self) -> None:
        self.open(mode="graph", what="orient", key=KEY)
        for text in (PATH, PATH):
            self.write("graph", text)
            self.wait(lambda: self.by_id("stop").is_enabled())
        self.write("graph", "p edge 2 2\ne 1 2\ne 2 1\n")
        self.wait(lambda: "An orientation of 2 edges" in self.settled())

    def test_broken_inputs_are_refused_in_words(self) -> None:
        for settings, words in (
            ({"mode": "graph", "text": "p edge 2 1\ne 1 x\n"}, "Line 2 "),
            ({"mode": "graph", "text": "no graph"}, "Line 1 "),
            ({"mode": "graph", "text": "p edge 4 2\ne 1 2\ne 3 4\n"}, "3"),
            ({"mode": "graph", "text": "p edge 2 1\ne 1 2\n", "root": "9"}, "9"),
            ({"mode": "formula", "text": "p cnf 1 1\n2 0\n"}, "Line 2 "),
            ({"mode": "histogram", "what": "tree", "text": "p edge 2 13\n" + "e 1 2\n" * 13}, "at most 12"),
        ):
            self.assertEqual(self.open(key=KEY, **settings), "No sample.")
            self.assertIn(words, self.text("refused"))
            self.assertEqual(self.by_id("refused").get_attribute("role"), "alert")
        self.write("key", "12")
        self.wait(lambda: "64 hexadecimal digits" in self.text("refused"))

    def test_a_wrong_key_stops_the_run(self) -> None:
        self.open(mode="graph", what="orient", key=KEY)
        self.write("graph", PATH)
        self.wait(lambda: self.by_id("stop").is_enabled())
        self.write("key", "12")
        self.assertEqual(self.settled(), "No sample.")
        self.assertFalse(self.by_id("progress").is_displayed())

    def test_a_control_may_change_while_a_sample_is_drawn(self) -> None:
        self.open(mode="graph", what="tree", key=KEY)
        submit = "document.getElementById('controls').requestSubmit();"
        change = "for (const id of ['key', 'root']) document.getElementById(id).value = '99';"
        self.driver.execute_script(submit + change)
        self.assertIn("A spanning tree of 5 vertices", self.settled())
        self.assertFalse(self.by_id("refused").is_displayed())

    def test_a_broken_link_leaves_the_controls_as_they_are(self) -> None:
        said = self.open(mode="labyrinth", size="17", count="x", key="12")
        self.assertIn("A maze of 24 by 24 cells", said)
        self.assertRegex(self.by_id("key").get_attribute("value"), "^[0-9a-f]{64}$")

    def test_a_link_gives_the_sample_again(self) -> None:
        text = "p edge 4 5\nv 1 100 100\nv 2 900 100\nv 3 900 900\nv 4 100 900\ne 1 2\ne 2 3\ne 3 4\ne 4 1\ne 1 3 5\n"
        self.open(mode="graph", what="tree", root="3", text=text)
        link, output = self.by_id("link").get_attribute("href"), self.by_id("output").get_attribute("textContent")
        shown = self.shown()
        self.driver.get("about:blank")
        self.driver.get(link)
        self.settled()
        self.assertEqual(self.by_id("output").get_attribute("textContent"), output)
        self.assertEqual(self.shown(), shown)
        self.assertEqual(self.by_id("graph").get_attribute("value"), text)

    def test_a_graph_is_drawn_by_hand(self) -> None:
        self.open(mode="graph", what="tree", key=KEY, text="p edge 0 0\n")
        editor = self.by_id("editor")
        self.driver.execute_script("arguments[0].scrollIntoView({block: 'center'})", editor)
        size = editor.size
        for x, y in ((-0.3, -0.3), (0.3, -0.3), (0.0, 0.3), (-0.3, -0.3), (0.3, -0.3), (0.3, -0.3), (0.0, 0.3)):
            at = (round(x * size["width"]), round(y * size["height"]))
            webdriver.ActionChains(self.driver).move_to_element_with_offset(editor, *at).click().perform()
        text = self.by_id("graph").get_attribute("value")
        self.assertTrue(text.startswith("p edge 3 2\n") and text.endswith("\ne 1 2\ne 2 3\n"), text)
        self.wait(lambda: "A spanning tree of 3 vertices" in self.settled())

    def test_a_graph_is_drawn_by_the_keyboard(self) -> None:
        self.open(mode="graph", what="tree", key=KEY, text="p edge 0 0\n")
        keys = [Keys.ENTER, *[Keys.ARROW_RIGHT] * 5, Keys.ENTER, Keys.ENTER, *[Keys.ARROW_LEFT] * 5, Keys.ENTER]
        self.by_id("editor").send_keys(*keys)
        self.assertIn("Vertices 2 and 1 are joined", self.text("editor-said"))
        self.assertIn("e 2 1\n", self.by_id("graph").get_attribute("value"))

    def test_controls_have_names_and_the_keyboard_reaches_them(self) -> None:
        for mode in ("maze", "graph", "formula", "histogram"):
            self.open(mode=mode, key=KEY)
            controls = "input, select, textarea, button, canvas, progress"
            for control in self.driver.find_elements(By.CSS_SELECTOR, controls):
                if control.is_displayed():
                    self.assertNotEqual(control.accessible_name, "", control.get_attribute("outerHTML"))
        self.driver.execute_script("document.getElementById('key').focus()")
        for name in ("again", "same"):
            self.driver.switch_to.active_element.send_keys(Keys.TAB)
            self.assertEqual(self.driver.switch_to.active_element.get_attribute("id"), name)

    def test_a_phone_has_no_sideways_scrolling_in_light_and_dark(self) -> None:
        metrics = {"width": 390, "height": 844, "deviceScaleFactor": 1, "mobile": True}
        self.driver.execute_cdp_cmd("Emulation.setDeviceMetricsOverride", metrics)
        try:
            for theme in ("light", "dark"):
                features = [{"name": "prefers-color-scheme", "value": theme}]
                self.driver.execute_cdp_cmd("Emulation.setEmulatedMedia", {"features": features})
                for mode in ("maze", "graph", "formula", "histogram"):
                    self.open(mode=mode, key=KEY)
                    wide = self.driver.execute_script("return document.documentElement.scrollWidth")
                    self.assertLessEqual(wide, 390, mode)
        finally:
            self.driver.execute_cdp_cmd("Emulation.clearDeviceMetricsOverride", {})
            self.driver.execute_cdp_cmd("Emulation.setEmulatedMedia", {"features": []})


class PicturesTest(PageTest):
    """Screenshots, to be looked at."""

    def test_pictures_are_taken(self) -> None:
        if self.pictures is None:
            self.skipTest("no folder for them is named")
        for width in (1280, 390):
            for theme in ("light", "dark"):
                self.take_all(width, theme)

    def take_all(self, width: int, theme: str) -> None:
        """A screenshot of each mode; the graph is in the middle of its run."""
        metrics = {"width": width, "height": 900, "deviceScaleFactor": 1, "mobile": width < 600}
        self.driver.execute_cdp_cmd("Emulation.setDeviceMetricsOverride", metrics)
        features = [{"name": "prefers-color-scheme", "value": theme}]
        self.driver.execute_cdp_cmd("Emulation.setEmulatedMedia", {"features": features})
        for mode in ("maze", "graph", "formula", "histogram"):
            settings = {"text": Path(HERE / "../../examples/petersen.col").read_text()} if mode == "graph" else {}
            self.open(mode=mode, key=KEY, **settings)
            if mode == "graph":
                middle = int(self.by_id("step").get_attribute("max")) // 2
                script = "arguments[0].value = arguments[1]; arguments[0].dispatchEvent(new Event('input'))"
                self.driver.execute_script(script, self.by_id("step"), middle)
            whole = self.driver.execute_cdp_cmd("Page.captureScreenshot", {"captureBeyondViewport": True})
            (self.pictures / f"{mode}-{width}-{theme}.png").write_bytes(base64.b64decode(whole["data"]))


def main() -> int:
    """Lays out the site with a page for the cases, and runs the tests."""
    out, *pictures = map(Path, sys.argv[1:])
    with tempfile.TemporaryDirectory() as room:
        site = Path(room) / "site"
        shutil.copytree(out / "site", site)
        for name in ("arrays.mjs", "compare.mjs"):
            shutil.copy(HERE.parent / name, site)
        cases = subprocess.run(["node", str(HERE.parent / "cases.mjs"), "--json"], check=True, stdout=subprocess.PIPE)
        (site / "cases.json").write_bytes(cases.stdout)
        (site / "cases.html").write_text(CASES_PAGE, encoding="utf-8")
        PageTest.site = site
        PageTest.pictures = pictures[0] if pictures else None
        loader = unittest.defaultTestLoader
        suites = [loader.loadTestsFromTestCase(test) for test in (ModesTest, UseTest, PicturesTest)]
        result = unittest.TextTestRunner(verbosity=2).run(unittest.TestSuite(suites))
    return 0 if result.wasSuccessful() else 1


if __name__ == "__main__":
    sys.exit(main())
