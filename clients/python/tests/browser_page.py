"""The page in a real browser: headless Chromium, driven by chromium-driver. `.ci/page` runs these tests.

`python3 browser_page.py pictures FOLDER` writes the tutorial's pictures of the page; `clients/python/speed_page.py` times
clicks.
"""

from __future__ import annotations

import http.server
import os
import shutil
import signal
import sys
import tempfile
import threading
import time
import unittest
from collections.abc import Callable
from pathlib import Path
from typing import Any

import numpy as np
from selenium import webdriver
from selenium.common.exceptions import SessionNotCreatedException
from selenium.webdriver.chrome.service import Service
from selenium.webdriver.common.action_chains import ActionChains
from selenium.webdriver.common.keys import Keys

import subzero
from subzero import demo
from subzero.cells import Mask
from subzero.view import Page, show

BACK, FORWARD, ASKED = (255, 162, 74), (86, 182, 255), (255, 255, 255)


def started_browser(folder: str, wide: int, high: int) -> webdriver.Chrome:
    """Chromium without a window, that writes what it saves into a folder."""
    options = webdriver.ChromeOptions()
    options.binary_location = shutil.which("chromium") or "chromium"
    for word in (
        "--headless=new",
        "--no-sandbox",  # a gate may run as root
        "--disable-gpu",
        "--disable-dev-shm-usage",
        "--disable-background-networking",
        "--no-first-run",
        "--force-color-profile=srgb",
        f"--window-size={wide},{high}",
    ):
        options.add_argument(word)
    several = "profile.default_content_setting_values.automatic_downloads"
    options.add_experimental_option("prefs", {"download.default_directory": folder, several: 1})
    options.set_capability("goog:loggingPrefs", {"browser": "ALL"})
    for _ in range(4):  # on a machine that is busy it may come up too late
        try:
            return webdriver.Chrome(service=Service(shutil.which("chromedriver") or "chromedriver"), options=options)
        except SessionNotCreatedException as fault:
            late = fault
    raise late


class Browser(unittest.TestCase):
    """One browser for all tests of a class. At the end of each test its console holds no error."""

    browser: webdriver.Chrome
    folder: str
    arrays: list[subzero.BaseArray | subzero.Node]
    wide, high = 1500, 800
    expected: tuple[str, ...] = ("willReadFrequently",)  # these tests read pixels

    @classmethod
    def setUpClass(cls) -> None:
        cls.folder = tempfile.mkdtemp()
        cls.addClassCleanup(shutil.rmtree, cls.folder)
        cls.browser = started_browser(cls.folder, cls.wide, cls.high)
        cls.browser.set_script_timeout(120)
        cls.addClassCleanup(cls.browser.quit)

    def tearDown(self) -> None:
        faults = [one["message"] for one in self.browser.get_log("browser") if one["level"] in ("SEVERE", "WARNING")]
        self.browser.get("about:blank")  # the page is left before it is closed
        self.browser.get_log("browser")
        left = [fault for fault in faults if not any(word in fault for word in self.expected)]
        self.assertEqual(left, [])

    def run_of(self, build: Callable[[subzero.Session], subzero.Run]) -> subzero.Run:
        """A run of a session of its own."""
        session = subzero.Session()
        self.addCleanup(session.close)
        return build(session)

    def open(self, run: subzero.Run | subzero.Change, fragment: str = "", **how: Any) -> Page:
        """A page over the run, or over what a refresh made, open in the browser."""
        page = show(run, **how)
        self.addCleanup(page.close)
        self.arrays = [*dict.fromkeys(page.run.base), *page.run.flow.nodes]
        self.go(page.url + fragment)
        return page

    def go(self, url: str) -> None:
        self.browser.get("about:blank")
        self.browser.get(url)
        self.until(lambda: self.script("return document.body.dataset.ready === 'yes'"))

    def script(self, text: str, *words: Any) -> Any:
        return self.browser.execute_script(text, *words)

    def until(self, holds: Callable[[], Any], seconds: float = 300) -> None:
        """Wait until something holds."""
        end = time.monotonic() + seconds
        while not holds():
            self.assertLess(time.monotonic(), end, "what was waited for did not come")
            time.sleep(0.02)

    def text(self, name: str) -> str:
        return str(self.script("return document.getElementById(arguments[0]).textContent", name))

    def place(self, array: int, row: int, column: int) -> tuple[int, int]:
        """Where the middle of a cell is on the screen."""
        x, y = self.script("return page.place(...arguments)", array, row, column)
        return int(x), int(y)

    def click(self, array: int, row: int, column: int, *, held: str = "") -> None:
        """Click a cell, with a key held, and wait for the answer."""
        before = self.script("return page.timing && page.timing.number")
        self.drag(array, (row, column), (row, column), *([held] if held else []))
        self.until(lambda: self.script("return page.timing && page.timing.number") != before)

    def drag(self, array: int, begin: tuple[int, int], end: tuple[int, int], *held: str) -> None:
        """Drag from one cell to another, with keys held."""
        keys = ActionChains(self.browser, duration=0)
        for key in held:
            keys.key_down(key)
        keys.perform()
        self.point(array, *begin)
        actions = ActionChains(self.browser, duration=0)
        actions.w3c_actions.pointer_action.pointer_down()
        if end != begin:
            actions.w3c_actions.pointer_action.move_to_location(*self.place(array, *end))
        actions.w3c_actions.pointer_action.pointer_up()
        actions.perform()
        keys = ActionChains(self.browser, duration=0)
        for key in held:
            keys.key_up(key)
        keys.perform()

    def point(self, array: int, row: int, column: int) -> None:
        """Move the pointer to the middle of a cell."""
        actions = ActionChains(self.browser, duration=0)
        actions.w3c_actions.pointer_action.move_to_location(*self.place(array, row, column))
        actions.perform()

    def press(self, *keys: str) -> None:
        for key in keys:
            ActionChains(self.browser).send_keys(key).perform()

    def settled(self) -> None:
        """Wait until nothing is asked any more."""
        self.until(lambda: not self.script("return page.asking()"))

    def marked(self, array: int) -> tuple[str, list[int]] | None:
        """As what cells of an array are marked, and which, by their place row by row."""
        told = self.script("return page.marked(arguments[0])", array)
        return None if told is None else (told["as"], told["cells"])

    def painted(self, array: int, colour: tuple[int, int, int]) -> list[list[int]]:
        """The cells of the shown layer in which a colour of the marks is painted, read from a pixel beside the middle,
        where no line of a reticle runs.
        """
        return list(
            self.script(
                """
                const panel = page.state.panels[arguments[0]], g = page.geometry(panel), wanted = arguments[1];
                const pen = panel.over.getContext("2d"), [, height, width] = panel.told.shape, found = [];
                const pixels = pen.getImageData(0, 0, g.wide, g.high).data;
                for (let row = 0; row < height; row++) {
                  for (let column = 0; column < width; column++) {
                    const at = 4 * (Math.floor(g.y(row + 0.3)) * g.wide + Math.floor(g.x(column + 0.3)));
                    if (pixels[at + 3] > 60 && wanted.every((part, k) => Math.abs(pixels[at + k] - part) < 6)) {
                      found.push([row, column]);
                    }
                  }
                }
                return found;
                """,
                array,
                list(colour),
            )
        )

    def cells(self, mask: Mask) -> list[int]:
        return [int(cell) for cell in np.flatnonzero(mask)]


def stars(session: subzero.Session) -> subzero.Run:
    """The tutorial's stars."""
    flow, *_ = demo.stars(session)
    return session.start(flow, [session.array("sky", demo.field().image)])


def cube(session: subzero.Session) -> subzero.Run:
    """Three layers of 6 by 8, cleaned, and folded into one."""
    image = np.arange(144).reshape(3, 6, 8) % 50
    base = session.array("cube", np.ma.masked_equal(image, 7))
    flow = session.flow("layers")
    flow.fold_layers(flow.clean(flow.input(0), t=45), "max")
    return session.start(flow, [base])


class Stars(Browser):
    """The tutorial's flow."""

    session: subzero.Session
    stars: subzero.Run

    @classmethod
    def setUpClass(cls) -> None:
        super().setUpClass()
        cls.session = subzero.Session()
        cls.addClassCleanup(cls.session.close)
        cls.stars = stars(cls.session)

    def setUp(self) -> None:
        self.page = self.open(self.stars)

    def test_it_loads_and_shows_every_array(self) -> None:
        heads = self.script("return [...document.querySelectorAll('.panel h2')].map((one) => one.textContent)")
        self.assertEqual(heads, ["sky", "clean", "convolve", "regions", "block"])
        details = self.script("return [...document.querySelectorAll('.panel .detail')].map((one) => one.textContent)")
        self.assertEqual(details[1:3], ["1500 and more · 64 × 64", "3 by 3 · 64 × 64"])
        chips = self.script("return [...document.querySelectorAll('.panel .chip')].map((one) => one.textContent)")
        self.assertEqual(chips, ["raw", "blackbox", "map", "blackbox", "map"])
        self.assertEqual(self.script("return document.querySelectorAll('#arrows g').length"), 4)
        for array in range(5):
            colours = self.script(
                """
                const base = page.state.panels[arguments[0]].base;
                const image = base.getContext("2d").getImageData(0, 0, base.width, base.height);
                return new Set(new Uint32Array(image.data.buffer)).size;
                """,
                array,
            )
            self.assertGreater(colours, 3, array)
        self.assertEqual(self.text("sentence"), "Click a cell of any array.")

    def test_a_click_marks_just_the_cells_of_back_and_forward(self) -> None:
        """Read back from the page twice: as the cells that it holds, and from the pixels that it painted."""
        for array, cell in ((4, (4, 6)), (0, (18, 25)), (2, (18, 26)), (3, (31, 38)), (1, (0, 0))):
            self.click(array, *cell)
            start = self.arrays[array]
            for number, other in enumerate(self.arrays):
                with self.subTest(clicked=array, cell=cell, read=number):
                    marked = self.marked(number)
                    if number == array:
                        self.assertEqual(marked, ("asked", [cell[0] * self.stars.shape(start)[1] + cell[1]]))
                        continue
                    if number < array:
                        wanted, colour, name = self.stars.back(start, cell, to=other), BACK, "back"
                    else:
                        wanted, colour, name = self.stars.forward(start, cell, to=other), FORWARD, "forward"
                    self.assertEqual(marked, (name, self.cells(wanted)))
                    self.assertEqual(self.painted(number, colour), np.argwhere(wanted).tolist())
                    self.assertEqual(self.painted(number, FORWARD if colour == BACK else BACK), [])

    def test_counts_are_told_in_words(self) -> None:
        self.click(4, 4, 6)
        self.assertEqual(self.text("sentence"), "109 raw cells stood behind this cell of block.")
        counts = self.script("return page.state.panels.map((panel) => panel.count.textContent)")
        self.assertEqual(counts[0], "109 raw cells stood behind it")
        self.assertEqual(counts[3:], ["16 cells stood behind it", "row 4, column 6: 855"])
        ways = self.script("return page.state.panels.map((panel) => panel.way.textContent)")
        self.assertEqual(ways[0], "by blackbox, 4,096 cells traced")
        self.assertEqual(ways[3], "by map")
        self.assertIn("8,192 cells traced", self.text("time"))
        self.click(0, 18, 25)
        self.assertEqual(self.text("sentence"), "This raw cell of sky touched 8 cells of block.")
        self.click(2, 18, 25)
        wanted = "9 raw cells stood behind this cell of convolve; it touched 8 cells of block."
        self.assertEqual(self.text("sentence"), wanted)
        arrows = self.script(
            "return [...document.querySelectorAll('#arrows g')].map((one) => one.getAttribute('class'))"
        )
        self.assertEqual(arrows, ["back", "back", "forward", "forward"])

    def test_what_could_change_it(self) -> None:
        self.click(3, 18, 24)
        stood = self.marked(2)
        self.press("s")
        self.settled()
        could = self.marked(2)
        assert stood is not None and could is not None
        self.assertEqual(len(stood[1]), 69)
        rows, columns = np.divmod(np.array(stood[1]), 64)
        beside = {(r + a, c + b) for r, c in zip(rows, columns) for a, b in ((0, 0), (1, 0), (-1, 0), (0, 1), (0, -1))}
        self.assertEqual(could[1], sorted(int(r * 64 + c) for r, c in beside))
        self.assertIn("could change this cell of regions", self.text("sentence"))
        self.assertIn("fixes the selected cell's value", self.text("meaning"))

    def test_a_rectangle_and_further_cells(self) -> None:
        self.drag(1, (10, 12), (13, 18), Keys.SHIFT)
        self.until(lambda: self.marked(1))
        wanted = np.zeros((64, 64), dtype=bool)
        wanted[10:14, 12:19] = True
        self.assertEqual(self.marked(1), ("asked", self.cells(wanted)))
        self.click(1, 40, 50, held=Keys.CONTROL)
        wanted[40, 50] = True
        self.assertEqual(self.marked(1), ("asked", self.cells(wanted)))
        found = self.stars.forward(self.arrays[1], wanted, to=self.arrays[2])
        self.assertEqual(self.marked(2), ("forward", self.cells(found)))
        selected = self.page.selected
        assert selected is not None
        self.assertEqual(selected.tolist(), wanted.tolist())
        self.click(1, 0, 0)
        self.assertEqual(self.marked(1), ("asked", [0]))

    def test_a_drag_without_shift_moves_the_view_and_selects_nothing(self) -> None:
        self.script("page.zoom(0, 20, 20, 4)")
        before = self.place(0, 20, 20)
        self.drag(0, (20, 20), (24, 22))
        after = self.place(0, 20, 20)
        self.assertGreater(after[1] - before[1], 10)
        self.assertEqual([a - b for a, b in zip(self.place(2, 20, 20), self.place(0, 20, 20))][1], 0)
        self.assertIsNone(self.marked(0))
        self.assertEqual(self.script("return page.state.views.get('16x16').zoom"), 1)

    def test_a_click_moves_the_other_views_to_their_marks(self) -> None:
        self.script("page.zoom(4, 1, 1, 4)")
        self.click(0, 59, 28)
        view = self.script("return page.state.views.get('16x16')")
        self.assertEqual(view["zoom"], 4)
        self.assertGreater(view["row"], 12)
        self.assertEqual(self.script("return page.state.views.get('64x64').zoom"), 1)

    def test_keys(self) -> None:
        self.click(2, 20, 20)
        self.press(Keys.ARROW_DOWN, Keys.ARROW_RIGHT, Keys.ARROW_RIGHT, Keys.ARROW_UP, Keys.ARROW_UP, Keys.ARROW_LEFT)
        self.settled()
        self.assertEqual(self.marked(2), ("asked", [19 * 64 + 21]))
        wanted = self.stars.back(self.arrays[2], (19, 21), to=self.arrays[0])
        self.assertEqual(self.marked(0), ("back", self.cells(wanted)))
        self.press("b")
        self.assertEqual((self.painted(0, BACK) == [], self.painted(3, FORWARD) == []), (False, True))
        self.press("f")
        self.assertEqual((self.painted(0, BACK) == [], self.painted(3, FORWARD) == []), (True, False))
        self.press("f")
        self.assertEqual((self.painted(0, BACK) == [], self.painted(3, FORWARD) == []), (False, False))
        self.press("z")
        self.assertGreater(self.script("return page.state.views.get('64x64').zoom"), 2)
        self.press("z")
        self.assertEqual(self.script("return page.state.views.get('64x64').zoom"), 1)
        self.press(Keys.ESCAPE)
        self.assertEqual([self.marked(array) for array in range(5)], [None] * 5)
        self.assertEqual(self.text("sentence"), "Click a cell of any array.")
        self.until(lambda: self.page.selected is None)

    def test_the_value_below_the_pointer(self) -> None:
        self.point(0, 18, 25)
        self.assertEqual(self.text("readout").split(), "sky row 18, column 25: 5,000".split())
        tips = self.script(
            "return page.state.panels.map((one) => one.tip.style.display === 'block' && one.tip.textContent)"
        )
        self.assertEqual(tips, ["5,000", "190", "6,606", "855", False])
        self.point(0, 5, 31)
        self.assertTrue(self.text("readout").endswith("column 31: empty"))

    def test_greys_follow_the_stretch_and_empty_cells_are_hatched(self) -> None:
        def grey(row: int, column: int) -> list[int]:
            return list(
                self.script(
                    """
                    const panel = page.state.panels[0], g = page.geometry(panel), [row, column] = arguments;
                    const x = Math.floor(g.x(column + 0.5)), y = Math.floor(g.y(row + 0.5));
                    return [...panel.base.getContext("2d").getImageData(x, y, 1, 1).data];
                    """,
                    row,
                    column,
                )
            )

        values = self.stars.values(self.arrays[0])
        faint = grey(12, 12)
        self.assertEqual(len(set(faint[:3])), 1)
        self.assertGreater(grey(17, 24)[0], faint[0])
        self.assertEqual(grey(18, 25)[0], 250)
        self.script("document.querySelector('#stretch [data-value=log]').click()")
        self.assertGreater(grey(17, 20)[0], faint[0])
        self.assertTrue(bool(np.ma.getmaskarray(values)[20, 31]))
        red, green, blue, _ = grey(20, 31)
        self.assertGreater(blue, green)

    def test_row_0_at_the_bottom(self) -> None:
        upper = self.place(0, 10, 10)
        self.script("document.getElementById('origin').click()")
        lower = self.place(0, 10, 10)
        self.assertEqual(upper[0], lower[0])
        self.assertGreater(lower[1], upper[1] + 50)
        self.click(0, 18, 25)
        self.assertEqual(self.marked(0), ("asked", [18 * 64 + 25]))
        wanted = self.stars.forward(self.arrays[0], (18, 25), to=self.arrays[3])
        self.assertEqual(self.painted(3, FORWARD), np.argwhere(wanted).tolist())
        self.press(Keys.ARROW_UP)
        self.settled()
        self.assertEqual(self.marked(0), ("asked", [19 * 64 + 25]))

    def test_a_selection_from_python_comes_to_the_page(self) -> None:
        bad = demo.field().bad
        self.page.select(self.arrays[0], bad, name="bad pixels")
        self.until(lambda: self.marked(0) == ("asked", self.cells(bad)))
        wanted = self.stars.forward(self.arrays[0], bad, to=self.arrays[3])
        self.assertEqual(self.marked(3), ("forward", self.cells(wanted)))
        self.click(4, 4, 6)
        self.script("document.querySelector('#offered button').click()")
        self.until(lambda: self.marked(0) == ("asked", self.cells(bad)))
        self.assertIs(self.page.selected_in, self.arrays[0])

    def test_the_empty_cells_of_an_array_as_a_selection(self) -> None:
        self.script("page.state.panels[0].count.click()")
        self.until(lambda: self.marked(0))
        self.assertEqual(self.marked(0), ("asked", [row * 64 + 31 for row in range(64)]))

    def test_a_link_restores_the_selection(self) -> None:
        self.drag(2, (10, 12), (13, 18), Keys.SHIFT)
        self.until(lambda: self.marked(2))
        self.click(2, 20, 20, held=Keys.CONTROL)
        self.press("s")
        self.settled()
        link, marked = self.browser.current_url, [self.marked(array) for array in range(5)]
        self.press(Keys.ESCAPE)
        self.go(link)
        self.until(lambda: self.marked(0))
        self.assertEqual([self.marked(array) for array in range(5)], marked)
        self.assertEqual(self.script("return page.state.sense"), "could")

    def test_answers_and_views_are_saved(self) -> None:
        self.click(4, 4, 6)
        self.script("page.state.panels[0].save.click(); document.getElementById('picture').click()")
        answer, view = Path(self.folder) / "sky_behind_block.npy", Path(self.folder) / "stars_1.png"
        self.until(lambda: answer.exists() and view.exists())
        saved = np.load(answer)
        self.assertEqual((saved.dtype, saved.shape), (np.dtype(bool), (64, 64)))
        self.assertEqual(saved.tolist(), self.stars.back(self.arrays[4], (4, 6), to=self.arrays[0]).tolist())
        self.until(lambda: view.stat().st_size > 10_000)
        self.assertEqual(view.read_bytes()[:8], b"\x89PNG\r\n\x1a\n")

    def test_two_viewers_of_one_page(self) -> None:
        self.click(4, 4, 6)
        first = self.browser.current_window_handle
        self.browser.switch_to.new_window("tab")
        self.go(self.page.url)
        self.click(0, 36, 20)
        self.assertEqual(self.marked(0), ("asked", [36 * 64 + 20]))
        self.browser.close()
        self.browser.switch_to.window(first)
        self.assertEqual(self.marked(4), ("asked", [4 * 16 + 6]))
        selected = self.page.selected
        assert selected is not None
        self.assertEqual(np.argwhere(selected).tolist(), [[36, 20]])

    def test_in_a_notebook_it_is_shown_in_place(self) -> None:
        shown = f"<!doctype html><title>notebook</title><body>{self.page._repr_html_()}</body>".encode()

        class Notebook(http.server.BaseHTTPRequestHandler):
            def do_GET(self) -> None:
                self.send_response(200)
                self.send_header("Content-Type", "text/html")
                self.end_headers()
                self.wfile.write(shown if self.path == "/" else b"")

            def log_message(self, *_: Any) -> None:
                pass

        server = http.server.ThreadingHTTPServer(("127.0.0.1", 0), Notebook)
        threading.Thread(target=server.serve_forever, daemon=True).start()
        self.addCleanup(server.server_close)
        self.addCleanup(server.shutdown)
        self.browser.get(f"http://localhost:{server.server_port}/")
        self.browser.switch_to.frame(0)
        self.until(lambda: self.script("return document.body.dataset.ready === 'yes'"))
        self.assertEqual(self.script("return document.querySelectorAll('.panel').length"), 5)
        self.browser.switch_to.default_content()


class Changed(Browser):
    """The page of a refresh: the run that it made, what was set, what changed, and what was computed again."""

    def refreshed(self) -> subzero.Change:
        """The tutorial's stars, whose dead column then holds the mean of the columns beside it."""
        run = self.run_of(stars)
        run.wait()
        mended = demo.field().image.copy()
        mended[:, 31] = (mended[:, 30] + mended[:, 32]) // 2
        return run.refresh("sky", mended)

    def choose(self, name: str) -> None:
        """Click the button of this name, and wait until the answer is shown."""
        before = self.script("return page.timing.number")
        self.script(
            "[...document.querySelectorAll('#offered button')].find((one) => one.textContent === arguments[0]).click()",
            name,
        )
        self.until(lambda: self.script("return page.timing.number") != before)

    def test_the_set_cells_are_selected_and_what_they_touch_is_marked(self) -> None:
        change = self.refreshed()
        page = self.open(change)
        self.until(lambda: self.marked(0))
        self.assertEqual(self.text("run"), "run 2")
        self.assertIs(page.selected_in, change.array)
        self.assertEqual(self.marked(0), ("asked", [row * 64 + 31 for row in range(64)]))
        self.assertEqual(self.painted(0, ASKED), [[row, 31] for row in range(64)])
        for number, node in enumerate(change.run.flow.nodes, 1):
            touched = change.run.forward(change.array, demo.field().dead, to=node)
            self.assertEqual(self.marked(number), ("forward", self.cells(touched)))
            self.assertEqual(self.painted(number, FORWARD), np.argwhere(touched).tolist())
            self.assertFalse((touched & ~change.reached(node)).any())
        self.assertIn("These 64 raw cells of sky touched", self.text("sentence"))

    def test_what_changed_and_what_was_computed_again_in_each_array(self) -> None:
        change = self.refreshed()
        self.open(change)
        self.until(lambda: self.marked(0))
        names, titles = self.script(
            "const all = [...document.querySelectorAll('#offered button')];"
            "return [all.map((one) => one.textContent), all.map((one) => one.title)]"
        )
        wanted: list[tuple[str, int, Mask]] = [("set cells", 0, change.reached("sky"))]
        for number, node in reversed(list(enumerate(change.run.flow.nodes, 1))):
            wanted.insert(0, (f"computed again in {node.op}", number, change.reached(node)))
            if change.changed(node).any():
                wanted.insert(0, (f"changed in {node.op}", number, change.changed(node)))
        self.assertEqual(names, [name for name, _, _ in wanted])
        counts = {name: int(mask.sum()) for name, _, mask in wanted}
        self.assertEqual((counts["changed in regions"], "changed in block" in counts), (12, False))
        self.assertEqual(sum(count for name, count in counts.items() if "again" in name), change.cells)
        for title, (name, number, _) in zip(titles, wanted):
            told = self.script("return page.state.panels[arguments[0]].told.title", number)
            self.assertEqual(title, f"select {counts[name]} cells of {told}")
        for name, number, mask in wanted:
            with self.subTest(button=name):
                self.choose(name)
                self.assertEqual(self.marked(number), ("asked", self.cells(mask)))
                self.assertEqual(self.painted(number, ASKED), np.argwhere(mask).tolist())
                count = self.script("return page.state.panels[arguments[0]].count.textContent", number)
                self.assertEqual(count, f"{counts[name]} cells selected")
                if number:
                    behind = change.run.back(change.run.flow.nodes[number - 1], mask, to=change.array)
                    self.assertEqual(self.marked(0), ("back", self.cells(behind)))

    def test_the_values_are_those_of_the_new_run(self) -> None:
        change = self.refreshed()
        self.open(change)
        labels = change.run.flow.nodes[2]
        old, new = change.old.values(labels), change.run.values(labels)
        for row, column in np.argwhere(change.changed(labels)).tolist():
            self.assertEqual((old[row, column], new[row, column]), (0, 3611))
            self.assertEqual(self.script("return page.value(3, arguments[0])", row * 64 + column), "3,611")
        row = int(np.argwhere(change.changed(labels))[0][0])
        self.point(0, row, 31)
        value = f"{change.array.values[row, 31]:,}"
        self.assertEqual(self.text("readout").split(), f"sky row {row}, column 31: {value}".split())

    def test_where_nothing_was_set_nothing_is_marked(self) -> None:
        run = self.run_of(stars)
        run.wait()
        self.open(run.refresh("sky", {}))
        self.settled()
        buttons = self.script("return [...document.querySelectorAll('#offered button')].map((one) => one.textContent)")
        self.assertEqual(buttons, ["set cells"])
        self.assertEqual(self.text("sentence"), "No cell is selected.")
        self.click(4, 4, 6)
        self.assertEqual(self.text("sentence"), "109 raw cells stood behind this cell of block.")


class Layers(Browser):
    def test_the_slider_shows_the_layers_and_clicks_ask_for_the_shown_one(self) -> None:
        run = self.run_of(cube)
        self.open(run)
        self.assertEqual(self.script("return document.querySelectorAll('.panel input[type=range]').length"), 2)
        self.script(
            "const s = page.state.panels[1].slider; s.value = 2; s.dispatchEvent(new Event('input', {bubbles: true}))"
        )
        self.assertEqual(self.script("return page.state.panels[0].slider.value"), "2")
        self.click(1, 3, 4)
        self.assertEqual(self.marked(1), ("asked", [2 * 48 + 3 * 8 + 4]))
        wanted = run.back(self.arrays[1], (2, 3, 4), to=self.arrays[0])
        self.assertEqual(self.marked(0), ("back", self.cells(wanted)))
        self.assertEqual(self.painted(0, BACK), np.argwhere(wanted[2]).tolist())
        self.click(2, 3, 4)
        wanted = run.back(self.arrays[2], (3, 4), to=self.arrays[0])
        self.assertEqual(self.marked(0), ("back", self.cells(wanted)))
        for layer in (1, 0):
            self.press("[")
            self.assertEqual(self.script("return page.state.panels[0].slider.value"), str(layer))
            self.assertEqual(self.painted(0, BACK), np.argwhere(wanted[layer]).tolist())
        self.assertIn("layer 0, 2 more marked", self.script("return page.state.panels[0].layerWords.textContent"))
        self.point(0, 0, 7)
        self.assertEqual(self.text("readout").split(), "cube layer 0, row 0, column 7: empty".split())

    def test_a_selection_in_another_layer_turns_to_it(self) -> None:
        page = self.open(self.run_of(cube), origin="lower")
        page.select(self.arrays[0], (2, 1, 1))
        self.until(lambda: self.marked(0))
        self.assertEqual(self.script("return page.state.panels[0].slider.value"), "2")
        saved = self.script("return page.npy(0).then((bytes) => [...bytes])")
        place = Path(self.folder) / "cube.npy"
        place.write_bytes(bytes(saved))
        self.assertEqual(np.argwhere(np.load(place)).tolist(), [[2, 1, 1]])


class Values(Browser):
    def test_numbers_of_64_bits_are_shown_exactly(self) -> None:
        def build(session: subzero.Session) -> subzero.Run:
            base = session.array("far", [[2**63 - 1, -(2**63), 0, None]])
            flow = session.flow("f")
            flow.neg(flow.input(0))
            return session.start(flow, [base])

        self.open(self.run_of(build))
        said = self.script("return [0, 1, 2, 3].map((cell) => page.value(0, cell))")
        self.assertEqual(said, ["9,223,372,036,854,775,807", "-9,223,372,036,854,775,808", "0", "empty"])
        said = self.script("return [0, 1, 2, 3].map((cell) => page.value(1, cell))")
        self.assertEqual(said, ["-9,223,372,036,854,775,807", "empty", "0", "empty"])


class Faults(Browser):
    expected = ("willReadFrequently", "400", "503", "ERR_CONNECTION_REFUSED")

    def test_a_program_that_is_killed_is_told(self) -> None:
        session = subzero.Session()
        self.open(stars(session))
        self.assertTrue(self.script("return document.getElementById('fault').hidden"))
        os.kill(session.pid, signal.SIGKILL)
        self.until(lambda: "signal 9 ended it" in self.text("fault"))
        self.assertFalse(self.script("return document.getElementById('fault').hidden"))
        with self.assertRaises(subzero.ProgramEnded):
            session.close()

    def test_a_page_that_is_closed_is_told(self) -> None:
        page = self.open(self.run_of(cube))
        page.close()
        self.until(lambda: "lost its server" in self.text("fault"))

    def test_a_link_that_leads_nowhere_in_the_run(self) -> None:
        run = self.run_of(cube)
        for fragment in ("#array=9&cells=0.0.0.0.0", "#array=x", "#cells=0.0.0.0.0", "#array=0&kept=77"):
            self.open(run, fragment)
            self.settled()
            self.assertIsNone(self.marked(0))
        self.open(run, "#array=0&cells=0.90.0.90.0")
        self.until(lambda: "out of range" in self.text("fault"))
        self.click(0, 1, 1)
        self.assertTrue(self.script("return document.getElementById('fault').hidden"))


def sized(side: int, keep: list[str] | None = None, *, folded: bool = True) -> Callable[[subzero.Session], subzero.Run]:
    """The tutorial's flow on its image laid side by side, `side` by `side` cells with some noise: five arrays, or four
    where the labels are not folded."""

    def build(session: subzero.Session) -> subzero.Run:
        tiles = np.tile(demo.field().image.filled(20), (side // 64, side // 64))
        sky = session.array("sky", tiles + np.random.RandomState(1).randint(0, 3, (side, side)))
        flow = session.flow("five" if folded else "four")
        clean = flow.clean(flow.input(0), t=demo.HOT, keep=keep)
        labels = flow.regions(flow.convolve(clean, demo.KERNEL), t=demo.BRIGHT, keep=keep)
        if folded:
            flow.block(labels, "max", 4, 4)
        return session.start(flow, [sky])

    return build


class Speed(Browser):
    def test_values_go_once_and_answers_are_small_and_soon_there(self) -> None:
        """Five arrays of 512 by 512. What the program takes is told apart, since it may be one with checks."""
        self.open(self.run_of(sized(512)))
        took = []
        for star in range(24):  # until one is within the limit, since the machine may be busy
            row, column = 64 * (star // 6) + 17, 64 * (star % 6) + 24
            self.click(2, row, column)
            took.append(self.script("return [page.timing.all, page.timing.program]"))
            if star >= 2 and min(whole - program for whole, program in took) < 50:
                break
        sent = self.script(
            "return performance.getEntriesByType('resource').map((one) => [one.name, one.encodedBodySize])"
        )
        self.assertEqual(sum("/values/" in name for name, _ in sent), 5)
        asks = [size for name, size in sent if name.endswith("/ask")]
        self.assertEqual(len(asks), len(took))
        self.assertLess(max(asks), 4000)
        added = min(whole - program for whole, program in took)
        busy = os.getloadavg()[0] > (os.cpu_count() or 1)
        print(
            f"\nfive arrays of 512 by 512: {min(took)[0]:.0f} ms a click, of which the page takes {added:.0f} ms"
            + (", on a machine that is busy: not held against its limit" if busy else "")
        )
        if not busy:
            self.assertLess(added, 50)


def pictures(folder: str) -> None:
    """Write the tutorial's pictures of the page. How long an answer took is not in them."""

    class Pictures(Browser):
        def runTest(self) -> None:
            self.open(self.run_of(stars))
            views: list[tuple[str, int, int, int, str]] = [
                ("page-back.png", 4, 4, 6, ""),
                ("page-forward.png", 0, 18, 25, ""),
                ("page-could.png", 3, 18, 24, "sz"),
            ]
            for name, array, row, column, keys in views:
                self.click(array, row, column)
                self.press(*keys)
                self.settled()
                self.script("page.unpoint()")
                self.script("document.getElementById('time').textContent = ''")
                time.sleep(0.5)  # colours change by and by
                self.browser.save_screenshot(os.path.join(folder, name))

    Pictures.wide, Pictures.high = 1400, 660
    result = unittest.TextTestRunner().run(unittest.TestSuite([Pictures()]))
    sys.exit(not result.wasSuccessful())


if __name__ == "__main__":
    if sys.argv[1:2] == ["pictures"]:
        pictures(sys.argv[2])
    unittest.main()
