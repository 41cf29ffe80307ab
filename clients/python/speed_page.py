"""Times clicks on the page in headless Chromium, from the click to the drawn marks; by hand, no test.

    python3 clients/python/speed_page.py [FOLDER] [--keep STRATEGY..]

The tutorial's flow over its image laid side by side: five arrays of 512 by 512, the last folded, and four of 1,024 by
1,024, which fill a session. A line for each sense and array that is clicked: the middle and the worst of as many clicks
as there are stars in a diagonal, how much of it the program's asks take, and the limit: 50 ms, and 150. FOLDER takes a
picture of each. Ends with status 1 where a middle is beyond its limit. It wants what the page's tests want.
"""

from __future__ import annotations

import argparse
import os
import sys
import unittest
from pathlib import Path

sys.path[:0] = [str(Path(__file__).parent / "src"), str(Path(__file__).parent / "tests")]

import numpy as np
from browser_page import Browser, sized

SIZES = ((512, True, 50), (1024, False, 150))


def clicks(side: int, folded: bool, limit: int, keep: list[str] | None, folder: str | None) -> bool:
    """Time the clicks of one size; whether all middles are within the limit."""
    middles: list[float] = []

    class Clicks(Browser):
        def runTest(self) -> None:
            self.open(self.run_of(sized(side, keep, folded=folded)))
            for sense in ("stood", "could"):
                if sense == "could":
                    self.press("s")
                for array, told in enumerate(self.script("return page.state.panels.map((one) => one.told.title)")):
                    took = []
                    for star in range(0, side, 64):
                        row, column = star + 17, star + 24
                        self.click(array, *((row // 4, column // 4) if told == "block" else (row, column)))
                        took.append(self.script("return [page.timing.all, page.timing.program]"))
                    whole, program = np.array(took).T
                    middles.append(float(np.median(whole)))
                    print(
                        f"{side} by {side}, {sense}, {told}: {np.median(whole):.0f} ms, at worst {whole.max():.0f}, "
                        f"of which asks {np.median(program):.0f}; limit {limit}",
                        flush=True,
                    )
            if folder is not None:
                self.browser.save_screenshot(os.path.join(folder, f"speed-{side}.png"))

    print(f"load {os.getloadavg()[0]:.1f}, {os.cpu_count()} processors", flush=True)
    done = unittest.TextTestRunner().run(unittest.TestSuite([Clicks()])).wasSuccessful()
    return done and max(middles) <= limit


if __name__ == "__main__":
    words = argparse.ArgumentParser(description="Times clicks on the page.")
    words.add_argument("folder", nargs="?")
    words.add_argument("--keep", nargs="+")
    given = words.parse_args()
    within = [clicks(*size, given.keep, given.folder) for size in SIZES]
    sys.exit(0 if all(within) else 1)
