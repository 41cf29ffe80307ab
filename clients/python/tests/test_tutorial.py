"""The tutorial: each block of its code is run, and prints what the tutorial says; and all of them are pasted, line by
line, into a real terminal.
"""

from __future__ import annotations

import contextlib
import fcntl
import io
import os
import pty
import re
import select
import struct
import subprocess
import sys
import tempfile
import termios
import time
import unittest
from pathlib import Path
from typing import Any

import subzero

try:
    import matplotlib

    matplotlib.use("Agg")
except ImportError:
    matplotlib = None

ROOT = Path(__file__).resolve().parents[3]
TUTORIAL, README = ROOT / "docs" / "TUTORIAL.md", ROOT / "README.md"
MADE = ["back.png", "changed.png", "survey.log", "touched.png", "x.session"]


def blocks(text: str) -> list[tuple[str, str]]:
    """The tutorial's blocks of Python, each with what it prints."""
    found = re.findall(r"^```python\n(.*?)^```\n(?:```text\n(.*?)^```\n)?", text, re.M | re.S)
    return [(code, printed) for code, printed in found]


class Terminal:
    """A `python3` in a terminal of its own, which sees no more of what is typed than a person's would."""

    def __init__(self, folder: str) -> None:
        self._here, there = pty.openpty()
        fcntl.ioctl(there, termios.TIOCSWINSZ, struct.pack("HHHH", 50, 200, 0, 0))
        environment = {**os.environ, "PYTHONPATH": str(Path(subzero.__file__).parents[1]), "MPLBACKEND": "Agg"}
        environment.update(TERM="dumb", PYTHON_BASIC_REPL="1", PYTHONSTARTUP="", PYTHONIOENCODING="utf-8")
        self._process = subprocess.Popen(
            [sys.executable, "-q"], stdin=there, stdout=there, stderr=there, cwd=folder, env=environment, close_fds=True
        )
        os.close(there)
        self.told("")

    def told(self, text: str) -> str:
        """Paste the text, line by line, and give all that is shown until it waits for a line again."""
        shown = ""
        for line in text.splitlines(keepends=True) or [""]:
            os.write(self._here, line.encode())
            shown += self._shown()
        return "\n".join(_overwritten(line) for line in shown.replace("\r\n", "\n").split("\n"))

    def _shown(self) -> str:
        """What is shown up to the next prompt."""
        shown, until = "", time.monotonic() + 300
        while not shown.endswith((">>> ", "... ")):
            ready, _, _ = select.select([self._here], [], [], 1)
            if ready:
                shown += os.read(self._here, 1 << 16).decode()
            elif self._process.poll() is not None or time.monotonic() > until:
                raise AssertionError(f"the terminal stopped behind {shown!r}")
        return shown

    def close(self) -> None:
        """End it."""
        self._process.kill()
        self._process.wait()
        os.close(self._here)


def _overwritten(line: str) -> str:
    """What is left of a line on a terminal, where its beginning was written again, as progress is."""
    left = ""
    for part in line.split("\r"):
        left = part + left[len(part) :]
    return left if left.endswith((">>> ", "... ")) else left.rstrip(" ")


class Readme(unittest.TestCase):
    def test_its_lines_of_python_print_what_it_says(self) -> None:
        text = README.read_text()
        names: dict[str, Any] = {}
        (code, _), out = blocks(text)[0], io.StringIO()
        with contextlib.redirect_stdout(out):
            exec(compile(code, str(README), "exec"), names)
        told = re.search(r"It prints `([^`]*)`: (\d+) raw pixels .* touched (\d+) cells", text, re.S)
        assert told is not None
        self.assertEqual(out.getvalue(), f"{told[1]}\n")
        self.assertEqual(told[1], f"{told[2]} {told[3]}")
        suspects = re.search(r"`run\.suspects\(field\.bad, sky, to=labels\)` tells the (\d+) cells", text)
        assert suspects is not None
        found = names["run"].suspects(names["field"].bad, names["sky"], to=names["labels"])
        self.assertEqual(int(found.sum()), int(suspects[1]))
        names["session"].close()


@unittest.skipIf(matplotlib is None, "matplotlib is not here")
class Tutorial(unittest.TestCase):
    def test_its_blocks_print_what_it_says(self) -> None:
        names: dict[str, object] = {}
        here = os.getcwd()
        told = blocks(TUTORIAL.read_text())
        self.assertGreaterEqual(len(told), 14)
        with tempfile.TemporaryDirectory() as folder:
            os.chdir(folder)
            try:
                for code, printed in told:
                    out = io.StringIO()
                    with contextlib.redirect_stdout(out):
                        exec(compile(code, str(TUTORIAL), "exec"), names)
                    self.assertEqual(out.getvalue(), printed, code)
                self.assertEqual(sorted(os.listdir()), MADE)
            finally:
                os.chdir(here)

    def test_it_can_be_pasted_into_a_terminal(self) -> None:
        with tempfile.TemporaryDirectory() as folder:
            terminal = Terminal(folder)
            self.addCleanup(terminal.close)
            for code, printed in blocks(TUTORIAL.read_text()):
                shown = terminal.told(code)
                self.assertTrue(shown.endswith(">>> "), f"the block is not ended: {code}")
                typed = [line.rstrip() for line in ["", *code.splitlines()]]
                echoed = {f"{prompt}{line}" for line in typed for prompt in (">>> ", "... ", ">>>", "...", "")}
                lines = [line for line in shown.splitlines() if line not in echoed]
                self.assertEqual("".join(f"{line}\n" for line in lines), printed, code)
            self.assertEqual(sorted(os.listdir(folder)), MADE)


if __name__ == "__main__":
    unittest.main()
