"""Tests over a log that is made for each of them, and programs of a few lines that stand for the real one."""

from __future__ import annotations

import tempfile
import time
import unittest
from pathlib import Path

import subzero


class WithLog(unittest.TestCase):
    def setUp(self) -> None:
        folder = tempfile.TemporaryDirectory()
        self.addCleanup(folder.cleanup)
        self.log = Path(folder.name) / "survey.log"

    def write(self, keep: str = "small", runs: int = 1) -> None:
        """A log of so many awaited runs of two nodes."""
        with subzero.Session(log=self.log) as session:
            sky = session.array("sky", [[1, None, 9, 300], [9, 9, 2, 8], [0, 0, 0, 0]])
            flow = session.flow("stars")
            flow.regions(flow.clean(flow.input(0), t=100), t=5)
            flow.keep_all(keep)
            for _ in range(runs):
                session.start(flow, sky).wait()

    def write_wrong(self) -> None:
        """A log that is well made, of whose second run the store says that the last cell was made of the first one."""
        with subzero.Session(log=self.log) as session:
            sky = session.array("sky", [[5, 6]])
            flow = session.flow("f")
            node = flow.neg(flow.add_k(flow.input(0), 1), keep=["full_one_b"])
            for _ in range(2):
                session.start(flow, sky).wait()
            self.assertEqual(session.runs[2].back(node, (0, 1), to=sky).tolist(), [[False, True]])
        log = self.log.read_bytes()  # which ends in two region pairs, of 8 bytes each, and a closed gate
        self.assertNotEqual(log[-13:-9], log[-5:-1])
        self.log.write_bytes(log[:-5] + log[-13:-9] + log[-1:])

    def fake(self, text: str) -> str:
        """A program of these lines of shell."""
        path = self.log.with_name("fake")
        path.write_text(f"#!/bin/sh\n{text}\n")
        path.chmod(0o755)
        return str(path)

    def wait_for(self, path: Path) -> None:
        until = time.monotonic() + 60
        while not path.exists():
            self.assertLess(time.monotonic(), until)
            time.sleep(0.02)
