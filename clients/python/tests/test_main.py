"""`python -m subzero`, and the version."""

import contextlib
import io
import os
import subprocess
import sys
import tempfile
import tomllib
import types
import unittest
from pathlib import Path
from unittest import mock

import subzero
from subzero import __main__ as shell


class Shell(unittest.TestCase):
    def setUp(self) -> None:
        folder = tempfile.TemporaryDirectory()
        self.addCleanup(folder.cleanup)
        self.log = Path(folder.name) / "survey.log"

    def run_shell(self, *words: str) -> tuple[int, str, str]:
        """The status, and what is written on standard output and standard error."""
        environment = {**os.environ, "PYTHONPATH": str(Path(subzero.__file__).parents[1])}
        ended = subprocess.run(
            [sys.executable, "-m", "subzero", *words], capture_output=True, text=True, env=environment, timeout=120
        )
        return ended.returncode, ended.stdout, ended.stderr

    def write(self) -> None:
        with subzero.Session(log=self.log) as session:
            sky = session.array("sky", [[1, None, 9], [9, 9, 2]])
            flow = session.flow("stars")
            labels = flow.regions(flow.input(0), t=5, name="labels", keep=["comp_one"])
            flow.block(labels, "max", 2, 2)
            session.start(flow, sky).wait()

    def test_without_words_it_tells_what_can_be_done(self) -> None:
        for words in ((), ("--help",)):
            status, out, _ = self.run_shell(*words)
            self.assertEqual(status, 0)
            for command in ("info LOG", "check LOG", "upgrade LOG", "demo [FOLDER]", "view LOG"):
                self.assertIn(f"python -m subzero {command}", out)
        status, out, _ = self.run_shell("--version")
        self.assertEqual((status, out), (0, subzero.__version__ + "\n"))
        status, _, err = self.run_shell("what")
        self.assertEqual(status, 2)
        self.assertIn("'what' is none of info, check, upgrade, demo, view", err)

    def test_info_tells_what_a_log_holds(self) -> None:
        self.write()
        status, out, err = self.run_shell("info", str(self.log))
        self.assertEqual((status, err), (0, ""))
        size, *lines = out.splitlines()
        begins = rf"^survey\.log: {self.log.stat().st_size:,} bytes in format 1"
        self.assertRegex(size, begins + r", of them \d+ of arrays and [\d,]+ of versions$")
        self.assertEqual(
            lines,
            [
                "array sky 1: 2 by 3, 1 cells empty",
                "flow stars, base arrays: 1",
                "    node 0 labels: regions of input 0 with t 5, kept by comp_one",
                '    node 1: block of node 0 with fold "max", h 2, w 2',
                "version 1: flow stars on sky 1",
            ],
        )
        with subzero.Session(log=self.log):
            self.assertEqual(self.run_shell("info", str(self.log))[0], 0)  # it only reads

    def test_info_of_what_is_no_log(self) -> None:
        self.log.write_text("this is no log at all\n")
        status, out, err = self.run_shell("info", str(self.log))
        self.assertEqual((status, out, err), (1, "", "subzero: the file does not begin as a log\n"))
        status, _, err = self.run_shell("info", str(self.log) + "x")
        self.assertEqual(status, 1)
        self.assertIn("No such file", err)

    def test_check_is_the_programs(self) -> None:
        self.write()
        self.assertEqual(self.run_shell("check", str(self.log)), (0, "sound 1\n", ""))
        with subzero.Session(log=self.log):
            status, out, err = self.run_shell("check", str(self.log))
            self.assertEqual((status, out), (1, ""))
            self.assertIn(f"is open in another session, of process {os.getpid()}", err)
        self.log.write_bytes(self.log.read_bytes()[:-1])
        status, out, err = self.run_shell("check", str(self.log))
        self.assertEqual((status, out), (7, ""))
        self.assertRegex(err, r"^subzero: bad log at \d+\n$")

    def test_what_is_not_installed_is_a_line(self) -> None:
        out = io.StringIO()
        with mock.patch.dict(sys.modules, {"subzero.view": None}), contextlib.redirect_stderr(out):
            self.assertEqual(shell.main(["view", "x.log"]), 1)
        self.assertRegex(out.getvalue(), "^subzero: .*subzero.view.*\n$")

    def test_view_is_loaded_when_it_is_wanted(self) -> None:
        page = types.ModuleType("subzero.view")
        asked: list[list[str]] = []
        page.command = lambda words: asked.append(words) or 3  # type: ignore[attr-defined,func-returns-value]
        with mock.patch.dict(sys.modules, {"subzero.view": page}):
            self.assertEqual(shell.main(["view", "x.log", "--port", "0"]), 3)
        self.assertEqual(asked, [["x.log", "--port", "0"]])

    def test_demo_writes_pictures(self) -> None:
        try:
            import matplotlib.pyplot
        except ImportError:
            self.skipTest("matplotlib is not here")
        with mock.patch("subzero.demo.main") as main, mock.patch.object(sys, "argv", []):
            self.assertEqual(shell.main(["demo", "folder"]), 0)
            self.assertEqual(sys.argv[1:], ["folder"])
        main.assert_called_once_with()
        del matplotlib

    def test_the_version_is_that_of_the_package(self) -> None:
        with (Path(__file__).parents[1] / "pyproject.toml").open("rb") as text:
            self.assertEqual(subzero.__version__, tomllib.load(text)["project"]["version"])

    def test_what_goes_wrong_is_a_line(self) -> None:
        out = io.StringIO()
        with contextlib.redirect_stderr(out), mock.patch.dict(os.environ, {"SUBZERO": "/nowhere/subzero"}):
            self.write_empty()
            self.assertEqual(shell.main(["check", str(self.log)]), 1)
        self.assertEqual(out.getvalue(), "subzero: /nowhere/subzero is no program that can be run\n")

    def write_empty(self) -> None:
        self.log.write_bytes(b"\x01SubZero log 1\r\n\x00")


if __name__ == "__main__":
    unittest.main()
