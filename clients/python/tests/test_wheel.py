"""The wheel that holds the program: what is refused, what is in it, and that it is enough in a fresh environment."""

from __future__ import annotations

import importlib.util
import os
import shutil
import subprocess
import sys
import tempfile
import unittest
import zipfile
from pathlib import Path

from subzero.program import find

WHEEL = Path(__file__).resolve().parents[1] / "wheel"

USE = """
import numpy as np, subzero
from subzero.program import find
print(find())
print(subzero.__file__)
with subzero.Session() as session:
    sky = session.array("sky", np.array([[9, 0, 9]]))
    flow = session.flow("f")
    labels = flow.regions(flow.input(0), t=5)
    run = session.start(flow, [sky])
    print(run.suspects((0, 1), sky, to=labels).tolist())
"""


def pack(program: str | os.PathLike[str], folder: str) -> subprocess.CompletedProcess[str]:
    words = [sys.executable, os.fspath(WHEEL), "--program", os.fspath(program), folder]
    return subprocess.run(words, capture_output=True, text=True)


class Wheel(unittest.TestCase):
    def setUp(self) -> None:
        folder = tempfile.TemporaryDirectory()
        self.addCleanup(folder.cleanup)
        self.folder = folder.name

    def test_a_program_that_is_not_there_is_not_packed(self) -> None:
        told = pack("/nowhere/subzero", self.folder)
        self.assertEqual((told.returncode, told.stdout), (1, ""))
        self.assertIn("/nowhere/subzero is not there", told.stderr)
        self.assertEqual(os.listdir(self.folder), [])

    def test_a_program_that_is_another_one_is_not_packed(self) -> None:
        for program, why in ((shutil.which("cat"), "does not answer"), (__file__, "does not run")):
            told = pack(str(program), self.folder)
            self.assertEqual(told.returncode, 1)
            self.assertIn(why, told.stderr)
        self.assertEqual(os.listdir(self.folder), [])

    def test_what_is_in_it(self) -> None:
        told = pack(find(), self.folder)
        self.assertEqual((told.returncode, told.stderr), (0, ""))
        path = Path(told.stdout.strip())
        self.assertEqual(os.listdir(self.folder), [path.name])
        self.assertRegex(path.name, r"^subzero-[0-9.]+-py3-none-[a-z0-9_]+\.whl$")
        with zipfile.ZipFile(path) as packed:
            self.assertIsNone(packed.testzip())
            self.assertEqual(packed.read("subzero/bin/subzero"), Path(find()).read_bytes())
            self.assertEqual(packed.getinfo("subzero/bin/subzero").external_attr >> 16, 0o100755)
            source = WHEEL.parent / "src" / "subzero"
            for name in ("__init__.py", "spread.py", "py.typed"):
                self.assertEqual(packed.read(f"subzero/{name}"), (source / name).read_bytes())
            self.assertFalse([name for name in packed.namelist() if "__pycache__" in name])

    def test_it_is_enough_in_a_fresh_environment(self) -> None:
        if importlib.util.find_spec("ensurepip") is None or importlib.util.find_spec("venv") is None:
            self.skipTest("no python3-venv is here")
        wheel = pack(find(), self.folder).stdout.strip()
        place = Path(self.folder) / "fresh"
        bare = {"PATH": f"{place}/bin:/usr/bin:/bin", "HOME": self.folder, "LC_ALL": "C.UTF-8"}
        self.assertIsNone(shutil.which("rt", path=bare["PATH"]), "the kit is on the path")
        # numpy is that of the machine, since nothing is taken from the network
        words = [sys.executable, "-m", "venv", "--system-site-packages", str(place)]
        subprocess.run(words, check=True, capture_output=True, env=bare)
        words = [f"{place}/bin/python", "-m", "pip", "install", "--no-index", "--no-deps", "--quiet", wheel]
        told = subprocess.run(words, capture_output=True, text=True, env=bare, cwd=self.folder)
        self.assertEqual(told.returncode, 0, told.stderr)
        told = subprocess.run(
            [f"{place}/bin/python", "-c", USE], capture_output=True, text=True, env=bare, cwd=self.folder
        )
        self.assertEqual(told.returncode, 0, told.stderr)
        program, package, answer = told.stdout.splitlines()
        installed = Path(package).resolve().parent
        self.assertTrue(installed.is_relative_to(place.resolve()), package)
        self.assertEqual(program, str(installed / "bin" / "subzero"))
        self.assertEqual(answer, "[[True, True, True]]")


if __name__ == "__main__":
    unittest.main()
