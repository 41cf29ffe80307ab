"""The examples in docstrings are run over the program, and each public call has a docstring."""

import doctest
import importlib
import inspect
import re
import unittest
from typing import Any

import numpy as np

import subzero

MODULES = "session flow keeping plans changes merges measures run spread catalogue later cells logs stores locks checking program faults progress".split()
MODULES += ["numerals", "upgrading", "view", "tiles.mosaic", "tiles.run"]
WITHIN = {  # calls from one module of the client to another, and what a class above has an example of
    "BaseArray": {"is_of"},
    "Flow": {"session", "defined", "is_of", "is_same", "shapes", "check_start", "started_on", "of_held", "kept_of"},
    "Refused": {"because"},
    "Room": {"cells"},
    "Session": {"closed", "pid", "order", "holdings", "hold_flow", "remember", "ready", "set_strategies", "runs_on"}
    | {"hold_refreshed", "run_on", "why_full"},
}
FLAGS = doctest.ELLIPSIS | doctest.NORMALIZE_WHITESPACE


def names(session: subzero.Session) -> dict[str, Any]:
    """What the examples stand on: a session with an image, and a run that labels the regions of 5 and more."""
    sky = session.array("sky", [[0, 9, 0, 0], [9, 9, 0, 0], [0, 0, 7, 7], [0, 0, 7, 0]])
    flow = session.flow("stars")
    clean = flow.clean(flow.input(0), t=100)
    labels = flow.regions(clean, t=5, name="labels")
    run = session.start(flow, [sky])
    run.wait()
    return {"subzero": subzero, "np": np, "session": session, "sky": sky, "flow": flow, "labels": labels, "run": run}


class Docstrings(unittest.TestCase):
    def test_the_examples_of_docstrings(self) -> None:
        finder, tried = doctest.DocTestFinder(), 0
        for name in MODULES:
            module = importlib.import_module(f"subzero.{name}")
            for test in finder.find(module, module.__name__):
                if test.examples:
                    with self.subTest(name=test.name), subzero.Session() as session:
                        test.globs = {**vars(module), **names(session)}
                        told: list[str] = []
                        runner = doctest.DocTestRunner(verbose=False, optionflags=FLAGS)
                        tried += runner.run(test, out=told.append).attempted
                        self.assertEqual(runner.failures, 0, "".join(told))
        self.assertGreater(tried, 30)

    def test_each_public_call_stands_in_an_example(self) -> None:
        finder = doctest.DocTestFinder()
        tests = [test for name in MODULES for test in finder.find(importlib.import_module(f"subzero.{name}"))]
        shown = "".join(example.source for test in tests for example in test.examples)
        missing = [name for name in ("tiled", "view", "suspects_table", "check", "upgrade", "strategies") if f"subzero.{name}(" not in shown]
        for name in subzero.__all__:
            thing = getattr(subzero, name)
            if inspect.isclass(thing) and not issubclass(thing, Exception):
                missing += [
                    f"{name}.{call}"
                    for call, value in vars(thing).items()
                    if not call.startswith("_") and (callable(value) or isinstance(value, property))
                    if call not in WITHIN.get(name, ()) and not re.search(rf"\.{call}\b", shown)
                ]
        self.assertEqual(missing, [])

    def test_each_public_call_has_a_docstring(self) -> None:
        missing = []
        for name in subzero.__all__:
            thing = getattr(subzero, name)
            if not inspect.getdoc(thing):
                missing.append(name)
            if inspect.isclass(thing):
                missing += [
                    f"{name}.{call}"
                    for call, value in vars(thing).items()
                    if not call.startswith("_") and callable(value) and not inspect.getdoc(value)
                ]
        self.assertEqual(missing, [])


if __name__ == "__main__":
    unittest.main()
