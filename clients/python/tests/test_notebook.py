"""What a notebook needs: cells that can be run again, short texts, formulas, names, room, and what is shown while it
waits.
"""

import importlib
import os
import queue
import re
import subprocess
import sys
import tempfile
import time
import types
import unittest
from pathlib import Path
from typing import Any
from unittest import mock

import numpy as np
from scipy import ndimage

import subzero
from subzero import progress

os.environ.setdefault("PYDEVD_DISABLE_FILE_VALIDATION", "1")  # a kernel's debugger would warn
jupyter: Any
try:
    jupyter = importlib.import_module("jupyter_client.manager")
except ImportError:
    jupyter = None

SKY = np.array([[0, 9, 0, 0], [9, 9, 0, 0], [0, 0, 7, 7], [0, 0, 7, 0]])


class WithSession(unittest.TestCase):
    def setUp(self) -> None:
        self.session = subzero.Session()
        self.addCleanup(self.session.close)
        self.sky = self.session.array("sky", SKY)

    def stars(self, t: int, **how: Any) -> subzero.Flow:
        """The flow of a notebook's cell."""
        flow = self.session.flow("stars", **how)
        flow.regions(flow.clean(flow.input(0), t=100, keep=["comp_one"]), t=t, name="labels")
        return flow


class Again(WithSession):
    """A cell is run again."""

    def test_the_same_flow_is_taken_as_that_flow(self) -> None:
        first, second = self.stars(5), self.stars(5)
        runs = [self.session.start(flow, [self.sky]) for flow in (first, first, second)]
        self.assertEqual([run.number for run in runs], [1, 2, 3])
        with self.assertRaises(subzero.Refused) as caught:
            self.session.say(b"{}\n").wait("saying")
        self.assertEqual(
            caught.exception.line, 7
        )  # the array, the flow, its strategy, three starts: none of them twice
        found = runs[0].values(second["labels"])  # a node of the flow as it was told again
        self.assertEqual(found.tolist(), [[0, 2, 0, 0], [2, 2, 0, 0], [0, 0, 11, 11], [0, 0, 11, 0]])
        self.assertEqual(len(self.session.flows), 1)

    def test_another_flow_under_the_name_is_told_with_what_differs(self) -> None:
        self.stars(5).define()
        with self.assertRaises(subzero.Refused) as caught:
            self.stars(6).define()
        fault = caught.exception
        self.assertEqual(fault.number, 9)
        self.assertIn("its node 1 is regions of node 0 with t 5, and here regions of node 0 with t 6", str(fault))
        self.assertIn("replace=True", str(fault))
        longer = self.stars(5)
        longer.neg(longer.input(0))
        with self.assertRaisesRegex(subzero.Refused, "it has 2 nodes, and this one 3"):
            longer.define()
        two = self.session.flow("stars", inputs=2)
        two.neg(two.input(1))
        with self.assertRaisesRegex(subzero.Refused, "it takes 1 base arrays, and this one 2"):
            two.define()

    def test_replace_takes_a_next_name_and_keeps_the_shown_one(self) -> None:
        found = []
        for t in (5, 8, 5, 8, 10):
            flow = self.stars(t, replace=True)
            run = self.session.start(flow, [self.sky])
            found.append((flow.name, flow.program_name, int(np.count_nonzero(run.values("labels")))))
        self.assertEqual(
            found,
            [("stars", "stars", 6), ("stars", "stars_2", 3), ("stars", "stars", 6), ("stars", "stars_2", 3)]
            + [("stars", "stars_3", 0)],
        )
        self.assertEqual(repr(run), "<Run 5 of stars on sky 1>")
        self.assertEqual(self.session.flows["stars"].program_name, "stars_3")
        self.assertEqual(self.session.flows["stars_2"].program_name, "stars_2")
        self.stars(5, replace=True).define()
        self.assertEqual(self.session.flows["stars"].program_name, "stars")
        self.assertEqual(self.session.runs[2].flow.nodes[1].parameters, {"t": 8})
        flow = self.session.flow("n" * 32)
        flow.neg(flow.input(0))
        flow.define()
        flow = self.session.flow("n" * 32, replace=True)
        flow.abs(flow.input(0))
        self.assertEqual(flow.define().program_name, "n" * 30 + "_2")

    def test_a_replaced_flow_keeps_its_shown_name_in_a_log(self) -> None:
        with tempfile.TemporaryDirectory() as folder:
            log = Path(folder) / "x.log"
            with subzero.Session(log=log) as self.session:
                sky = self.session.array("sky", SKY)
                for t in (5, 8):
                    self.session.start(self.stars(t, replace=True), [sky]).wait()
            with subzero.Session(log=log) as self.session:
                names = [(run.flow.name, run.flow.program_name) for run in self.session.runs.values()]
                self.assertEqual(names, [("stars", "stars"), ("stars", "stars_2")])
                self.assertEqual(int(np.count_nonzero(self.session.runs[2].values("labels"))), 3)
                self.assertEqual(self.stars(8, replace=True).define().program_name, "stars_2")

    def test_strategies_that_are_set_are_not_set_again(self) -> None:
        self.stars(5).define()
        flow = self.stars(5).define()
        flow.keep(flow.nodes[1], ["pay_one"])
        flow.keep(flow.nodes[1], ["pay_one"])
        flow.keep(flow.nodes[1], ["pay_many"])
        with self.assertRaises(subzero.Refused) as caught:
            self.session.say(b"{}\n").wait("saying")
        self.assertEqual(caught.exception.line, 6)  # the array, the flow, comp_one, pay_one and pay_many


class Texts(WithSession):
    def test_texts_are_short(self) -> None:
        flow = self.stars(5)
        run = self.session.start(flow, self.sky)
        thing: Any
        for thing, told in (
            (self.session, "<Session: 1 array, 1 flow, 1 run>"),
            (self.sky, "<BaseArray sky 1: 4 by 4>"),
            (flow, "<Flow stars: 2 nodes on 1 base array, defined>"),
            (flow.input(0), "<Input 0 of stars>"),
            (flow["labels"], "<Node 1 labels of stars: regions (5 and more)>"),
            (run, "<Run 1 of stars on sky 1>"),
            (run.values_later(flow.nodes[0]), "<Future: taking the values of clean, "),
        ):
            self.assertTrue(repr(thing).startswith(told), repr(thing))
        self.assertEqual(str(flow["labels"]), "node 1 labels, regions (5 and more)")
        for thing in (self.session, self.sky, flow, run):
            page = thing._repr_html_()
            self.assertTrue(page.startswith("<table>") and page.endswith("</table>"), page)
            self.assertIn("sky" if thing in (self.session, self.sky) else "stars", page)
        odd = self.session.flow("odd")
        odd.neg(odd.input(0), name="<b>&")
        self.assertIn("&lt;b&gt;&amp;", odd._repr_html_())

    def test_a_node_over_many_diamonds_has_a_short_text(self) -> None:
        flow = self.session.flow("deep")
        node: Any = flow.input(0)
        for _ in range(32):
            node = flow.add(node, node)
        self.assertEqual(repr(node), "<Node 31 of deep: add>")
        other = self.session.flow("other")
        for call in (
            lambda: other.neg(node),
            lambda: other.keep(node, ["map"]),
            lambda: other.add_k(other.input(0), node),
            lambda: self.session.start(node, [self.sky]),
            lambda: self.session.start(other, [node]),
            lambda: self.session.flow(node),
            lambda: other.block(other.input(0), node, 1, 1),
            lambda: other.neg(other.input(0), keep=[node]),
        ):
            with self.assertRaises(subzero.BadInput) as caught:
                call()
            self.assertLess(len(str(caught.exception)), 200)

    def test_an_array_in_an_error_is_told_by_its_shape(self) -> None:
        flow = self.session.flow("f")
        with self.assertRaisesRegex(subzero.BadInput, r"k is an array of shape \(100, 100\)"):
            flow.add_k(flow.input(0), np.zeros((100, 100)))  # type: ignore[arg-type]


class Formulas(WithSession):
    def test_each_formula_is_what_numpy_makes_of_it(self) -> None:
        flow = self.session.flow("f", inputs=[self.sky, (4, 4)])
        a, b = flow.inputs
        other = self.session.array("other", SKY * 3 - 4)
        x, y = SKY, SKY * 3 - 4
        two: Any = np.int64(2)
        cases: list[tuple[subzero.Node, Any]] = [
            (a + b, x + y),
            (a - b, x - y),
            (a * b, x * y),
            (a + 3, x + 3),
            (3 + a, 3 + x),
            (a - 3, x - 3),
            (3 - a, 3 - x),
            (a * 2, x * 2),
            (2 * a, 2 * x),
            (two * a + np.int16(1), 2 * x + 1),
            (-b, -y),
            (abs(b), abs(y)),
            (a.T, x.T),
            (a[1:3, :2], x[1:3, :2]),
            (a[1:], x[1:]),
            (a[:, -2:], x[:, -2:]),
            (a[..., 1:2, 0:4], x[..., 1:2, 0:4]),
            ((a[:2, :] - b[2:, :])[0:1, 1:3], (x[:2] - y[2:])[0:1, 1:3]),
            (
                a * 9 - flow.convolve(a, np.ones((3, 3), dtype=int)),
                x * 9 - ndimage.correlate(x, np.ones((3, 3)), mode="constant"),
            ),
        ]
        shapes = [node.shape for node, _ in cases]
        run = self.session.start(flow, [self.sky, other])
        for (node, expected), shape in zip(cases, shapes):
            with self.subTest(node=repr(node)):
                self.assertEqual(shape, expected.shape)
                self.assertEqual(run.values(node).tolist(), expected.tolist())

    def test_layers(self) -> None:
        cube = self.session.array("cube", np.arange(24).reshape(2, 3, 4))
        flow = self.session.flow("f", inputs=[cube])
        x = flow.input(0)
        cut, turned = x[:, 1:, :2], x.T
        for index in (np.s_[1:, :2], np.s_[0:1, 1:, :2], np.s_[1:]):
            with self.assertRaises(subzero.BadInput):
                x[index]
        self.assertEqual((cut.shape, turned.shape, flow.fold_layers(x, "sum").shape), ((2, 2, 2), (2, 4, 3), (3, 4)))
        run = self.session.start(flow, cube)
        self.assertEqual(run.values(cut).tolist(), np.arange(24).reshape(2, 3, 4)[:, 1:, :2].tolist())
        self.assertEqual(run.values(turned).tolist(), np.arange(24).reshape(2, 3, 4).swapaxes(1, 2).tolist())
        flow = self.session.flow("g")  # of which no shape is known
        flow.input(0)[0:2, 0:2]
        with self.assertRaisesRegex(subzero.BadInput, "slices an array with layers"):
            self.session.start(flow, cube)
        run = self.session.start(flow, self.sky)
        self.assertEqual(run.values(flow.nodes[0]).tolist(), SKY[:2, :2].tolist())

    def test_what_is_no_formula(self) -> None:
        flow = self.session.flow("f")
        x = flow.input(0)
        for wrong in (
            lambda: x + 1.5,  # type: ignore[operator]
            lambda: x + True,
            lambda: SKY + x,
            lambda: x * SKY,
            lambda: x + self.sky,  # type: ignore[operator]
            lambda: x / 2,  # type: ignore[operator]
            lambda: list(x),  # type: ignore[call-overload]
        ):
            with self.assertRaises(TypeError):
                wrong()
        for index, why in (
            (np.s_[1:, 0:2], "the shape is not known yet"),
            (np.s_[-2:-1, 0:2], "the shape is not known yet"),
            (np.s_[3, 0:2], "no slice"),
            (np.s_[0:4:2, 0:2], "no slice"),
            (np.s_[0:1, 0:1, 0:1], "no slice"),
            (np.s_[2:2, 0:2], "has no cells"),
        ):
            with self.assertRaisesRegex(subzero.BadInput, why):
                x[index]
        self.assertEqual(flow.nodes, [])
        self.assertIsNone(x.shape)

    def test_shapes_are_known_from_a_start(self) -> None:
        flow = self.stars(5)
        self.assertIsNone(flow["labels"].shape)
        self.session.start(flow, self.sky)
        self.assertEqual((flow["labels"].shape, flow.input(0).shape), ((4, 4), (4, 4)))


class Names(WithSession):
    def test_arrays_of_a_run_by_their_names(self) -> None:
        flow = self.stars(5)
        run = self.session.start(flow, self.sky)
        self.assertIs(run["labels"], flow.nodes[1])
        self.assertIs(run["sky"], flow.input(0))
        self.assertIs(flow["labels"], flow.nodes[1])
        self.assertTrue(np.array_equal(run.back("labels", (0, 1), to="sky"), np.isin(SKY, 9)))
        self.assertEqual(run.forward("sky", (3, 2), to="labels").sum(), 3)
        self.assertEqual(run.shape("labels"), (4, 4))
        with self.assertRaisesRegex(subzero.BadInput, "no array named 'moon': it has labels, sky"):
            run["moon"]
        with self.assertRaisesRegex(subzero.BadInput, "no node named 'moon'; its named nodes: labels"):
            flow["moon"]

    def test_names_that_are_none(self) -> None:
        flow = self.session.flow("f")
        flow.neg(flow.input(0), name="x")
        for name, why in (
            ("x", "a node named 'x' already"),
            ("", "no name of a node"),
            ("\ud800", "no name of a node"),
            (3, "no name of a node"),
        ):
            with self.assertRaisesRegex(subzero.BadInput, why):
                flow.neg(flow.input(0), name=name)  # type: ignore[arg-type]
        self.assertEqual(len(flow.nodes), 1)

    def test_a_name_of_two_versions_is_none(self) -> None:
        flow = self.session.flow("f", inputs=2)
        flow.add(flow.input(0), flow.input(1))
        run = self.session.start(flow, [self.sky, self.session.array("sky", SKY)])
        with self.assertRaisesRegex(subzero.BadInput, "several versions of sky"):
            run.values("sky")


class Rooms(WithSession):
    def test_room_counts_what_is_held(self) -> None:
        flow = self.session.flow("f")
        flow.fold_layers(flow.block(flow.input(0), "sum", 2, 3), "sum")
        cube = self.session.array("cube", np.zeros((3, 4, 4), dtype=int))
        self.session.start(flow, self.sky)
        self.session.start(flow, cube)
        room = self.session.room
        self.assertEqual((room.cells_of_arrays, room.cells_of_runs), (16 + 48, 4 + 4 + 12 + 4))
        self.assertEqual((room.arrays, room.flows, room.runs, room.free), (2, 1, 2, 4_194_304 - 88))
        self.assertEqual(
            str(room),
            "88 of 4,194,304 cells (64 of arrays, 24 of runs), 2 of 4,096 arrays, 1 of 1,024 flows, 2 of 4,096 runs",
        )

    def refused(self, call: Any, *arguments: Any) -> subzero.Refused:
        with self.assertRaises(subzero.Refused) as caught:
            call(*arguments)
        return caught.exception

    def test_too_many_cells_are_told_with_numbers(self) -> None:
        held = [self.session.array("big", np.zeros((1024, 1024), dtype=int)) for _ in range(3)]
        flow = self.session.flow("f")
        flow.neg(flow.neg(flow.input(0)))
        fault = self.refused(self.session.start, flow, held[0])
        self.assertEqual(fault.number, 14)
        told = "the outputs of the flow's nodes have 2,097,152 cells, and 1,048,560 of 4,194,304 are free (arrays hold "
        self.assertIn(told + "3,145,744, outputs of runs 0); nothing can be taken out of a session", str(fault))
        one = self.session.flow("one")
        one.slice(one.input(0), 0, 0, 1023, 1024)
        self.session.start(one, held[0])
        fault = self.refused(self.session.array, "a", np.zeros((2, 1000), dtype=int))
        self.assertEqual(fault.number, 7)
        self.assertIn("or have it cut into tiles by subzero.tiled", str(fault))
        self.assertIn("the array has 2,000 cells, and 1,008 of 4,194,304 are free (arrays hold 3,145,744, ", str(fault))
        self.assertEqual(self.session.array("a", np.zeros((1, 1008), dtype=int)).version, 1)
        self.assertEqual(self.session.room.free, 0)

    def test_too_many_arrays_and_flows_are_told(self) -> None:
        for _ in range(4095):
            self.session.say(b'{"array":"a","cells":[[1]]}\n')
        fault = self.refused(self.session.array, "a", [[1]])
        self.assertEqual(fault.number, 7)
        self.assertIn("4,096 arrays are held, which is all that a session can; nothing can be taken out", str(fault))
        for number in range(1024):
            self.session.say(b'{"flow":"f%d","inputs":1,"nodes":[{"op":"neg","from":[{"i":0}]}]}\n' % number)
        flow = self.session.flow("f")
        flow.neg(flow.input(0))
        fault = self.refused(flow.define)
        self.assertEqual(
            (fault.number, fault.cause),
            (9, "1,024 flows are held, which is all that a session can: begin another session"),
        )

    def test_too_many_runs_are_told(self) -> None:
        flow = self.session.flow("f")
        flow.slice(flow.input(0), 0, 0, 1, 1)
        self.session.start(flow, self.sky)
        for _ in range(4095):
            self.session.say(b'{"start":"f","base":[["sky",1]]}\n')
        fault = self.refused(self.session.start, flow, self.sky)
        self.assertEqual(fault.number, 14)
        self.assertIn("4,096 runs are held, which is all that a session can", str(fault))

    def test_strategies_that_do_not_fit_are_told(self) -> None:
        flow = self.session.flow("f")
        labels, turned = flow.regions(flow.input(0), t=5), flow.transpose(flow.input(0))
        flow.define()
        for node, strategies, why in (
            (labels, ["map"], r"node 0, regions \(5 and more\) cannot be kept by map"),
            (turned, ["pay_one"], "node 1, transpose cannot be kept by pay_one"),
            (turned, ["comp_many"], "node 1, transpose cannot be kept by comp_many"),
            (labels, [], "got no strategy"),
            (labels, ["pay_one", "pay_one"], "got the strategy pay_one twice"),
            (labels, ["pay_one", "pay_many", "comp_one", "blackbox"], "got 4 strategies"),
        ):
            fault = self.refused(flow.keep, node, strategies)
            self.assertEqual(fault.number, 18)
            self.assertRegex(fault.cause or "", why)


class Kernel(unittest.TestCase):
    def test_a_notebook_shows_what_is_waited_for(self) -> None:
        """In a real kernel, where the packages for one are there."""
        if jupyter is None:
            print("jupyter_client and ipykernel are not here: what a notebook shows is tested without a kernel alone")
            return
        path = str(Path(subzero.__file__).parents[1])
        environment = {**os.environ, "PYTHONPATH": path}
        client: Any
        manager, client = jupyter.start_new_kernel(kernel_name="python3", env=environment, stderr=subprocess.DEVNULL)
        try:
            code = (
                "import os, signal, threading, subzero\n"
                "session = subzero.Session()\n"
                "os.kill(session.pid, signal.SIGSTOP)\n"
                "threading.Timer(2, os.kill, (session.pid, signal.SIGCONT)).start()\n"
                "sky = session.array('sky', [[1, 2]])\n"
                "sky"
            )
            asked = client.execute(code)
            seen: list[Any] = []
            until = time.monotonic() + 300
            while time.monotonic() < until:
                try:
                    message = client.get_iopub_msg(timeout=1)
                except queue.Empty:
                    continue
                if message["parent_header"].get("msg_id") != asked:  # of what the kernel was asked as it came up
                    continue
                seen.append((message["msg_type"], message["content"]))
                if message["msg_type"] == "status" and message["content"]["execution_state"] == "idle":
                    break
            shown = [
                content["data"]["text/plain"]
                for kind, content in seen
                if kind in ("display_data", "update_display_data")
            ]
            self.assertTrue(re.fullmatch(r"subzero: handing in sky, \d+\.\d s", shown[0]), seen)
            self.assertEqual(shown[-1], "")
            results = [content["data"] for kind, content in seen if kind == "execute_result"]
            self.assertEqual(results[0]["text/plain"], "<BaseArray sky 1: 1 by 2>")
            self.assertIn("<table>", results[0]["text/html"])
        finally:
            client.stop_channels()
            manager.shutdown_kernel(now=True)

    def test_a_display_is_made_once_and_then_changed(self) -> None:
        shown: list[tuple[str, str]] = []

        class Display:
            def update(self, data: dict[str, str], raw: bool) -> None:
                shown.append(("changed", data["text/html"]))

        def display(data: dict[str, str], raw: bool, display_id: bool) -> Display:
            shown.append(("made", data["text/html"]))
            return Display()

        shell, page = types.ModuleType("IPython"), types.ModuleType("IPython.display")
        shell.get_ipython = lambda: types.SimpleNamespace(kernel=1)  # type: ignore[attr-defined]
        page.display = display  # type: ignore[attr-defined]
        with mock.patch.dict(sys.modules, {"IPython": shell, "IPython.display": page}):
            with progress.shown("asking <back>") as step:
                step.show_in_turn("too soon")
                step.show()
                step.show()
        self.assertEqual([what for what, _ in shown], ["made", "changed", "changed"])
        self.assertRegex(shown[0][1], r"^<small>subzero: too soon, \d+\.\d s</small>$")
        self.assertEqual(shown[-1][1], "<small></small>")

    def test_no_notebook_is_none(self) -> None:
        self.assertFalse(progress.in_notebook())


if __name__ == "__main__":
    unittest.main()
