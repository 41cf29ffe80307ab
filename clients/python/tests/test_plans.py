"""Plans: the best strategies for so many asks and so much room, against all choices one after another; and what a plan
is set for.
"""

import itertools
import tempfile
import unittest
from pathlib import Path
from typing import Any

import numpy as np

import reference
import subzero
from subzero import demo

# bytes of a store, an ask backward and one forward, of n output cells of degree d, in the order of docs/FORMATS.md
TABLE: dict[str, Any] = {
    "map": lambda n, d: (0, d, d),
    "full_one_b": lambda n, d: (16 * n * d, 1, n),
    "full_one_f": lambda n, d: (16 * n * d, n, 1),
    "full_many_b": lambda n, d: (8 * n * d, 2, n),
    "full_many_f": lambda n, d: (8 * n * d, n, 2),
    "pay_one": lambda n, d: (16 * n, d, n),
    "pay_many": lambda n, d: (8 * n, 2 * d, n),
    "comp_one": lambda n, d: (4 * n, d, n),
    "comp_many": lambda n, d: (2 * n, 2 * d, n),
    "blackbox": lambda n, d: (0, 4 * n, 4 * n),
}


def best(nodes: list[tuple[str, int, int]], back: int, forward: int, budget: int) -> tuple[int, int, tuple[str, ...]]:
    """The cost, the units and the strategies of the best choice for nodes of an operator, output cells and a degree:
    found by trying all."""
    found: tuple[int, int, tuple[str, ...]] | None = None
    offers = [[name for name in TABLE if reference.supports(op, name)] for op, _, _ in nodes]
    for names in itertools.product(*offers):
        parts = [TABLE[name](n, d) for name, (_, n, d) in zip(names, nodes)]
        units = sum(-(-size // 4096) for size, _, _ in parts)
        cost = sum(back * b + forward * f for _, b, f in parts)
        if units <= budget and (found is None or cost < found[0]):
            found = (cost, units, names)
    assert found is not None
    return found


class Plans(unittest.TestCase):
    def setUp(self) -> None:
        self.session = subzero.Session()
        self.addCleanup(self.session.close)

    def test_the_rows_of_the_document(self) -> None:
        square = self.session.array("a", [[1, 20], [3, 4]])
        one = self.session.flow("one")
        one.clean(one.input(0), t=10)
        two = self.session.flow("two")
        two.clean(two.clean(two.input(0), t=10), t=10)
        for flow, back, forward, budget, told in (
            (one, 1, 0, 0, (16, 0, ["blackbox"])),
            (one, 1, 0, 1, (1, 1, ["full_one_b"])),
            (one, 1, 1, 1, (5, 1, ["full_one_b"])),
            (two, 1, 0, 1, (17, 1, ["full_one_b", "blackbox"])),
        ):
            plan = flow.plan(square, back=back, forward=forward, budget=budget)
            self.assertEqual((plan.cost, plan.units, [one.strategy for one in plan.choices]), told)

    def test_plans_are_the_best_of_all_choices(self) -> None:
        rng = np.random.default_rng(7)
        tried = set()
        for number in range(30):
            h, w = (int(size) for size in rng.integers(3, 24, 2))
            layers = int(rng.integers(1, 4))
            base = self.session.array(f"a{number}", rng.integers(0, 50, (layers, h, w)))
            flow = self.session.flow(f"f{number}")
            x: Any = flow.input(0)
            nodes: list[tuple[str, int, int]] = []
            for _ in range(int(rng.integers(1, 4))):
                op = ["clean", "regions", "convolve", "block", "fold_layers", "add", "neg"][int(rng.integers(0, 7))]
                n = layers * h * w
                if op == "clean":
                    x, d = flow.clean(x, t=9), 9
                elif op == "regions":
                    x, d = flow.regions(x, t=9), 64
                elif op == "convolve":
                    kernel = rng.integers(0, 2, (3, 3))
                    x, d = flow.convolve(x, kernel), max(1, int((kernel != 0).sum()))
                elif op == "block":
                    d = min(2, h) * min(30, w)
                    x, h, w = flow.block(x, "sum", 2, 30), -(-h // 2), -(-w // 30)
                    n = layers * h * w
                elif op == "fold_layers":
                    d, layers = layers, 1
                    x, n = flow.fold_layers(x, "max"), h * w
                elif op == "add":
                    x, d = flow.add(x, x), 2
                else:
                    x, d = flow.neg(x), 1
                nodes.append((op, n, d))
                tried.add(op)
            back, forward, budget = (int(most) for most in rng.integers(0, [100, 100, 40]))
            plan = flow.plan([base], back=back, forward=forward, budget=budget)
            names = tuple(choice.strategy for choice in plan.choices)
            self.assertEqual((plan.cost, plan.units, names), best(nodes, back, forward, budget), (nodes, back, forward))
            self.assertEqual([choice.node for choice in plan.choices], flow.nodes)
            self.assertLessEqual(plan.units, budget)
        self.assertEqual(len(tried), 7)

    def test_a_plan_is_set_and_changes_no_answer(self) -> None:
        sky = self.session.array("sky", demo.field().image)
        flow = self.session.flow("stars")
        clean = flow.clean(flow.input(0), t=demo.HOT)
        smooth = flow.convolve(clean, demo.KERNEL)
        labels = flow.regions(smooth, t=demo.BRIGHT, name="labels")
        before = self.session.start(flow, sky)
        held = str(self.session)
        plan = flow.plan(sky, back=1000, forward=10, budget=4096)
        self.assertEqual(str(self.session), held)  # a plan holds nothing
        self.assertEqual([node.kept for node in flow.nodes], [["blackbox"], ["map"], ["blackbox"]])
        flow.keep_all(plan)
        kept = [[choice.strategy] for choice in plan.choices]
        self.assertEqual([node.kept for node in flow.nodes], kept)
        self.assertNotIn(["blackbox"], kept)
        run = self.session.start(flow, sky)
        run.wait()
        steps = run.explain(labels, (1, 1), to=sky)[0].steps
        self.assertEqual([way for _, way in steps], [names[0] for names in reversed(kept)])
        cells = run.values(labels) > 0
        self.assertTrue((run.back(labels, cells, to=sky) == before.back(labels, cells, to=sky)).all())
        told = str(plan).splitlines()
        self.assertEqual(told[0].split(), ["node", "strategy", "units", "cost"])
        self.assertEqual(len(told), 4)
        self.assertIn(plan.choices[2].strategy, told[3])
        self.assertIn("<td>" + plan.choices[0].strategy + "</td>", plan._repr_html_())
        self.assertEqual((plan.back, plan.forward, plan.budget), (1000, 10, 4096))

    def test_what_is_refused(self) -> None:
        sky = self.session.array("sky", [[1, 2], [3, 4]])
        flow = self.session.flow("f")
        flow.clean(flow.input(0), t=9)
        self.assertEqual(flow.plan(sky, back=1, budget=65536).choices[0].strategy, "full_one_b")
        with self.assertRaisesRegex(subzero.Refused, "refused 24: a budget of 65,537 units is above 65,536") as caught:
            flow.plan(sky, back=1, budget=65537)
        self.assertEqual(caught.exception.number, 24)
        with self.assertRaises(subzero.Refused) as caught:
            flow.plan([sky, sky], budget=65537)  # the rule on the base arrays comes before that on units
        self.assertEqual(caught.exception.number, 12)
        for wrong in ({"budget": -1}, {"budget": 1, "back": -1}, {"budget": 1, "forward": 2**32}, {"budget": 1.5}):
            with self.assertRaises(subzero.BadInput):
                flow.plan(sky, **wrong)  # type: ignore[arg-type]
        other = self.session.flow("g")
        other.clean(other.input(0), t=9)
        with self.assertRaisesRegex(subzero.BadInput, "is a plan of another flow: make one by g's own plan"):
            other.keep_all(flow.plan(sky, budget=1))
        with subzero.Session() as elsewhere:
            with self.assertRaisesRegex(subzero.BadInput, "is of another session"):
                flow.plan(elsewhere.array("sky", [[1]]), budget=1)

    def test_what_its_stores_took(self) -> None:
        sky = self.session.array("sky", demo.field().image)
        flow = self.session.flow("stars")
        clean = flow.clean(flow.input(0), t=demo.HOT)
        flow.convolve(clean, demo.KERNEL)
        flow.regions(flow.nodes[1], t=demo.BRIGHT, name="labels")
        run = self.session.start(flow, sky)
        plan = flow.plan(sky, back=1000, forward=10, budget=4096)
        held, kept = repr(self.session), [node.kept for node in flow.nodes]
        told = plan.measured(run)
        self.assertEqual((repr(self.session), [node.kept for node in flow.nodes]), (held, kept))
        chosen = [(one.node, one.strategy) for one in plan.choices]
        self.assertEqual([(row.node, row.strategy) for row in told.rows], chosen)
        for row in told.rows:
            self.assertEqual(row.bytes == 0, row.strategy in ("map", "blackbox"), row)
            self.assertGreater(min(row.back, row.forward), 0)
        self.assertEqual(told.bytes, sum(row.bytes for row in told.rows))
        self.assertGreater(min(told.built, told.bare, told.line), 0)
        self.assertEqual(told.rows[0].bytes, self.bytes_of_store(sky, plan.choices[0].strategy))
        lines = str(told).splitlines()
        self.assertEqual(lines[0].split(), ["node", "strategy", "units", "bytes", "us", "back", "us", "forward"])
        self.assertIn(f"{told.rows[2].bytes:,}", lines[3])
        self.assertRegex(lines[4], "^start and await: .* ms, and .* ms where nothing is kept; a line .*: .* us$")
        self.assertIn(f"<td>{told.rows[0].bytes:,}</td>", told._repr_html_())
        self.assertIn("bytes, built in", repr(told))

    def bytes_of_store(self, sky: subzero.BaseArray, strategy: str) -> int:
        """By how many bytes a log grows more where the first step of the stars is kept so."""
        sizes = []
        for keep in ([strategy], ["blackbox"]):
            with tempfile.TemporaryDirectory() as folder:
                log = Path(folder) / "x.log"
                with subzero.Session(log=log) as session:
                    flow = session.flow("stars")
                    flow.clean(flow.input(0), t=demo.HOT)
                    flow.define()
                    session.set_strategies("stars", 0, keep)
                    base = session.array("sky", sky.values)
                    before = log.stat().st_size
                    session.start(flow, base).wait()
                    sizes.append(log.stat().st_size - before)
        return sizes[0] - sizes[1]

    def test_measured_over_layers_and_an_array_that_is_taken_twice(self) -> None:
        image = self.session.array("a", np.arange(24).reshape(2, 3, 4))
        flow = self.session.flow("f", inputs=2)
        flow.add(flow.regions(flow.input(0), t=9, name="high"), flow.input(1))
        run = self.session.start(flow, [image, image])
        told = flow.plan([image, image], back=1, budget=6).measured(run)
        self.assertEqual([row.strategy for row in told.rows], ["full_one_b", "map"])
        self.assertEqual([row.bytes > 0 for row in told.rows], [True, False])

    def test_measured_of_a_run_of_another_flow(self) -> None:
        image = self.session.array("a", [[1, 2]])
        flow, other = self.session.flow("f"), self.session.flow("g")
        for one in (flow, other):
            one.neg(one.input(0))
        with self.assertRaisesRegex(subzero.BadInput, "<Run 1 of g on a 1> is not of f, the flow of the plan"):
            flow.plan(image, budget=1).measured(self.session.start(other, image))

    def test_a_reply_that_does_not_add_up(self) -> None:
        from subzero.plans import _read

        flow = self.session.flow("f")
        flow.clean(flow.input(0), t=10)
        self.assertEqual(_read(flow, [(2, 2)], ["plan", "16", "0", "blackbox"], 1, 0, 0).cost, 16)
        for words in (["plan", "15", "0", "blackbox"], ["plan", "16", "1", "blackbox"], ["plan", "16", "0"]):
            with self.assertRaisesRegex(subzero.OutOfStep, "the reply to a plan of f was plan"):
                _read(flow, [(2, 2)], words, 1, 0, 0)


if __name__ == "__main__":
    unittest.main()
