"""Each operator's values, and its lineage in both directions, against numpy and scipy.ndimage."""

import unittest
from collections.abc import Iterator
from typing import Any

import numpy as np

import reference
import subzero

Array = np.ndarray[Any, Any]

CROSS = [[0, 1, 0], [1, 1, 1], [0, 1, 0]]
LOPSIDED = [[0, 2, 0], [0, 0, -1], [3, 0, 0]]
WIDE = [[1, 0, 0, -2, 5]]

# operator, parameters
UNARY = [
    ("neg", {}),
    ("abs", {}),
    ("add_k", {"k": -7}),
    ("mul_k", {"k": 3}),
    ("clip", {"lo": -5, "hi": 40}),
    ("transpose", {}),
    ("slice", {"r0": 1, "c0": 2, "h": 4, "w": 3}),
    ("slice", {"r0": 0, "c0": 0, "h": 7, "w": 9}),
    ("convolve", {"kernel": CROSS}),
    ("convolve", {"kernel": LOPSIDED}),
    ("convolve", {"kernel": WIDE}),
    ("convolve", {"kernel": [[0]]}),
    ("block", {"fold": "sum", "h": 2, "w": 2}),
    ("block", {"fold": "min", "h": 3, "w": 4}),
    ("block", {"fold": "max", "h": 1, "w": 20}),
    ("block", {"fold": "count", "h": 2, "w": 5}),
    ("fold_layers", {"fold": "sum"}),
    ("fold_layers", {"fold": "min"}),
    ("fold_layers", {"fold": "max"}),
    ("fold_layers", {"fold": "count"}),
    ("regions", {"t": 20}),
    ("regions", {"t": -1000}),
    ("regions", {"t": 1000}),
    ("clean", {"t": 40}),
    ("clean", {"t": -60}),
]
BINARY = ["add", "sub", "mul", "min", "max"]


def some(draw: np.random.RandomState, shape: tuple[int, ...]) -> Array:
    """Whole numbers from -50 to 99, a tenth of them empty."""
    return np.ma.MaskedArray(draw.randint(-50, 100, shape), draw.rand(*shape) < 0.1)


# what is asked of a node: which of its inputs, the direction, the cells that are asked, and those that are related to them
Question = tuple[int, str, Array, Array]


class Operators(unittest.TestCase):
    def check(self, shape: tuple[int, ...]) -> None:
        """Run every operator on arrays of this shape, with its lineage kept by each strategy that it supports."""
        draw = np.random.RandomState(len(shape))
        first, second = some(draw, shape), some(draw, shape)
        small: Array
        small, table = np.ma.MaskedArray(draw.randint(-2, 9, shape), draw.rand(*shape) < 0.1), some(draw, (1, 6))
        given = {"a": first, "b": second, "c": small, "t": table}
        asked: dict[int, list[Question]] = {}
        with subzero.Session() as session:
            held = [session.array(name, array) for name, array in given.items()]
            for strategy in reference.STRATEGIES:
                flow = session.flow(strategy, inputs=4)
                a, b, c, t = flow.inputs
                cases = [(getattr(flow, op)(a, **parameters), [first]) for op, parameters in UNARY]
                cases += [(getattr(flow, op)(a, b), [first, second]) for op in BINARY]
                cases += [(flow.lookup(c, t), [small, table])]
                for node in flow.nodes:
                    if reference.supports(node.op, strategy):
                        flow.keep(node, [strategy])
                run = session.start(flow.define(), held)
                run.wait()
                for number, (node, arrays) in enumerate(cases):
                    with self.subTest(op=node.op, parameters=node.parameters, shape=shape, strategy=strategy):
                        grids = [reference.grid_of(one) for one in arrays]
                        if number not in asked:
                            self.check_values(run, node, grids)
                            asked[number] = list(self.questions(run, node, grids, draw))
                        if reference.supports(node.op, strategy):
                            self.check_lineage(run, node, strategy, asked[number])

    def check_values(self, run: subzero.Run, node: subzero.Node, grids: list[reference.Grid]) -> None:
        values, empty = reference.evaluate(node.op, node.parameters, grids)
        shape = run.shape(node)
        found = run.values(node)
        self.assertEqual(found.shape, shape)
        self.assertEqual(np.ma.getmaskarray(found).tolist(), empty.reshape(shape).tolist())
        self.assertEqual(found.filled(0).tolist(), values.reshape(shape).tolist())

    def questions(
        self, run: subzero.Run, node: subzero.Node, grids: list[reference.Grid], draw: np.random.RandomState
    ) -> Iterator[Question]:
        values, _ = reference.evaluate(node.op, node.parameters, grids)
        for number, source in enumerate(node.sources):
            within = grids[number][0].shape
            for chance in (0, 0.05, 0.3, 1):
                mask = draw.rand(*values.shape) < chance
                yield number, "back", mask, reference.back(node.op, node.parameters, grids, number, mask)
                mask = draw.rand(*within) < chance
                yield number, "forward", mask, reference.forward(node.op, node.parameters, grids, number, mask)

    def check_lineage(self, run: subzero.Run, node: subzero.Node, strategy: str, questions: list[Question]) -> None:
        shape = run.shape(node)
        traced = int(np.prod(shape)) if strategy == "blackbox" else 0
        for number, direction, mask, related in questions:
            source = node.sources[number]
            within = run.shape(source)
            if direction == "back":
                got = run.back(node, mask.reshape(shape), to=source)
                told = run.explain(node, mask.reshape(shape), to=source)
            else:
                got = run.forward(source, mask.reshape(within), to=node)
                told = run.explain(source, mask.reshape(within), to=node, direction="forward")
            expected = related.reshape(within if direction == "back" else shape)
            self.assertEqual((got.dtype, got.shape), (bool, expected.shape))
            self.assertTrue(np.array_equal(got, expected), (number, direction))
            self.assertEqual([(one.steps, one.traced) for one in told], [(((node, strategy),), traced)] * len(told))

    def test_images(self) -> None:
        self.check((7, 9))

    def test_layers(self) -> None:
        self.check((3, 7, 9))

    def test_one_layer_of_three_axes(self) -> None:
        self.check((1, 7, 9))

    def test_what_is_no_i64_is_empty(self) -> None:
        greatest, least = 2**63 - 1, -(2**63)
        given: Array = np.ma.MaskedArray([[greatest, least, 0, 5]], [[False, False, False, True]])
        with subzero.Session() as session:
            held = session.array("a", given)
            flow = session.flow("f")
            a = flow.input(0)
            nodes: dict[subzero.Node, list[list[Any]]] = {
                flow.neg(a): [[-greatest, None, 0, None]],
                flow.abs(a): [[greatest, None, 0, None]],
                flow.add_k(a, 1): [[None, least + 1, 1, None]],
                flow.mul_k(a, least): [[None, None, 0, None]],
                flow.sub(a, a): [[0, 0, 0, None]],
                flow.clip(a, least, greatest): [[greatest, least, 0, None]],
                flow.block(a, "sum", 1, 4): [[-1]],
                flow.convolve(a, [[1, 1, 1]]): [[-1, -1, None, None]],
                flow.convolve(a, [[0, 2, 0]]): [[None, None, 0, None]],
                flow.clean(a, greatest): [[None, least, 0, None]],
            }
            run = session.start(flow, [held])
            for node, expected in nodes.items():
                with self.subTest(node=str(node)):
                    expected = [[least, *expected[0][1:]]] if node.op == "clean" else expected
                    self.assertEqual(run.values(node).tolist(), expected)


if __name__ == "__main__":
    unittest.main()
