"""Flows of several nodes: all paths between two arrays, one path, too many; and flows drawn at random, whose lineage
is kept by strategies drawn at random."""

import unittest
from typing import Any
from unittest import mock

import numpy as np

import reference
import subzero
from drawn import draw_flow


class Paths(unittest.TestCase):
    def setUp(self) -> None:
        self.session = subzero.Session()
        self.addCleanup(self.session.close)
        self.image = np.arange(30).reshape(5, 6)
        self.base = self.session.array("a", self.image)

    def test_a_diamond_is_answered_over_both_paths(self) -> None:
        flow = self.session.flow("diamond")
        left = flow.convolve(flow.input(0), [[1, 0, 0]])
        right = flow.convolve(flow.input(0), [[0, 0, 1]])
        both = flow.add(left, right)
        run = self.session.start(flow.define(), [self.base])
        run.wait()
        self.assertEqual(run.paths(both, to=self.base), [((2, 0), (0, 0)), ((2, 1), (1, 0))])
        self.assertEqual(np.argwhere(run.back(both, (2, 3), to=self.base)).tolist(), [[2, 2], [2, 4]])
        self.assertEqual(np.argwhere(run.forward(self.base, (2, 3), to=both)).tolist(), [[2, 2], [2, 4]])
        one = [(both, 1), (right, 0)]
        self.assertEqual(np.argwhere(run.back(both, (2, 3), to=self.base, path=one)).tolist(), [[2, 4]])
        self.assertEqual(np.argwhere(run.forward(self.base, (2, 3), to=both, path=one)).tolist(), [[2, 2]])
        self.assertEqual(
            [str(node) for node in flow.nodes],
            ["node 0, convolve (1 by 3)", "node 1, convolve (1 by 3)", "node 2, add"],
        )
        told = run.explain(both, (2, 3), to=self.base)
        self.assertEqual([str(one) for one in told], ["add by map, convolve by map: 0 cells traced"] * 2)
        self.assertEqual([run.told(one.path) for one in told], ["add < convolve < input 0"] * 2)
        told = run.explain(self.base, (2, 3), to=both, direction="forward", path=one)
        self.assertEqual([step[0] for step in told[0].steps], [right, both])

    def test_a_base_array_that_is_taken_twice(self) -> None:
        flow = self.session.flow("twice", inputs=2)
        total = flow.add(flow.convolve(flow.input(0), [[1, 0, 0]]), flow.input(1))
        run = self.session.start(flow, [self.base, self.base])
        self.assertEqual(np.argwhere(run.back(total, (1, 1), to=self.base)).tolist(), [[1, 0], [1, 1]])
        self.assertEqual(np.argwhere(run.back(total, (1, 1), to=flow.input(1))).tolist(), [[1, 1]])
        self.assertEqual(np.argwhere(run.forward(self.base, (1, 1), to=total)).tolist(), [[1, 1], [1, 2]])

    def test_an_array_in_the_middle_is_asked_for(self) -> None:
        flow = self.session.flow("middle")
        first = flow.transpose(flow.input(0))
        last = flow.block(first, "sum", 2, 2)
        run = self.session.start(flow, [self.base])
        self.assertEqual(np.argwhere(run.back(last, (2, 2), to=first)).tolist(), [[4, 4], [5, 4]])
        self.assertEqual(run.values(first).tolist(), self.image.T.tolist())
        self.assertIs(run.values(self.base), self.base.values)

    def test_too_many_paths_are_an_error_that_counts_them(self) -> None:
        flow = self.session.flow("many")
        total: Any = flow.input(0)
        for _ in range(20):
            total = flow.add(total, total)
        run = self.session.start(flow, [self.base])
        with self.assertRaises(subzero.TooManyPaths) as caught:
            run.paths(total, to=self.base)
        self.assertEqual((caught.exception.count, caught.exception.limit), (2**20, 64))
        self.assertIn("1048576 paths", str(caught.exception))
        near = flow.nodes[2]
        self.assertEqual(len(run.paths(near, to=self.base)), 8)
        run.wait()
        with self.assertRaises(subzero.TooManyPaths):
            run.explain(near, (0, 0), to=self.base, limit=7)
        self.assertEqual(len(run.explain(near, (0, 0), to=self.base, limit=8)), 8)

    def test_an_ask_over_a_million_paths_is_one_ask_a_source(self) -> None:
        flow = self.session.flow("million")
        total: Any = flow.input(0)
        for _ in range(20):
            total = flow.add(total, total)
        run = self.session.start(flow, [self.base])
        with mock.patch.object(self.session, "say", side_effect=self.session.say) as sent:
            self.assertEqual(np.argwhere(run.back(total, [(0, 0), (2, 3)], to=self.base)).tolist(), [[0, 0], [2, 3]])
            self.assertEqual(np.argwhere(run.forward(self.base, (4, 5), to=total)).tolist(), [[4, 5]])
        self.assertEqual(sent.call_count, 80)

    def test_paths_that_are_none(self) -> None:
        flow = self.session.flow("none", inputs=2)
        left, right = flow.neg(flow.input(0)), flow.neg(flow.input(1))
        other = self.session.array("b", [[1]])
        run = self.session.start(flow, [self.base, other])
        with self.assertRaisesRegex(subzero.BadInput, "no path leads"):
            run.back(left, (0, 0), to=other)
        with self.assertRaisesRegex(subzero.BadInput, "no path leads"):
            run.back(left, (0, 0), to=left)
        path: Any
        for path, why in (
            ([], "no step"),
            ([(left, 1)], "no input 1"),
            ([(left, 0), (right, 0)], "not joined"),
            ([(right, 0)], "the path leads from"),
            ([(7, 0)], "no node"),
        ):
            with self.subTest(path=path), self.assertRaisesRegex(subzero.BadInput, why):
                run.back(left, (0, 0), to=self.base, path=path)

    def test_many_asks_are_sent_ahead(self) -> None:
        flow = self.session.flow("ahead")
        node = flow.block(flow.input(0), "sum", 2, 3)
        run = self.session.start(flow, [self.base])
        with self.session.pipeline() as ahead:
            waited = ahead.wait(run)
            values = ahead.values(run, node)
            masks = [ahead.back(run, node, (row, col), to=self.base) for row in range(3) for col in range(2)]
            touched = ahead.forward(run, self.base, (4, 5), to=node)
            told = ahead.explain(run, node, (0, 0), to=self.base)
            missing = ahead.wait(subzero.Run(self.session, 99, flow, (self.base,)))
        self.assertIsNone(waited.result())
        self.assertEqual(values.result().tolist(), [[24, 42], [96, 114], [75, 84]])
        self.assertEqual(np.sum([mask.result() for mask in masks], axis=0).tolist(), np.ones((5, 6)).tolist())
        self.assertEqual(np.argwhere(touched.result()).tolist(), [[2, 1]])
        self.assertEqual(told.result()[0].traced, 0)
        with self.assertRaises(subzero.Refused) as caught:
            missing.result()
        self.assertEqual(caught.exception.number, 15)


class RandomFlows(unittest.TestCase):
    """Values of all nodes, and lineage over all paths between two arrays, of flows with fixed seeds."""

    def check(self, seed: int) -> None:
        draw = np.random.RandomState(seed)
        shape = tuple(int(size) for size in draw.randint(1, 9, 2))
        shape = shape if draw.rand() < 0.5 else (int(draw.randint(2, 5)), *shape)
        image: Any = np.ma.MaskedArray(draw.randint(-30, 60, shape), draw.rand(*shape) < 0.1)
        table: Any = np.ma.MaskedArray(draw.randint(-30, 60, (1, 20)), draw.rand(1, 20) < 0.1)
        with subzero.Session() as session:
            held = [session.array("image", image), session.array("table", table)]
            flow = session.flow("f", inputs=2)
            draw_flow(flow, [shape, (1, 20)], draw)
            run = session.start(flow, held)
            run.wait()
            grids: dict[Any, reference.Grid] = {
                place: reference.grid_of(given) for place, given in zip(flow.inputs, (image, table))
            }
            for node in flow.nodes:
                taken = [grids[source] for source in node.sources]
                grids[node] = reference.evaluate(node.op, node.parameters, taken)
                found, (values, empty) = run.values(node), grids[node]
                self.assertEqual(found.tolist(), np.ma.MaskedArray(values, empty).reshape(found.shape).tolist())
            for node in flow.nodes:
                for place in flow.inputs:
                    self.check_pair(run, grids, node, place, draw)

    def check_pair(
        self,
        run: subzero.Run,
        grids: dict[Any, reference.Grid],
        node: subzero.Node,
        place: subzero.Input,
        draw: np.random.RandomState,
    ) -> None:
        try:
            paths = run.paths(node, to=place, limit=1000)
        except subzero.BadInput:
            return
        asked = draw.rand(*run.shape(node)) < 0.3
        hit = draw.rand(*run.shape(place)) < 0.2
        behind, touched = np.zeros_like(grids[place][1]), np.zeros_like(grids[node][1])
        for path in paths:
            mask = asked.reshape(grids[node][1].shape)
            steps = [(run.flow.nodes[number], at) for number, at in path]
            for step, at in steps:
                mask = reference.back(step.op, step.parameters, [grids[source] for source in step.sources], at, mask)
            behind |= mask
            mask = hit.reshape(grids[place][1].shape)
            for step, at in reversed(steps):
                mask = reference.forward(step.op, step.parameters, [grids[source] for source in step.sources], at, mask)
            touched |= mask
        got = run.back(node, asked, to=place)
        self.assertTrue(np.array_equal(got, behind.reshape(got.shape)), (node, place))
        got = run.forward(place, hit, to=node)
        self.assertTrue(np.array_equal(got, touched.reshape(got.shape)), (place, node))

    def test_random_flows(self) -> None:
        for seed in range(150):
            with self.subTest(seed=seed):
                self.check(seed)


if __name__ == "__main__":
    unittest.main()
