"""Images in tiles against one untiled session: values of all nodes, and lineage in both directions."""

from __future__ import annotations

import os
import signal
import tempfile
import threading
import unittest
from collections.abc import Callable, Sequence
from pathlib import Path
from typing import Any
from unittest import mock

import numpy as np
from scipy import ndimage

import interrupts
import reference
import subzero
from subzero.tiles import CannotTile, Limits, Mosaic, TiledArray, TiledRun
from subzero.tiles.crew import LocalCrew
from subzero.tiles.holder import Holder
from subzero.tiles.stages import plan_flow
from subzero.tiles.windows import cells_of_tile, excess

FOLDS = ["sum", "min", "max", "count"]
OPERATORS = ["neg", "abs", "add_k", "mul_k", "clip", "add", "sub", "mul", "min", "max", "transpose"] + [
    "slice",
    "convolve",
    "block",
    "fold_layers",
    "lookup",
    "regions",
    "clean",
] * 2


def some(draw: np.random.RandomState, shape: tuple[int, ...]) -> np.ma.MaskedArray[Any, Any]:
    """Whole numbers from -30 to 59, a tenth of them empty; in one of four arrays some are huge."""
    values = draw.randint(-30, 60, shape)
    if draw.rand() < 0.25:
        values = np.where(draw.rand(*shape) < 0.1, 2**62 + values, values)
    return np.ma.MaskedArray(values, draw.rand(*shape) < 0.1)


def draw_flow(flow: subzero.Flow, shapes: list[tuple[int, ...]], draw: np.random.RandomState, most: int = 9) -> None:
    """Two to so many nodes over base arrays of these shapes, the last of which is a table."""
    places: list[Any] = [*flow.inputs]
    shapes = [*shapes]
    for _ in range(draw.randint(2, most)):
        at = draw.randint(max(0, len(places) - 4), len(places)) if draw.rand() < 0.6 else draw.randint(len(places))
        x, shape = places[at], shapes[at]
        node = draw_node(flow, x, shape, places, shapes, draw)
        if draw.rand() < 0.3:
            supported = [kept for kept in reference.STRATEGIES if reference.supports(node.op, kept)]
            flow.keep(node, [str(kept) for kept in draw.choice(supported, draw.randint(1, 4), replace=False)])
        places.append(node)
        shapes.append(node.shape_from(shape))


def applied(flow: subzero.Flow, op: str, *rest: Any) -> subzero.Node:
    """The node of a flow's call of this name."""
    node: subzero.Node = getattr(flow, op)(*rest)
    return node


def draw_node(
    flow: subzero.Flow,
    x: Any,
    shape: tuple[int, ...],
    places: list[Any],
    shapes: list[tuple[int, ...]],
    draw: np.random.RandomState,
) -> subzero.Node:
    height, width = shape[-2:]
    op = str(draw.choice(OPERATORS))
    if op in ("add_k", "mul_k"):
        return applied(flow, op, x, int(draw.randint(-3, 4)))
    if op == "clip":
        return flow.clip(x, -20, int(draw.randint(-20, 60)))
    if op in ("add", "sub", "mul", "min", "max"):
        like = [place for place, other in zip(places, shapes) if other == shape]
        return applied(flow, op, x, like[draw.randint(len(like))])
    if op == "slice":
        h, w = int(draw.randint(1, height + 1)), int(draw.randint(1, width + 1))
        return flow.slice(x, int(draw.randint(height - h + 1)), int(draw.randint(width - w + 1)), h, w)
    if op == "convolve":
        return flow.convolve(x, draw.randint(-1, 2, (draw.choice([1, 3, 5]), draw.choice([1, 3, 7]))))
    if op == "block":
        return flow.block(x, str(draw.choice(FOLDS)), int(draw.randint(1, 5)), int(draw.randint(1, 5)))
    if op == "fold_layers":
        return flow.fold_layers(x, str(draw.choice(FOLDS)))
    if op == "lookup":
        tables = [place for place, other in zip(places, shapes) if int(np.prod(other[:-1])) == 1]
        return flow.lookup(x, tables[draw.randint(len(tables))])
    if op in ("regions", "clean"):
        return applied(flow, op, x, int(draw.randint(-20, 60)))
    return applied(flow, op, x)


class Both:
    """One flow in a session and in a mosaic, with the same base arrays."""

    def __init__(
        self,
        session: subzero.Session,
        mosaic: Mosaic,
        arrays: list[Any],
        build: Callable[[subzero.Flow], None],
        name: str = "f",
    ) -> None:
        self.whole_base = [session.array(f"a{number}", array) for number, array in enumerate(arrays)]
        self.tiled_base = [mosaic.array(f"a{number}", array) for number, array in enumerate(arrays)]
        self.whole_flow = session.flow(name, inputs=len(arrays))
        self.tiled_flow = mosaic.flow(name, inputs=len(arrays))
        for flow in (self.whole_flow, self.tiled_flow):
            build(flow)
        self.whole = session.start(self.whole_flow, self.whole_base)
        self.tiled = mosaic.start(self.tiled_flow, self.tiled_base)
        self.cases = 0

    def check(self, test: unittest.TestCase, draw: np.random.RandomState, pairs: int = 7, limit: int = 300) -> None:
        """Values of all nodes; lineage of some cells of some pairs of arrays, in both directions."""
        with self.whole.session.pipeline() as ahead:
            values = [ahead.values(self.whole, node) for node in self.whole_flow.nodes]
        for node, later in zip(self.tiled_flow.nodes, values):
            found, expected = self.tiled.values(node), later.result()
            test.assertEqual((found.shape, found.dtype), (expected.shape, expected.dtype), node)
            test.assertEqual(found.tolist(), expected.tolist(), node)
            self.cases += 1
        chosen: list[Any] = [
            (node, place) for node in self.whole_flow.nodes for place in (*self.whole_flow.inputs, *node.flow.nodes)
        ]
        draw.shuffle(chosen)
        asked: list[Any] = []
        with self.whole.session.pipeline() as ahead:
            for node, place in chosen:
                try:
                    if len(asked) == pairs or not self.whole.paths(node, to=place, limit=limit):
                        continue
                except (subzero.BadInput, subzero.TooManyPaths):
                    continue
                behind, hit = (draw.rand(*self.whole.shape(one)) < draw.choice([0.03, 0.3]) for one in (node, place))
                back = ahead.back(self.whole, node, behind, to=place)
                asked.append((node, place, behind, hit, back, ahead.forward(self.whole, place, hit, to=node)))
        for node, place, behind, hit, back, forward in asked:
            last, first = self.twin(node), self.twin(place)
            answer = self.tiled.back(last, behind, to=first)
            test.assertTrue(np.array_equal(answer, back.result()), ("back", str(node), str(place)))
            answer = self.tiled.forward(first, hit, to=last)
            test.assertTrue(np.array_equal(answer, forward.result()), ("forward", str(node), str(place)))
            self.cases += 2

    def twin(self, place: subzero.Input | subzero.Node) -> subzero.Input | subzero.Node:
        flow = self.tiled_flow
        inner = isinstance(place, subzero.Node)
        here: subzero.Input | subzero.Node = flow.nodes[place.number] if inner else flow.inputs[place.number]
        return here


class RandomFlows(unittest.TestCase):
    """Flows with fixed seeds, of all operators, on small images."""

    def check(self, seeds: range, **how: Any) -> None:
        cases = 0
        for part in range(seeds.start, seeds.stop, 50):  # a session holds so many versions and cells
            with subzero.Session() as session, subzero.tiled(tile=1, programs=2, **how) as mosaic:
                for seed in range(part, min(part + 50, seeds.stop)):
                    with self.subTest(seed=seed):
                        cases += self.check_one(session, mosaic, seed)
        print(f"{type(self).__name__}: {cases} comparisons of values and lineage")

    def check_one(self, session: subzero.Session, mosaic: Mosaic, seed: int) -> int:
        draw = np.random.RandomState(seed)
        mosaic.side = int(draw.randint(5, 18)) if seed % 8 else int(draw.randint(1, 5))
        shape = tuple(int(size) for size in draw.randint(1, 28 if seed % 8 else 9, 2))
        shape = (shape[0], shape[0]) if draw.rand() < 0.3 else shape
        shape = shape if draw.rand() < 0.6 else (int(draw.randint(1, 4)), *shape)
        arrays = [some(draw, shape), some(draw, shape), some(draw, (1, 20))]
        state = draw.get_state()

        def build(flow: subzero.Flow) -> None:
            draw.set_state(state)
            draw_flow(flow, [shape, shape, (1, 20)], draw)

        both = Both(session, mosaic, arrays, build, f"f{seed}")
        both.check(self, draw)
        return both.cases

    def test_tiles_that_fit(self) -> None:
        self.check(range(80))

    def test_tiles_that_are_made_smaller_and_flows_cut_further(self) -> None:
        self.check(range(1000, 1050), limits=Limits(cells=700, array=200, nodes=6, inputs=4))


def spiral(side: int) -> np.ndarray[Any, Any]:
    """A line one cell wide that winds inward, 1 on 0."""
    image = np.zeros((side, side), dtype=int)
    row, column, down, right = 0, 0, 0, 1
    image[0, 0] = 1
    for length in [side - 1] + [one for step in range(side - 1, 0, -2) for one in (step, step)]:
        for _ in range(length):
            row, column = row + down, column + right
            image[row, column] = 1
        down, right = right, -down
    return image


class Edges(unittest.TestCase):
    def test_what_is_wrong_near_the_edge_of_a_tile_does_not_show(self) -> None:
        """Beyond its own cells a tile sums less than there is, and would take cells for hot that are not."""
        image = np.ones((6, 12), dtype=int)
        with subzero.tiled(tile=4, programs=2) as mosaic:
            base = mosaic.array("a", image)
            flow = mosaic.flow("f")
            cleaned = flow.clean(flow.convolve(flow.input(0), [[1, 0, -1]]), 1)
            run = mosaic.start(flow, [base])
            change = np.zeros((6, 12), dtype=int)
            change[:, 0], change[:, -1] = -1, 1
            hot = change >= 1
            self.assertEqual(run.values(cleaned)[:, :-1].tolist(), change[:, :-1].tolist())
            for column in range(12):
                asked = np.zeros((1, 6, 12), dtype=bool)
                asked[0, 2, column] = True
                near = ndimage.binary_dilation(asked, [[[1, 0, 1]]])[0]
                expected = near & ~hot | ndimage.binary_dilation(near, np.ones((3, 3))) & hot
                found = run.forward(base, (2, column), to=cleaned)
                self.assertEqual(np.argwhere(found).tolist(), np.argwhere(expected).tolist(), column)


class Regions(unittest.TestCase):
    """Components that lie in many tiles."""

    def check(self, image: np.ndarray[Any, Any], t: int, tile: int, asked: tuple[int, ...]) -> None:
        """Labels, and lineage of one cell in both directions, against scipy.ndimage."""
        grid = reference.grid_of(image)
        expected = reference.evaluate("regions", {"t": t}, [grid])[0].reshape(image.shape)
        cells = np.zeros(image.shape, dtype=bool)
        cells[asked] = True
        related = reference.back("regions", {"t": t}, [grid], 0, cells.reshape(grid[0].shape)).reshape(image.shape)
        with subzero.tiled(tile=tile, programs=2) as mosaic:
            base = mosaic.array("a", image)
            flow = mosaic.flow("f")
            labels = flow.regions(flow.input(0), t)
            run = mosaic.start(flow, [base])
            run.wait()
            self.assertEqual(run.values(labels).tolist(), expected.tolist())
            self.assertEqual(run.back(labels, asked, to=base).tolist(), related.tolist())
            self.assertEqual(run.forward(base, asked, to=labels).tolist(), related.tolist())

    def test_a_line_that_winds_through_all_tiles(self) -> None:
        image = spiral(23)
        self.assertEqual(ndimage.label(image)[1], 1)
        self.check(image, 1, 4, (0, 0))
        self.check(image, 0, 4, (5, 5))
        self.check(image[::-1], 1, 5, (22, 0))

    def test_a_region_of_the_whole_image(self) -> None:
        self.check(np.ones((13, 17), dtype=int), 1, 5, (12, 16))
        self.check(np.ones((2, 9, 8), dtype=int), 1, 3, (1, 4, 4))

    def test_a_chessboard(self) -> None:
        self.check(np.indices((11, 12)).sum(axis=0) % 2, 1, 4, (0, 1))

    def test_a_comb_whose_teeth_are_joined_in_the_last_row(self) -> None:
        image = np.zeros((20, 21), dtype=int)
        image[:, ::2] = 1
        image[-1] = 1
        self.check(image, 1, 6, (0, 20))

    def test_a_tile_of_one_cell(self) -> None:
        self.check(spiral(9), 1, 1, (4, 4))

    def test_regions_in_layers_do_not_meet(self) -> None:
        image = np.zeros((3, 10, 10), dtype=int)
        image[0, :, 3:7], image[1, 4:6], image[2, 3:9, 5] = 1, 1, 1
        self.check(image, 1, 4, (1, 4, 0))

    def test_two_stages_of_regions(self) -> None:
        draw = np.random.RandomState(4)
        image = draw.randint(0, 10, (26, 31))

        def build(flow: subzero.Flow) -> None:
            first = flow.regions(flow.input(0), 4)
            wide = flow.convolve(flow.clip(first, 0, 1), np.ones((3, 3), dtype=int))
            second = flow.regions(wide, 7)
            flow.sub(second, flow.block(flow.block(first, "max", 1, 1), "max", 1, 1))

        with subzero.Session() as session, subzero.tiled(tile=7, programs=2) as mosaic:
            both = Both(session, mosaic, [image], build)
            self.assertEqual(both.tiled.layout.stages, 3)
            both.check(self, draw, pairs=20)


class Spread(unittest.TestCase):
    """What could have changed a cell, against numpy and scipy node by node: a region stands on its cells' neighbours
    too."""

    def step(
        self, node: subzero.Node, grids: list[reference.Grid], number: int, cells: np.ndarray[Any, Any], forward: bool
    ) -> Any:
        if node.op != "regions":
            return (reference.forward if forward else reference.back)(node.op, node.parameters, grids, number, cells)
        high = reference.high(grids[0], node.parameters["t"])
        labels, _ = ndimage.label(high, reference.CROSS)
        near = ndimage.binary_dilation(cells, reference.CROSS) if forward else cells
        component = np.isin(labels, labels[near & high]) & high
        return (cells & ~high) | (component if forward else ndimage.binary_dilation(component, reference.CROSS))

    def spread(
        self,
        flow: subzero.Flow,
        grids: dict[Any, reference.Grid],
        start: dict[Any, np.ndarray[Any, Any]],
        forward: bool,
    ) -> dict[Any, np.ndarray[Any, Any]]:
        sets = {place: np.zeros(grid[1].shape, dtype=bool) for place, grid in grids.items()} | start
        for node in flow.nodes if forward else reversed(flow.nodes):
            taken = [grids[source] for source in node.sources]
            for number, source in enumerate(node.sources):
                before, after = (source, node) if forward else (node, source)
                sets[after] = sets[after] | self.step(node, taken, number, sets[before], forward)
        return sets

    def test_random_flows(self) -> None:
        cases = 0
        with subzero.tiled(tile=6, programs=2) as mosaic:
            for seed in range(25):
                with self.subTest(seed=seed):
                    cases += self.check_one(mosaic, seed)
        print(f"Spread: {cases} comparisons of what could have changed a cell")
        self.assertGreater(cases, 100)

    def check_one(self, mosaic: Mosaic, seed: int) -> int:
        draw = np.random.RandomState(7000 + seed)
        shape = tuple(int(size) for size in draw.randint(1, 22, 2))
        shape = shape if draw.rand() < 0.6 else (2, *shape)
        arrays = [some(draw, shape), some(draw, shape), some(draw, (1, 20))]
        base = [mosaic.array("a", array) for array in arrays]
        flow = mosaic.flow(f"f{seed}", inputs=3)
        draw_flow(flow, [shape, shape, (1, 20)], draw)
        run = mosaic.start(flow, base)
        grids: dict[Any, reference.Grid] = {
            place: reference.grid_of(array) for place, array in zip(flow.inputs, arrays)
        }
        for node in flow.nodes:
            grids[node] = reference.evaluate(node.op, node.parameters, [grids[source] for source in node.sources])
        last = flow.nodes[-1]
        cases = 0
        for place, array in zip(flow.inputs, base):
            bad = draw.rand(*array.shape) < 0.05
            spread = self.spread(flow, grids, {place: bad.reshape(grids[place][1].shape)}, forward=True)
            for node in flow.nodes:
                try:
                    found = run.suspects(bad, array, to=node)
                except subzero.BadInput:
                    self.assertFalse(spread[node].any())
                    continue
                self.assertTrue(np.array_equal(found, spread[node].reshape(found.shape)), (str(node), str(place)))
                cases += 1
        asked = draw.rand(*run.shape(last)) < 0.1
        spread = self.spread(flow, grids, {last: asked.reshape(grids[last][1].shape)}, forward=False)
        for place, array in zip(flow.inputs, base):
            try:
                found = run.support(last, asked, to=array)
            except subzero.BadInput:
                continue
            self.assertTrue(np.array_equal(found, spread[place].reshape(found.shape)), str(place))
            cases += 1
        return cases

    def test_a_region_stands_on_no_cell_of_another_layer(self) -> None:
        """A region in the last row of one layer, and one in the first row of the next."""
        image = np.zeros((3, 6, 7), dtype=int)
        image[0, 5] = image[1, 0] = image[2, 2, 6] = image[2, 3, 0] = 9
        with subzero.tiled(tile=4, programs=2) as mosaic:
            base = mosaic.array("a", image)
            flow = mosaic.flow("f")
            labels = flow.regions(flow.input(0), 5)
            run = mosaic.start(flow, [base])
            for asked, expected in (
                ((0, 5, 3), [(0, 4, column) for column in range(7)] + [(0, 5, column) for column in range(7)]),
                ((1, 0, 3), [(1, 0, column) for column in range(7)] + [(1, 1, column) for column in range(7)]),
                ((2, 2, 6), [(2, 1, 6), (2, 2, 5), (2, 2, 6), (2, 3, 6)]),
                ((2, 3, 0), [(2, 2, 0), (2, 3, 0), (2, 3, 1), (2, 4, 0)]),
            ):
                found = run.support(labels, asked, to=base, as_cells=True)
                self.assertEqual([tuple(cell) for cell in found.tolist()], expected)
                for bad in np.argwhere(np.ones(image.shape)).tolist():
                    if image[tuple(bad)] == 0:
                        touched = run.suspects(bad, base, to=labels)
                        self.assertEqual(touched[asked], tuple(bad) in expected, (bad, asked))

    def test_a_dead_pixel_between_two_regions(self) -> None:
        image: np.ma.MaskedArray[Any, Any] = np.ma.MaskedArray(np.full((5, 12), 9), np.zeros((5, 12), dtype=bool))
        image[:, 6] = 0
        image[2, 6] = np.ma.masked
        with subzero.tiled(tile=6, programs=2) as mosaic:
            base = mosaic.array("a", image)
            flow = mosaic.flow("f")
            labels = flow.regions(flow.input(0), 5)
            run = mosaic.start(flow, [base])
            self.assertEqual(run.forward(base, (2, 6), to=labels).sum(), 1)
            expected = np.zeros((5, 12), dtype=bool)
            expected[:, :6] = expected[:, 7:] = expected[2, 6] = True
            self.assertEqual(run.suspects((2, 6), base, to=labels).tolist(), expected.tolist())
            expected = np.zeros((5, 12), dtype=bool)
            expected[:, :7] = True
            self.assertEqual(run.support(labels, (0, 0), to=base).tolist(), expected.tolist())


class Nothing:
    """What a flow that is only planned is written for."""


NO_SESSION: Any = Nothing()


class Fit(unittest.TestCase):
    """Tiles keep within a session, and what they cannot keep within is refused."""

    def planned(self, build: Callable[[subzero.Flow], None], shapes: Sequence[tuple[int, ...]], side: int) -> Any:
        flow = subzero.Flow(NO_SESSION, "f", len(shapes))
        build(flow)
        return plan_flow(flow, list(shapes), side), flow

    def test_a_large_mosaic_keeps_within_sessions_and_is_shared_out_once(self) -> None:
        def chain(flow: subzero.Flow) -> None:
            x: Any = flow.input(0)
            for _ in range(30):
                x = flow.convolve(x, np.ones((9, 9), dtype=int))
            flow.regions(x, 5)

        def turned(flow: subzero.Flow) -> None:
            x = flow.neg(flow.input(0))
            flow.add(x, flow.transpose(x))

        def far(flow: subzero.Flow) -> None:
            x = flow.abs(flow.input(0))
            flow.add(flow.slice(x, 0, 0, 3000, 3000), flow.slice(x, 5000, 4000, 3000, 3000))

        def blocks(flow: subzero.Flow) -> None:
            flow.block(flow.clean(flow.input(0), 5), "sum", 700, 900)

        for build, further in ((chain, 4), (turned, 1), (far, 1), (blocks, 1)):
            with self.subTest(flow=build.__name__):
                plan, flow = self.planned(build, [(8192, 8192)], 800)
                self.assertLessEqual(len(plan.kept), further)
                for stage in plan.stages:
                    self.assertGreaterEqual(stage.side, 200)
                    for tile in stage.tiles.values():
                        self.assertLessEqual(cells_of_tile(stage.members, tile), 4_194_304)
                        self.assertLessEqual(excess(stage.members, tile, Limits()), 1)
                for node in flow.nodes:
                    own = [
                        tile.own[node.number]
                        for tile in plan.stage_of[node.number].tiles.values()
                        if node.number in tile.own
                    ]
                    height, width = plan.shapes[node]
                    counted = np.zeros((height, width), dtype=np.uint8)
                    for rect in own:
                        counted[rect.top : rect.bottom, rect.left : rect.right] += 1
                    self.assertTrue((counted == 1).all())

    def test_what_no_session_holds_is_refused_with_its_node(self) -> None:
        def block(flow: subzero.Flow) -> None:
            flow.neg(flow.block(flow.abs(flow.input(0)), "sum", 2000, 2000))

        def table(flow: subzero.Flow) -> None:
            flow.lookup(flow.neg(flow.input(0)), flow.input(1))

        for build, shapes, node in (
            (block, [(4096, 4096)], 1),
            (table, [(4096, 4096), (1, 2_000_000)], 1),
        ):
            with self.assertRaises(CannotTile) as caught:
                self.planned(build, shapes, 800)
            self.assertEqual(caught.exception.node.number, node)
            self.assertIn(f"node {node}, ", str(caught.exception))

    def test_shapes_that_do_not_fit_are_refused_with_their_node(self) -> None:
        for build, why in (
            (
                lambda flow: flow.add(flow.input(0), flow.transpose(flow.input(0))),
                r"node 1, add: .*\(6, 7\) and \(7, 6\)",
            ),
            (lambda flow: flow.lookup(flow.input(0), flow.input(0)), "node 0, lookup: its table"),
            (lambda flow: flow.slice(flow.input(0), 3, 0, 4, 1), "node 0, slice .*goes beyond"),
        ):
            with self.assertRaisesRegex(CannotTile, why):
                self.planned(build, [(6, 7)], 3)

    def test_sessions_are_replaced_before_they_are_full(self) -> None:
        limits = Limits(cells=900)
        image = np.random.RandomState(2).randint(0, 50, (40, 40))

        def build(flow: subzero.Flow) -> None:
            flow.block(flow.regions(flow.clean(flow.input(0), 40), 20), "max", 3, 3)

        with subzero.Session() as session, subzero.tiled(tile=12, programs=2, limits=limits) as mosaic:
            both = Both(session, mosaic, [image], build)
            self.assertLessEqual(both.tiled.layout.cells, 900)
            held: list[int] = []
            start = Holder._start

            def watched(holder: Holder, *arguments: Any) -> Any:
                replies = start(holder, *arguments)
                assert holder._held is not None
                held.append(holder._held.cells)
                return replies

            with mock.patch.object(Holder, "_start", watched):
                both.check(self, np.random.RandomState(3), pairs=10)
            self.assertGreater(len(held), len(both.tiled._making.plan.stages[0].tiles))
            self.assertLessEqual(max(held), 900)

    def test_what_a_tile_takes_is_told(self) -> None:
        with subzero.tiled(tile=800, programs=1) as mosaic:
            flow = mosaic.flow("f")
            flow.regions(flow.add_k(flow.input(0), 1), 5)
            layout = mosaic.start(flow, [mosaic.array("a", np.zeros((2000, 900), dtype=np.int8))]).layout
            self.assertEqual((layout.tiles, layout.stages, layout.sides), (6, 1, (800,)))
            self.assertEqual((layout.cells, layout.bytes), (3 * 800 * 800, 16 * 3 * 800 * 800))
            self.assertEqual(str(layout), "6 tiles in 1 stage, of side 800; the largest takes 29.3 MiB in its program")


class Use(unittest.TestCase):
    """Arrays of all kinds, windows, answers as cells, refusals."""

    def setUp(self) -> None:
        self.mosaic = subzero.tiled(tile=10, programs=2)
        self.addCleanup(self.mosaic.close)

    def negated(self, array: TiledArray, name: str = "f") -> tuple[TiledRun, subzero.Node]:
        flow = self.mosaic.flow(name)
        node = flow.neg(flow.input(0))
        return self.mosaic.start(flow, [array]), node

    def test_arrays_of_all_kinds(self) -> None:
        image = np.arange(33 * 21).reshape(33, 21)
        with tempfile.TemporaryDirectory() as folder:
            np.save(Path(folder) / "image.npy", image)
            mapped = np.memmap(Path(folder) / "raw", dtype=np.int32, mode="w+", shape=image.shape)
            mapped[:] = image
            given = {
                "listed": self.mosaic.array("listed", image.tolist()),
                "mapped": self.mosaic.array("mapped", mapped),
                "named": self.mosaic.load("named", Path(folder) / "image.npy"),
                "scaled": self.mosaic.array("scaled", image / 4, scale=4),
                "layered": self.mosaic.array("layered", image[None]),
            }
            try:
                from astropy.io import fits
            except ImportError:
                pass
            else:
                fits.HDUList([fits.PrimaryHDU(), fits.ImageHDU(image.astype(np.uint16))]).writeto(
                    f"{folder}/image.fits"
                )
                given["fits"] = self.mosaic.load("fits", f"{folder}/image.fits")
            for name, array in given.items():
                with self.subTest(kind=name):
                    run, node = self.negated(array, name)
                    self.assertEqual(run.values(node).tolist(), (-image.reshape(array.shape)).tolist())
                    self.assertEqual(run.values(array).tolist(), image.reshape(array.shape).tolist())

    def test_empty_cells(self) -> None:
        image: np.ma.MaskedArray[Any, Any] = np.ma.MaskedArray(
            np.arange(600).reshape(20, 30), np.arange(600).reshape(20, 30) % 7 == 0
        )
        run, node = self.negated(self.mosaic.array("a", image), "masked")
        self.assertEqual(run.values(node).tolist(), (-image).tolist())
        floats = np.where(image.mask, np.nan, image.data / 2)
        run, node = self.negated(self.mosaic.array("b", floats, scale=2, nan_is_empty=True), "floats")
        self.assertEqual(run.values(node).tolist(), (-image).tolist())
        run, node = self.negated(self.mosaic.array("c", floats, scale=2), "holes")
        with self.assertRaisesRegex(subzero.BadInput, "array c 1, rows 0 to 10, columns .* are NaN or infinite"):
            run.values(node)

    def test_windows_and_cells(self) -> None:
        image = np.arange(40 * 50).reshape(40, 50)
        base = self.mosaic.array("a", image)
        flow = self.mosaic.flow("f")
        total = flow.convolve(flow.input(0), [[1, 1, 1]])
        labels = flow.regions(flow.input(0), 1900)
        run = self.mosaic.start(flow, [base])
        self.assertEqual(run.shape(total), (40, 50))
        for window in (np.s_[3:27, 8:31], np.s_[:, 49:], np.s_[-1:, :5]):
            expected = ndimage.correlate(image, [[1, 1, 1]], mode="constant")[window]
            self.assertEqual(run.values(total, window).tolist(), expected.tolist())
            self.assertEqual(run.values(base, window).tolist(), image[window].tolist())
        self.assertEqual(run.values(labels, np.s_[37:39, 0:2]).tolist(), [[0, 0], [1901, 1901]])
        self.assertEqual(run.back(total, (9, 10), to=base, as_cells=True).tolist(), [[9, 9], [9, 10], [9, 11]])
        self.assertEqual(
            run.forward(base, [(0, 0), (39, 49)], to=total, as_cells=True).tolist(),
            [[0, 0], [0, 1], [39, 48], [39, 49]],
        )
        self.assertEqual(run.back(total, [], to=base, as_cells=True).shape, (0, 2))
        wrong: list[Any] = [np.s_[3:3, :], np.s_[::2, :], np.s_[3:5], (3, 4)]
        for window in wrong:
            with self.subTest(window=window), self.assertRaisesRegex(subzero.BadInput, "window"):
                run.values(total, window)

    def test_one_path_is_asked_and_explained(self) -> None:
        image = np.random.RandomState(1).randint(0, 100, (25, 25))
        base = self.mosaic.array("a", image)
        flow = self.mosaic.flow("f")
        left = flow.convolve(flow.input(0), [[1, 0, 0]])
        right = flow.clean(flow.input(0), 200)
        labels = flow.regions(flow.add(left, right), 1000)
        run = self.mosaic.start(flow, [base])
        run.wait()
        self.assertEqual(len(run.paths(labels, to=base)), 2)
        path: list[Any] = [(labels, 0), (labels.sources[0], 0), (left, 0)]
        self.assertEqual(run.back(labels, (9, 10), to=base, path=path, as_cells=True).tolist(), [[9, 9]])
        self.assertEqual(run.forward(base, (9, 9), to=labels, path=path, as_cells=True).tolist(), [[9, 10]])
        told = run.explain(labels, (9, 10), to=base)
        self.assertEqual(
            [run.told(one.path) for one in told],
            ["regions < add < convolve < input 0", "regions < add < clean < input 0"],
        )
        self.assertEqual(str(told[0]), "regions by joined, add by map, convolve by map: 0 cells traced")
        made = run._making.plan.stages[0].tiles[0, 1].local[right.number].area
        self.assertEqual(str(told[1]), f"regions by joined, add by map, clean by blackbox: {made} cells traced")
        told = run.explain(base, (9, 9), to=labels, direction="forward", path=path)
        self.assertEqual([node.op for node, _ in told[0].steps], ["convolve", "add", "regions"])

    def test_a_base_array_that_is_taken_twice(self) -> None:
        image = np.arange(12 * 25).reshape(12, 25)
        base = self.mosaic.array("a", image)
        flow = self.mosaic.flow("f", inputs=2)
        total = flow.add(flow.convolve(flow.input(0), [[1, 0, 0]]), flow.input(1))
        run = self.mosaic.start(flow, [base, base])
        self.assertEqual(run.values(total, np.s_[4:5, 9:12]).tolist(), [[217, 219, 221]])
        self.assertEqual(run.back(total, (4, 10), to=base, as_cells=True).tolist(), [[4, 9], [4, 10]])
        self.assertEqual(run.back(total, (4, 10), to=flow.input(1), as_cells=True).tolist(), [[4, 10]])
        self.assertEqual(run.forward(base, (4, 9), to=total, as_cells=True).tolist(), [[4, 9], [4, 10]])

    def test_many_paths_cost_what_nodes_cost(self) -> None:
        base = self.mosaic.array("a", np.zeros((12, 12), dtype=int))
        flow = self.mosaic.flow("f")
        total: Any = flow.input(0)
        for _ in range(20):
            total = flow.add(total, total)
        run = self.mosaic.start(flow, [base])
        self.assertEqual(run.back(total, (11, 3), to=base, as_cells=True).tolist(), [[11, 3]])
        self.assertEqual(run.suspects((11, 3), base, to=total, as_cells=True).tolist(), [[11, 3]])
        with self.assertRaises(subzero.TooManyPaths):
            run.explain(total, (0, 0), to=base)

    def test_what_is_refused(self) -> None:
        base = self.mosaic.array("a", np.zeros((12, 12), dtype=int))
        run, node = self.negated(base)
        other = self.mosaic.flow("g", inputs=2)
        other.add(*other.inputs)
        with self.assertRaises(subzero.Refused) as caught:
            wrong = self.mosaic.flow("wrong")
            wrong.convolve(wrong.input(0), [[1, 1]])
            self.mosaic.start(wrong, [base])
        self.assertEqual((caught.exception.number, caught.exception.node), (8, 0))
        floats: Any = np.zeros((2, 2))
        up: Any = "up"
        for call, why in (
            (lambda: self.mosaic.array("A", [[1]]), "no name"),
            (lambda: self.mosaic.array("a", [1, 2]), "2 axes"),
            (lambda: self.mosaic.array("a", np.zeros((17, 2, 2), dtype=int)), "16 layers"),
            (lambda: self.mosaic.array("a", np.zeros((0, 2), dtype=int)), "no cells"),
            (lambda: self.mosaic.array("a", np.zeros((2, 2))), "the values are floats"),
            (lambda: self.mosaic.start(other, [base]), "takes 2 base arrays"),
            (lambda: self.mosaic.start(run.flow, [floats]), "no array of the mosaic"),
            (lambda: run.back(node, (0, 12), to=base), "out of range"),
            (lambda: run.back(node, (0, 0), to=node), "no path leads"),
            (lambda: run.back(node, (0, 0), to=base, path=[(node, 1)]), "no input 1"),
            (lambda: run.values(other.nodes[0]), "another flow"),
            (lambda: run.explain(node, (0, 0), to=base, direction=up), "no direction"),
            (lambda: subzero.tiled(tile=0), "tile is 0"),
        ):
            with self.assertRaisesRegex(subzero.BadInput, why):
                call()


class Ends(unittest.TestCase):
    """Programs that are killed, interrupts, the end of a mosaic."""

    def setUp(self) -> None:
        self.mosaic = subzero.tiled(tile=9, programs=2)
        self.addCleanup(self.mosaic.close)
        self.image = np.random.RandomState(6).randint(0, 100, (40, 30))
        self.base = self.mosaic.array("a", self.image)
        flow = self.mosaic.flow("f")
        self.labels = flow.regions(flow.input(0), 60)
        self.last = flow.block(self.labels, "max", 4, 4)
        self.run_ = self.mosaic.start(flow, [self.base])
        grid = reference.evaluate("regions", {"t": 60}, [reference.grid_of(self.image)])
        self.expected = reference.evaluate("block", {"fold": "max", "h": 4, "w": 4}, [grid])[0][0].tolist()

    def test_a_program_that_is_killed_is_replaced(self) -> None:
        tiles = Holder.tiles
        calls: list[int] = []

        def killing(holder: Holder, requests: list[Any]) -> Any:
            if len(calls) == 2:
                os.kill(holder.pid()[1] or calls[0], signal.SIGKILL)
            answers = tiles(holder, requests)
            calls.append(holder.pid()[1] or 0)
            return answers

        with mock.patch.object(Holder, "tiles", killing), mock.patch("subzero.tiles.making._BATCH", 300):
            self.run_.wait()
        self.assertGreater(len(calls), 4)
        self.assertEqual(self.run_.values(self.last).tolist(), self.expected)
        before = self.run_.back(self.last, (2, 2), to=self.base)
        for pid in self.mosaic.pids:
            assert pid is not None
            os.kill(pid, signal.SIGKILL)
        self.assertEqual(self.run_.values(self.last).tolist(), self.expected)
        self.assertTrue(np.array_equal(self.run_.back(self.last, (2, 2), to=self.base), before))

    def test_a_program_that_cannot_run_is_told(self) -> None:
        tiles = Holder.tiles

        def killing(holder: Holder, requests: list[Any]) -> Any:
            with holder._turn:
                if holder._held is None:
                    holder._renew()
                assert holder._held is not None
                os.kill(holder._held.session.pid, signal.SIGKILL)
            return tiles(holder, requests)

        with mock.patch.object(Holder, "tiles", killing):
            with self.assertRaisesRegex(subzero.SubZeroError, r"was not made in 4 tries: .*signal 9"):
                self.run_.wait()
        self.run_.wait()
        self.assertEqual(self.run_.values(self.last).tolist(), self.expected)

    def test_an_interrupt_stops_what_is_not_begun_and_it_goes_on_when_asked_again(self) -> None:
        interrupts.heed(self)
        tiles = Holder.tiles
        calls: list[int] = []
        raised = threading.Event()

        def interrupting(holder: Holder, requests: list[Any]) -> Any:
            calls.append(len(requests))
            if len(calls) == 1:
                os.kill(os.getpid(), signal.SIGINT)
            raised.wait(300)  # what is begun goes on once the interrupt was raised
            return tiles(holder, requests)

        with mock.patch.object(Holder, "tiles", interrupting), mock.patch("subzero.tiles.making._BATCH", 1):
            with self.assertRaises(KeyboardInterrupt):
                self.run_.wait()
            raised.set()
        self.assertLess(len(calls), len(self.run_._making.plan.stages[0].tiles))
        self.run_.wait()
        self.assertEqual(self.run_.values(self.last).tolist(), self.expected)

    def test_an_interrupt_that_leaves_the_mosaic_stops_its_programs(self) -> None:
        interrupts.heed(self)
        tiles, kill = Holder.tiles, LocalCrew.kill
        pids: list[int | None] = []
        turn, stopping = threading.Lock(), threading.Event()

        def interrupting(holder: Holder, requests: list[Any]) -> Any:
            answers = tiles(holder, requests)
            with turn:
                pids.append(holder.pid()[1])
                if len(pids) == 3:
                    os.kill(os.getpid(), signal.SIGINT)
            if len(pids) >= 3:
                stopping.wait(300)
            return answers

        def killing(crew: LocalCrew) -> None:
            stopping.set()
            kill(crew)

        with mock.patch.object(Holder, "tiles", interrupting), mock.patch("subzero.tiles.making._BATCH", 1):
            with mock.patch.object(LocalCrew, "kill", killing), self.assertRaises(KeyboardInterrupt):
                with self.mosaic:
                    self.run_.wait()
        self.assertGreaterEqual(len(pids), 3)
        self.assertLess(len(pids), len(self.run_._making.plan.stages[0].tiles))
        for pid in pids:
            if pid is not None:
                with self.assertRaises(ProcessLookupError):
                    os.kill(pid, 0)

    def test_a_mosaic_that_is_closed_leaves_no_program(self) -> None:
        self.run_.wait()
        pids = self.mosaic.pids
        self.mosaic.close()
        self.mosaic.close()
        self.assertEqual(self.mosaic.pids, [None, None])
        with self.assertRaisesRegex(subzero.SubZeroError, "the mosaic is closed"):
            self.run_.values(self.last)
        for pid in pids:
            assert pid is not None
            with self.assertRaises(ProcessLookupError):
                os.kill(pid, 0)


if __name__ == "__main__":
    unittest.main()
