"""Refreshes and merges over tiles, against one untiled session: values, lineage, what changed and what was reached."""

from __future__ import annotations

import os
import signal
import tempfile
import unittest
from collections.abc import Iterator
from contextlib import contextmanager
from pathlib import Path
from typing import Any
from unittest import mock

import numpy as np

import reference
import subzero
from subzero.tiles import Limits, Mosaic, TiledChange, TiledRun
from subzero.tiles.holder import Holder
from test_tiles import Both, draw_flow, some, spiral


@contextmanager
def counted() -> Iterator[dict[str, int]]:
    """How many tiles are made meanwhile: "started" from nothing, and "refreshed"."""
    counts = {"started": 0, "refreshed": 0}
    start, refresh = Holder._start, Holder._refresh

    def starting(holder: Holder, *arguments: Any) -> Any:
        counts["started"] += 1
        return start(holder, *arguments)

    def refreshing(holder: Holder, *arguments: Any) -> Any:
        counts["refreshed"] += 1
        return refresh(holder, *arguments)

    with mock.patch.object(Holder, "_start", starting), mock.patch.object(Holder, "_refresh", refreshing):
        yield counts


class RandomFlows(unittest.TestCase):
    """Flows with fixed seeds, of all operators, on small images, in whose base arrays some cells are set, twice."""

    def check(self, seeds: range, **how: Any) -> dict[str, int]:
        cases = 0
        with counted() as counts:
            for part in range(seeds.start, seeds.stop, 20):  # a session holds so many versions and cells
                with subzero.Session() as session, subzero.tiled(tile=1, programs=2, **how) as mosaic:
                    for seed in range(part, min(part + 20, seeds.stop)):
                        with self.subTest(seed=seed):
                            cases += self.check_one(session, mosaic, seed)
        print(f"tiles changed: {cases} comparisons, {counts['started']} tiles started, {counts['refreshed']} refreshed")
        return counts

    def check_one(self, session: subzero.Session, mosaic: Mosaic, seed: int) -> int:
        draw = np.random.RandomState(seed)
        mosaic.side = int(draw.randint(5, 18)) if seed % 8 else int(draw.randint(1, 5))
        shape = tuple(int(size) for size in draw.randint(1, 28 if seed % 8 else 9, 2))
        shape = (shape[0], shape[0]) if draw.rand() < 0.3 else shape
        shape = shape if draw.rand() < 0.6 else (int(draw.randint(1, 4)), *shape)
        arrays = [some(draw, shape), some(draw, shape), some(draw, (1, 20))]
        state = draw.get_state()

        def build(flow: subzero.Flow) -> None:
            draw.set_state(state)
            draw_flow(flow, [shape, shape, (1, 20)], draw)

        both = Both(session, mosaic, arrays, build, f"f{seed}")
        both.whole.wait()
        if draw.rand() < 0.7:
            both.tiled.wait()
        for _ in range(2):
            self.refresh(both, draw)
            both.check(self, draw, pairs=3)
            both.whole.wait()
        return both.cases

    def refresh(self, both: Both, draw: np.random.RandomState) -> None:
        """Set some cells of a base array in both runs, and go on with the runs that this makes."""
        which = int(draw.choice([0, 0, 1, 1, 2]))
        whole, tiled = both.whole.base[which], both.tiled.base[which]
        mask = draw.rand(*whole.shape) < draw.choice([0.005, 0.02, 0.1])
        mask.reshape(-1)[draw.randint(mask.size)] = True
        new = some(draw, whole.shape)
        old_values = {node: both.tiled.values(node).tolist() for node in both.tiled_flow.nodes[-1:]}
        change = both.whole.refresh(whole, (mask, new))
        told = both.tiled.refresh(tiled, (mask, new))
        self.assertEqual((told.array.name, told.array.version), (tiled.name, tiled.version + 1))
        reached = 0
        for node, twin in zip(both.whole_flow.nodes, both.tiled_flow.nodes):
            self.assertTrue(np.array_equal(told.changed(twin), change.changed(node)), ("changed", str(node)))
            self.assertTrue(np.array_equal(told.reached(twin), change.reached(node)), ("reached", str(node)))
            reached += int(told.reached(twin).sum())
            both.cases += 2
        self.assertTrue(np.array_equal(told.changed(told.array), change.changed(change.array)))
        self.assertTrue(np.array_equal(told.reached(tiled), mask))
        self.assertEqual((told.cells, reached), (change.cells, change.cells))
        for node, values in old_values.items():
            self.assertEqual(both.tiled.values(node).tolist(), values)
        both.whole, both.tiled = change.run, told.run

    def test_tiles_that_fit(self) -> None:
        counts = self.check(range(2000, 2040))
        self.assertGreater(counts["refreshed"], 40)

    def test_tiles_that_are_made_smaller_and_flows_cut_further(self) -> None:
        """Programs that hold few tiles: most have to be made again."""
        self.check(range(3000, 3020), limits=Limits(cells=900, array=250, nodes=6, inputs=4))


class Tiles(unittest.TestCase):
    """Which tiles are made, and how."""

    def setUp(self) -> None:
        self.mosaic = subzero.tiled(tile=10, programs=2)
        self.addCleanup(self.mosaic.close)
        self.image = np.random.RandomState(4).randint(0, 50, (40, 40))
        self.base = self.mosaic.array("a", self.image)

    def folded(self) -> tuple[TiledRun, subzero.Node]:
        """A run of two stages on 16 tiles, all made."""
        flow = self.mosaic.flow("f")
        labels = flow.regions(flow.convolve(flow.input(0), np.ones((3, 3), dtype=int)), t=260)
        last = flow.block(labels, "max", 2, 2)
        run = self.mosaic.start(flow, [self.base])
        run.values(last)
        return run, last

    def expected(self, image: Any) -> Any:
        total = reference.evaluate("convolve", {"kernel": [[1] * 3] * 3}, [reference.grid_of(image)])
        labels = reference.evaluate("regions", {"t": 260}, [total])
        return reference.evaluate("block", {"fold": "max", "h": 2, "w": 2}, [labels])[0][0].tolist()

    def test_those_that_take_a_set_cell_are_refreshed_and_no_other_is_made(self) -> None:
        run, last = self.folded()
        for cell, tiles in (((5, 5), 1), ((10, 15), 2), ((9, 19), 4), ((0, 0), 1), ((39, 9), 2)):
            image = self.image.copy()
            image[cell] = 60 - image[cell]
            with counted() as counts:
                change = run.refresh(self.base, {cell: int(image[cell])})
                change.run.wait()
                self.assertEqual(counts["started"], 0)
                first = counts["refreshed"]
                self.assertEqual(change.run.values(last).tolist(), self.expected(image))
            self.assertEqual((counts["started"], first), (0, tiles), cell)
            self.assertLessEqual(counts["refreshed"], 2 * tiles + 2, cell)
            self.assertEqual(run.values(last).tolist(), self.expected(self.image))

    def test_no_cell_at_all(self) -> None:
        run, last = self.folded()
        with counted() as counts:
            for told in ({}, (np.zeros((40, 40), dtype=bool), 7), self.image, (self.image < 0, self.image)):
                change = run.refresh(self.base, told)
                self.assertEqual(change.run.values(last).tolist(), run.values(last).tolist())
                self.assertEqual((change.cells, change.changed(last).any()), (0, False))
                self.assertEqual(change.run.values(change.array).tolist(), self.image.tolist())
        self.assertEqual(counts, {"started": 0, "refreshed": 0})

    def test_cells_of_which_many_are_set_are_sent_anew(self) -> None:
        run, last = self.folded()
        image = 49 - self.image
        with counted() as counts:
            change = run.refresh(self.base, image)
            self.assertEqual(change.run.values(last).tolist(), self.expected(image))
        self.assertGreaterEqual(counts["started"], 16)

    def test_what_the_old_run_keeps_is_let_go(self) -> None:
        run, last = self.folded()
        for turn in range(3):
            change = run.refresh(run.base[0], {(turn, 3): 40})
            if turn == 1:
                change.run.wait()
            else:
                change.run.values(last)
            self.assertIsNone(change.run._making._before)  # type: ignore[attr-defined]
            run = change.run
        image = self.image.copy()
        image[:3, 3] = 40
        self.assertEqual(run.values(last).tolist(), self.expected(image))
        self.assertEqual(run.base[0].version, 4)

    def test_a_run_that_was_not_waited_for(self) -> None:
        flow = self.mosaic.flow("g")
        labels = flow.regions(flow.convolve(flow.input(0), np.ones((3, 3), dtype=int)), t=260)
        last = flow.block(labels, "max", 2, 2)
        image = self.image.copy()
        image[20, 20] = 0
        change = self.mosaic.start(flow, [self.base]).refresh(self.base, {(20, 20): 0})
        self.assertEqual(change.run.values(last).tolist(), self.expected(image))

    def test_programs_that_are_killed(self) -> None:
        run, last = self.folded()
        image = self.image.copy()
        image[7, 7], image[30, 30] = 0, 0
        change = run.refresh(self.base, {(7, 7): 0, (30, 30): 0})
        self.kill()
        change.run.wait()
        self.assertEqual(change.run.values(last).tolist(), self.expected(image))
        self.kill()
        self.assertEqual(change.run.values(last).tolist(), self.expected(image))
        self.assertEqual(run.values(last).tolist(), self.expected(self.image))
        self.kill()
        self.assertEqual(int(change.reached(last).sum()), int(change.reached(last, as_cells=True).shape[0]))

    def kill(self) -> None:
        for pid in self.mosaic.pids:
            if pid is not None:
                os.kill(pid, signal.SIGKILL)

    def test_a_program_without_room_for_two(self) -> None:
        """A tile takes 100 cells, and makes 100 and 25; so does the one that is made of it."""
        image = self.image[:10, :10].copy()
        for cells, made in ((449, {"started": 1, "refreshed": 0}), (450, {"started": 0, "refreshed": 1})):
            with subzero.tiled(tile=10, programs=1, limits=Limits(cells=cells)) as mosaic:
                base = mosaic.array("a", image)
                flow = mosaic.flow("f")
                last = flow.block(flow.convolve(flow.input(0), np.ones((3, 3), dtype=int)), "max", 2, 2)
                run = mosaic.start(flow, [base])
                run.values(last)
                with counted() as counts:
                    values = run.refresh(base, {(5, 5): 900}).run.values(last)
                self.assertEqual(counts, made)
            new = image.copy()
            new[5, 5] = 900
            total = reference.evaluate("convolve", {"kernel": [[1] * 3] * 3}, [reference.grid_of(new)])
            block = reference.evaluate("block", {"fold": "max", "h": 2, "w": 2}, [total])
            self.assertEqual(values.tolist(), block[0][0].tolist())

    def test_a_program_is_filled_to_the_last_cell(self) -> None:
        """A tile with its output is half of what a session holds: one refresh fits, and the next one is made anew."""
        image = np.zeros((1024, 1024), dtype=np.int8)
        with subzero.tiled(tile=1024, programs=1) as mosaic:
            flow = mosaic.flow("f")
            node = flow.neg(flow.input(0))
            run = mosaic.start(flow, [mosaic.array("a", image)])
            run.values(node, np.s_[:1, :1])
            for turn in range(2):
                with counted() as counts:
                    run = run.refresh(run.base[0], {(turn, 5): 1 + turn, (1023, 1023): 9}).run
                    self.assertEqual(run.values(node, np.s_[:2, 5:6]).tolist(), [[-1], [-2 * turn]])
                self.assertEqual(counts, {"started": turn, "refreshed": 1 - turn})

    def test_cells_are_read_block_by_block(self) -> None:
        image = np.random.RandomState(2).randint(0, 99, (2, 300, 520))
        with subzero.tiled(tile=300, programs=1) as mosaic:
            base = mosaic.array("a", image)
            flow = mosaic.flow("f")
            node = flow.neg(flow.input(0))
            run = mosaic.start(flow, [base])
            mask = np.random.RandomState(3).rand(*image.shape) < 0.001
            change = run.refresh(base, (mask, 50))
            both: list[Any] = [base, node]
            for array in both:
                self.assertEqual(change.changed(array).tolist(), (mask & (image != 50)).tolist())
            self.assertEqual(change.cells, int(mask.sum()))


class Regions(unittest.TestCase):
    """Components that are joined and parted, over many tiles."""

    def check(self, image: np.ndarray[Any, Any], tile: int, turns: int, seed: int) -> None:
        """Cells of an image of 0 and 1 are turned over, one refresh on the other: labels and lineage against scipy."""
        draw, image = np.random.RandomState(seed), image.copy()
        with subzero.tiled(tile=tile, programs=2) as mosaic:
            base = mosaic.array("a", image)
            flow = mosaic.flow("f")
            labels = flow.regions(flow.input(0), 1)
            last = flow.add_k(labels, 0)
            run = mosaic.start(flow, [base])
            run.wait()
            for _ in range(turns):
                cells = [tuple(draw.randint(0, size) for size in image.shape) for _ in range(draw.choice([1, 1, 1, 3]))]
                for cell in cells:
                    image[cell] = 1 - image[cell]
                change = run.refresh(run.base[0], {cell: int(image[cell]) for cell in cells})
                run = change.run
                grid = reference.grid_of(image)
                expected = reference.evaluate("regions", {"t": 1}, [grid])[0].reshape(image.shape)
                self.assertEqual(run.values(labels).tolist(), expected.tolist())
                self.assertEqual(run.values(last).tolist(), expected.tolist())
                asked = np.zeros(image.shape, dtype=bool)
                asked[cells[0]] = True
                behind = reference.back("regions", {"t": 1}, [grid], 0, asked.reshape(grid[0].shape))
                self.assertEqual(run.back(last, asked, to=run.base[0]).tolist(), behind.reshape(image.shape).tolist())

    def test_a_line_that_winds_through_all_tiles(self) -> None:
        self.check(spiral(15), 4, 25, 1)

    def test_a_chessboard_and_noise(self) -> None:
        self.check(np.indices((11, 12)).sum(axis=0) % 2, 4, 20, 2)
        self.check((np.random.RandomState(8).rand(14, 13) < 0.6).astype(int), 5, 25, 3)

    def test_layers(self) -> None:
        self.check((np.random.RandomState(9).rand(2, 9, 10) < 0.6).astype(int), 4, 15, 4)

    def test_tiles_of_one_cell(self) -> None:
        self.check((np.random.RandomState(7).rand(5, 6) < 0.6).astype(int), 1, 8, 5)

    def test_a_comb_whose_back_is_broken(self) -> None:
        image = np.zeros((20, 21), dtype=int)
        image[:, ::2] = 1
        image[-1] = 1
        with subzero.tiled(tile=6, programs=2) as mosaic:
            base = mosaic.array("a", image)
            flow = mosaic.flow("f")
            labels = flow.regions(flow.input(0), 1)
            run = mosaic.start(flow, [base])
            run.wait()
            change = run.refresh(base, {(19, 9): 0})
            now = change.run.values(labels)
            self.assertEqual((sorted(np.unique(now)), now[0, 10], now[19, 20]), ([0, 1, 11], 11, 11))
            self.assertEqual(int(change.changed(labels).sum()), int((image[:, 10:] == 1).sum()) + 1)
            self.assertEqual(change.reached(labels).tolist(), (image == 1).tolist())
            again = change.run.refresh(change.array, {(19, 9): 1})
            self.assertEqual(again.run.values(labels).tolist(), run.values(labels).tolist())


class Use(unittest.TestCase):
    """The ways to say cells, and what is refused."""

    def setUp(self) -> None:
        self.mosaic = subzero.tiled(tile=4, programs=1)
        self.addCleanup(self.mosaic.close)

    def negated(self, values: Any, **how: Any) -> tuple[TiledRun, Any, subzero.Node]:
        base = self.mosaic.array("a", values, **how)
        flow = self.mosaic.flow(f"f{base.version}")
        node = flow.neg(flow.input(0))
        return self.mosaic.start(flow, [base]), base, node

    def values(self, change: TiledChange) -> Any:
        """The new values, by the array and by the program."""
        found = change.run.values(change.array)
        self.assertEqual(change.run.values(change.run.flow.nodes[0]).tolist(), (-found).tolist())
        return found.tolist()

    def test_the_ways_to_say_cells(self) -> None:
        image: Any = np.ma.MaskedArray(np.arange(42).reshape(6, 7), np.arange(42).reshape(6, 7) % 5 == 2)
        run, base, node = self.negated(image)
        run.values(node)
        mask = np.zeros((6, 7), dtype=bool)
        mask[0, 1] = mask[5, 6] = mask[2, 2] = True
        whole = image.copy()
        whole[0, 1], whole[5, 6], whole[2, 2] = 4, np.ma.masked, 0
        with tempfile.TemporaryDirectory() as folder:
            np.save(Path(folder) / "new.npy", np.arange(42).reshape(6, 7) * 2)
            ways: list[Any] = [
                {(0, 1): 4, (5, 6): None, (2, 2): 0},
                (mask, [4, 0, None]),
                (mask, whole),
                ([(5, 6), (0, 1), (2, 2), (5, 6)], [3, 4, 0, None]),
                whole,
            ]
            for told in ways:
                change = run.refresh(base, told)
                self.assertEqual(self.values(change), whole.tolist(), told)
                self.assertEqual(change.reached(base).tolist(), mask.tolist())
                self.assertEqual(change.changed(node, as_cells=True).tolist(), [[0, 1], [2, 2], [5, 6]])
            for named in (Path(folder) / "new.npy", f"{folder}/new.npy"):
                self.assertEqual(self.values(run.refresh(base, named)), (np.arange(42).reshape(6, 7) * 2).tolist())
        self.assertEqual(self.values(run.refresh(base, (np.s_[1, :], 2)))[1], [2] * 7)
        self.assertEqual(repr(run.refresh(base, {(0, 0): 1})), "<Change of a 1 in run 1: 1 cell set, in run 10>")
        second = change.run.refresh(change.array, {(0, 1): 5, (0, 3): None})
        whole[0, 1], whole[0, 3] = 5, np.ma.masked
        self.assertEqual(self.values(second), whole.tolist())
        self.assertEqual(run.values(base).tolist(), image.tolist())

    def test_layers_floats_and_empty_cells(self) -> None:
        floats: Any = np.arange(24).reshape(2, 3, 4) / 2
        floats[1, 2, 3] = np.nan
        run, base, _ = self.negated(floats, scale=2, nan_is_empty=True)
        change = run.refresh(base, {(1, 0, 2): 0.5, (0, 1, 1): None}, scale=2)
        new: Any = np.arange(24).reshape(2, 3, 4).tolist()
        new[1][2][3], new[1][0][2], new[0][1][1] = None, 1, None
        self.assertEqual(self.values(change), new)
        other = floats.copy()
        other[1, 2, 3], other[0, 0, 0] = 3, np.nan
        change = run.refresh(base, other, scale=2)
        self.assertEqual(change.reached(base, as_cells=True).tolist(), [[0, 0, 0], [1, 2, 3]])
        self.assertEqual((self.values(change)[1][2][3], self.values(change)[0][0][0]), (6, None))

    def test_more_cells_than_a_session_holds(self) -> None:
        image = np.zeros((1100, 1000), dtype=np.int8)
        with subzero.tiled(tile=400, programs=1) as mosaic:
            base = mosaic.array("a", image)
            flow = mosaic.flow("f")
            node = flow.neg(flow.input(0))
            run = mosaic.start(flow, [base])
            told: Any
            for told in ((image == 0, 7), (image == 0, np.full(image.shape, 7)), image + 7):
                change = run.refresh(base, told)
                self.assertEqual(change.run.values(node, np.s_[1098:, 998:]).tolist(), [[-7, -7]] * 2)
                self.assertEqual(change.reached(base).sum(), image.size)

    def test_an_array_that_is_taken_twice(self) -> None:
        image = np.arange(60).reshape(6, 10)
        base = self.mosaic.array("a", image)
        flow = self.mosaic.flow("twice", inputs=2)
        total = flow.add(flow.convolve(flow.input(0), [[1, 0, 0]]), flow.input(1))
        run = self.mosaic.start(flow, [base, base])
        before = run.values(total)
        with self.assertRaisesRegex(subzero.BadInput, r"array a 1 under the inputs 0 and 1, .*flow.input\(0\)"):
            run.refresh(base, {(0, 1): 8})
        change = run.refresh(flow.input(1), {(2, 4): 1000})
        self.assertEqual([str(one) for one in change.run.base], ["array a 1", "array a 2"])
        self.assertEqual(change.run.values(total)[2, 4], before[2, 4] - 24 + 1000)
        self.assertEqual((change.cells, change.changed(total, as_cells=True).tolist()), (1, [[2, 4]]))
        array: Any
        for array in (base, change.array, flow.input(1)):
            self.assertEqual(change.changed(array, as_cells=True).tolist(), [[2, 4]])
        self.assertFalse(change.changed(flow.input(0)).any())
        change = run.refresh(flow.input(0), {(2, 4): 1000})
        self.assertEqual(change.changed(total, as_cells=True).tolist(), [[2, 5]])
        self.assertEqual([str(one) for one in change.run.base], ["array a 3", "array a 1"])

    def test_what_is_refused(self) -> None:
        run, base, node = self.negated(np.zeros((3, 5), dtype=int))
        other, moon, _ = self.negated(np.zeros((3, 5), dtype=int))
        mask = np.zeros((3, 5), dtype=bool)
        told: Any
        for array, told, why in (
            (node, {(0, 0): 1}, "is no base array: cells are set in what a run was started on"),
            (moon, {(0, 0): 1}, "is no array that the run was started on"),
            (other.flow.input(0), {(0, 0): 1}, "is of another flow"),
            (base, {(3, 0): 1}, r"the cell \(3, 0\) is out of range"),
            (base, {(0, 1, 2): 1}, r"is no cell of array a 1, whose cells are \(row, column\)"),
            (base, {(0, 0): 0.5}, "the values are floats: say by scale="),
            (base, {(0, 0): 2**63}, "is above 9223372036854775807"),
            (base, (mask, [1]), "the new values have the shape"),
            (base, (mask[:1], 1), "the mask has the shape"),
            (base, mask, "a mask alone does not say what its cells are to hold"),
            (base, np.zeros((5, 3), dtype=int), r"the new values have the shape \(5, 3\), and array a 1 has \(3, 5\)"),
            (base, np.zeros((3, 5)), "the values are floats"),
            (base, np.full((3, 5), np.nan), "the values are floats"),
            (base, [(0, 1)], "does not say which cells are to hold what"),
            (base, None, "None does not say which cells"),
            (base, "moon.txt", "moon.txt is no .npy and no FITS file"),
        ):
            with self.subTest(told=str(told)), self.assertRaisesRegex(subzero.BadInput, why):
                run.refresh(array, told)
        with self.assertRaisesRegex(subzero.BadInput, "array a 3, rows 0 to 3, .* NaN or infinite"):
            run.refresh(base, np.full((3, 5), np.nan), scale=2)
        change = run.refresh(base, {(0, 0): 1})
        with self.assertRaisesRegex(subzero.BadInput, "is no array that the run was started on"):
            change.reached(moon)


class Merges(unittest.TestCase):
    """Kinds of lineage, where the tiles' numbers are those of the whole."""

    def test_random_flows(self) -> None:
        told = left = 0
        with subzero.Session() as session, subzero.tiled(tile=1, programs=2) as mosaic:
            for seed in range(24):
                with self.subTest(seed=seed):
                    draw = np.random.RandomState(4000 + seed)
                    mosaic.side = int(draw.choice([5, 9, 40]))
                    shape = tuple(int(size) for size in draw.randint(1, 22, 2))
                    shape = shape if draw.rand() < 0.6 else (2, *shape)
                    arrays = [some(draw, shape), some(draw, shape), some(draw, (1, 20))]
                    state = draw.get_state()

                    def build(flow: subzero.Flow) -> None:
                        draw.set_state(state)
                        draw_flow(flow, [shape, shape, (1, 20)], draw)

                    both = Both(session, mosaic, arrays, build, f"f{seed}")
                    both.whole.wait()
                    merging = both.tiled.merge()
                    both.check(self, draw, pairs=2)
                    kinds = {(node.number, name): count for (node, name), count in both.whole.merge().wait().items()}
                    found = {(node.number, name): count for (node, name), count in merging.wait().items()}
                    self.assertEqual(found, {key: kinds[key] for key in found})
                    self.assertEqual(merging.wait(), both.tiled.merge().wait())
                    self.assertEqual(list(found), [key for key in kinds if key in found])
                    both.check(self, draw, pairs=2)
                    told, left = told + len(found), left + len(kinds) - len(found)
        print(f"tiles merged: {told} numbers are those of the whole, {left} are not told")
        self.assertGreater(told, 20)
        self.assertGreater(left, 5)

    def test_what_is_told_and_what_is_not(self) -> None:
        image = np.random.RandomState(3).randint(0, 9, (12, 20))
        with subzero.tiled(tile=8, programs=2) as mosaic:
            base = mosaic.array("a", image)
            ways = ["full_one_b", "full_many_f"]
            flow = mosaic.flow("f")
            near = flow.mul_k(flow.input(0), 2, keep=ways)
            wide = flow.convolve(near, np.ones((3, 3), dtype=int), keep=ways)
            binned = flow.block(wide, "sum", 4, 4, keep=[*ways, "map"])
            run = mosaic.start(flow, [base])
            self.assertEqual(repr(run.merge()), "<Merging of run 1>")
            self.assertEqual(run.merge().wait(), {})  # at the edges of tiles all cells are computed twice
            mosaic.side = 20
            found = mosaic.start(flow, [base]).merge().wait()  # one tile
            sizes = {near: 240, wide: 240, binned: 15}
            self.assertEqual(found, {(node, name): size for node, size in sizes.items() for name in ways})
            mosaic.side = 8
            flow = mosaic.flow("g")
            near = flow.mul_k(flow.input(0), 2, keep=ways)
            binned = flow.block(near, "sum", 4, 4, keep=[*ways, "map"])
            flow.neg(flow.regions(near, t=5, keep=ways), keep=["full_many_b"])
            run = mosaic.start(flow, [base])
            wanted = {(node, name): size for node, size in ((near, 240), (binned, 15)) for name in ways}
            self.assertEqual(run.merge().wait(), {**wanted, (flow.nodes[3], "full_many_b"): 240})
            flow = mosaic.flow("h")
            near = flow.mul_k(flow.input(0), 2, keep=ways)
            flow.clean(near, t=7, keep=["comp_one", "full_one_f"])
            self.assertEqual(mosaic.start(flow, [base]).merge().wait(), {})

    def test_tiles_that_no_program_holds(self) -> None:
        image = np.random.RandomState(3).randint(0, 9, (30, 30))
        with subzero.tiled(tile=10, programs=1, limits=Limits(cells=450)) as mosaic:
            base = mosaic.array("a", image)
            flow = mosaic.flow("f")
            node = flow.block(flow.abs(flow.input(0)), "max", 5, 2, keep=["full_many_b"])
            run = mosaic.start(flow, [base])
            with counted() as counts:
                merging = run.merge()
                self.assertEqual(counts["started"], 0)
                for _ in range(2):
                    self.assertEqual(merging.wait(), {(node, "full_many_b"): 90})
            self.assertGreaterEqual(counts["started"], 9)
            for pid in mosaic.pids:
                assert pid is not None
                os.kill(pid, signal.SIGKILL)
            run.merge()
            self.assertEqual(run.merge().wait(), {(node, "full_many_b"): 90})


if __name__ == "__main__":
    unittest.main()
