"""What bad cells could change, and what fixes a value: told by hand, by the definition, and by force: cells are replaced
by many values, the flow is run again, and no cell outside what was told may differ.
"""

from __future__ import annotations

import sys
import unittest
from collections.abc import Iterator
from typing import Any
from unittest import mock

import numpy as np
from numpy.typing import NDArray
from scipy import ndimage

import reference
import subzero
from drawn import draw_flow
from subzero import demo


def cells(mask: NDArray[Any]) -> list[list[int]]:
    """The cells of a mask, in row-major order."""
    found: list[list[int]] = np.argwhere(mask).tolist()
    return found


def differs(new: Any, old: Any) -> NDArray[Any]:
    """Where the values of two arrays differ, or one is empty."""
    found: NDArray[Any] = (np.ma.getmaskarray(new) != np.ma.getmaskarray(old)) | (new.filled(0) != old.filled(0))
    return found


class ByHand(unittest.TestCase):
    def setUp(self) -> None:
        self.session = subzero.Session()
        self.addCleanup(self.session.close)

    def regions(self, image: Any, t: int = 5) -> tuple[subzero.Run, subzero.BaseArray, subzero.Node]:
        base = self.session.array("image", image)
        flow = self.session.flow(f"regions_{base.version}")
        labels = flow.regions(flow.input(0), t=t)
        return self.session.start(flow, [base]), base, labels

    def test_the_pixel_between_two_regions(self) -> None:
        run, base, labels = self.regions([[9, 0, 9]])
        self.assertEqual(cells(run.forward(base, (0, 1), to=labels)), [[0, 1]])
        self.assertEqual(cells(run.suspects((0, 1), base, to=labels)), [[0, 0], [0, 1], [0, 2]])
        self.assertEqual(cells(run.back(labels, (0, 0), to=base)), [[0, 0]])
        self.assertEqual(cells(run.support(labels, (0, 0), to=base)), [[0, 0], [0, 1]])
        self.assertEqual(cells(run.support(labels, (0, 1), to=base)), [[0, 1]])

    def test_a_dead_pixel_at_the_rim_of_a_region(self) -> None:
        run, base, labels = self.regions([[0, 0, 0, 0], [0, 9, 9, None], [0, 0, 0, 0]])
        self.assertEqual(cells(run.forward(base, (1, 3), to=labels)), [[1, 3]])
        self.assertEqual(cells(run.suspects((1, 3), base, to=labels)), [[1, 1], [1, 2], [1, 3]])
        # a corner is no neighbour
        self.assertEqual(cells(run.suspects((0, 3), base, to=labels)), [[0, 3]])
        self.assertEqual(
            cells(run.support(labels, (1, 1), to=base)),
            [[0, 1], [0, 2], [1, 0], [1, 1], [1, 2], [1, 3], [2, 1], [2, 2]],
        )

    def test_a_low_pixel_two_cells_off_changes_nothing(self) -> None:
        run, base, labels = self.regions([[9, 0, 0, 9]])
        self.assertEqual(cells(run.suspects((0, 2), base, to=labels)), [[0, 2], [0, 3]])
        self.assertEqual(cells(run.support(labels, (0, 0), to=base)), [[0, 0], [0, 1]])

    def test_layers_are_not_mixed(self) -> None:
        run, base, labels = self.regions([[[9, 0], [0, 0]], [[0, 9], [0, 0]]])
        self.assertEqual(cells(run.suspects([(0, 0, 1)], base, to=labels)), [[0, 0, 0], [0, 0, 1]])
        self.assertEqual(cells(run.suspects([(1, 0, 0)], base, to=labels)), [[1, 0, 0], [1, 0, 1]])
        self.assertEqual(cells(run.support(labels, [(1, 0, 1)], to=base)), [[1, 0, 0], [1, 0, 1], [1, 1, 1]])

    def test_regions_at_the_edges_of_an_array(self) -> None:
        run, base, labels = self.regions([[9, 9], [9, 9]])
        self.assertEqual(run.suspects((1, 1), base, to=labels).sum(), 4)
        self.assertEqual(run.support(labels, (0, 0), to=base).sum(), 4)
        run, base, labels = self.regions([[9, 0, 0], [0, 0, 0], [0, 0, 9]])
        self.assertEqual(cells(run.support(labels, (0, 0), to=base)), [[0, 0], [0, 1], [1, 0]])
        self.assertEqual(cells(run.support(labels, (2, 2), to=base)), [[1, 2], [2, 1], [2, 2]])
        # what lies beyond one edge does not come in at the other
        self.assertEqual(cells(run.suspects((0, 2), base, to=labels)), [[0, 2]])
        self.assertEqual(cells(run.suspects((2, 0), base, to=labels)), [[2, 0]])

    def test_a_chain_of_two_regions(self) -> None:
        base = self.session.array("image", [[9, 0, 0, 0]])
        flow = self.session.flow("twice")
        first = flow.regions(flow.input(0), t=5)
        last = flow.regions(flow.neg(first), t=0)  # the ground of the first, as a region: 2
        run = self.session.start(flow, [base])
        self.assertEqual(run.values(last).tolist(), [[0, 2, 2, 2]])
        self.assertEqual(cells(run.suspects((0, 1), base, to=last)), [[0, 0], [0, 1], [0, 2], [0, 3]])
        self.assertEqual(cells(run.support(last, (0, 0), to=base)), [[0, 0], [0, 1]])
        self.assertEqual(run.support(last, (0, 3), to=base).sum(), 4)

    def test_a_diamond_over_regions(self) -> None:
        base = self.session.array("image", [[0, 9, 0, 9, 0, 0, 0]])
        flow = self.session.flow("diamond")
        labels = flow.regions(flow.input(0), t=5)
        moved = flow.convolve(flow.input(0), [[1, 0, 0]])
        both = flow.add(labels, moved)
        run = self.session.start(flow, [base])
        self.assertEqual(cells(run.forward(base, (0, 2), to=both)), [[0, 2], [0, 3]])
        self.assertEqual(cells(run.suspects((0, 2), base, to=both)), [[0, 1], [0, 2], [0, 3]])
        self.assertEqual(cells(run.support(both, (0, 4), to=base)), [[0, 3], [0, 4]])
        self.assertEqual(cells(run.support(both, (0, 3), to=base)), [[0, 2], [0, 3], [0, 4]])

    def test_without_regions_it_is_the_lineage(self) -> None:
        base = self.session.array("image", [[1, 200, 3], [4, 5, 6]])
        flow = self.session.flow("plain")
        last = flow.convolve(flow.clean(flow.input(0), t=100), [[1, 0, 2]])
        run = self.session.start(flow, [base])
        self.assertEqual(cells(run.suspects((1, 0), base, to=last)), cells(run.forward(base, (1, 0), to=last)))
        self.assertEqual(cells(run.suspects((1, 0), base, to=last)), [[0, 0], [0, 2], [1, 1]])
        self.assertEqual(cells(run.support(last, (1, 1), to=base)), [[1, 0], [1, 2]])

    def test_a_base_array_that_is_taken_twice(self) -> None:
        base = self.session.array("image", [[9, 0, 0, 0]])
        flow = self.session.flow("two", inputs=2)
        last = flow.add(flow.regions(flow.input(0), t=5), flow.convolve(flow.input(1), [[0, 0, 1]]))
        run = self.session.start(flow, [base, base])
        self.assertEqual(cells(run.suspects((0, 1), base, to=last)), [[0, 0], [0, 1]])
        self.assertEqual(cells(run.suspects((0, 2), base, to=last)), [[0, 1], [0, 2]])
        self.assertEqual(cells(run.suspects((0, 2), flow.input(0), to=last)), [[0, 2]])
        self.assertEqual(cells(run.support(last, (0, 1), to=base)), [[0, 1], [0, 2]])

    def test_an_array_in_the_middle(self) -> None:
        base = self.session.array("image", [[9, 0, 9]])
        flow = self.session.flow("middle")
        middle = flow.neg(flow.neg(flow.input(0)))
        labels = flow.regions(middle, t=5)
        run = self.session.start(flow, [base])
        self.assertEqual(run.suspects((0, 1), middle, to=labels).sum(), 3)
        self.assertEqual(cells(run.support(labels, (0, 2), to=middle)), [[0, 1], [0, 2]])

    def test_no_bad_cell_changes_nothing(self) -> None:
        run, base, labels = self.regions([[9, 0, 9]])
        self.assertFalse(run.suspects([], base, to=labels).any())
        self.assertFalse(run.support(labels, np.zeros((1, 3), dtype=bool), to=base).any())

    def test_what_is_refused(self) -> None:
        run, base, labels = self.regions([[9, 0, 9]])
        with self.assertRaisesRegex(subzero.BadInput, "out of range"):
            run.suspects((0, 3), base, to=labels)
        with self.assertRaisesRegex(subzero.BadInput, "no path leads from array image 1 back to node 0"):
            run.suspects((0, 0), labels, to=base)
        with self.assertRaisesRegex(subzero.BadInput, "no path leads from array image 1 back to array image 1"):
            run.support(base, (0, 0), to=base)

    def test_as_many_asks_as_steps_however_many_paths(self) -> None:
        base = self.session.array("image", [[9, 0, 9]])
        flow = self.session.flow("paths")
        total: Any = flow.input(0)
        for _ in range(16):
            total = flow.max(total, total)
        labels = flow.regions(total, t=5)
        run = self.session.start(flow, [base])
        with mock.patch.object(self.session, "say", side_effect=self.session.say) as sent:
            self.assertEqual(run.suspects((0, 1), base, to=labels).sum(), 3)
            self.assertEqual(cells(run.support(labels, (0, 0), to=base)), [[0, 0], [0, 1]])
        asks = [call for call in sent.call_args_list if call.args[0].startswith(b'{"ask"')]
        self.assertEqual(len(asks), 2 * (2 * 16 + 1))


class Table(unittest.TestCase):
    def setUp(self) -> None:
        self.session = subzero.Session()
        self.addCleanup(self.session.close)

    def test_one_row_a_region(self) -> None:
        image = np.zeros((6, 7), dtype=int)
        image[0, 0:2] = image[2:4, 3] = image[4, 3] = image[5, 6] = 9
        base = self.session.array("image", image)
        flow = self.session.flow("f")
        labels = flow.regions(flow.mul_k(flow.input(0), 2), t=10)
        run = self.session.start(flow, [base])
        bad = np.zeros(image.shape, dtype=bool)
        bad[3, 2:4] = bad[0, 2] = bad[0, 4] = True
        table = subzero.suspects_table(run, labels, bad, base)
        self.assertEqual(
            table.dtype.names, ("label", "row", "column", "cells", "raw", "bad_behind", "bad_could_change", "border")
        )
        self.assertEqual(
            table.tolist(),
            [(1, 0, 0, 2, 2, 0, 1, True), (18, 2, 3, 3, 3, 1, 2, False), (42, 5, 6, 1, 1, 0, 0, True)],
        )
        self.assertEqual(table["label"][table["bad_could_change"] > 0].tolist(), [1, 18])

    def test_labels_of_the_base_array_itself_and_of_layers(self) -> None:
        base = self.session.array("image", [[[9, 0, 0], [0, 0, 0], [0, 0, 0]], [[0, 0, 0], [0, 9, 0], [0, 0, 0]]])
        flow = self.session.flow("f")
        labels = flow.regions(flow.input(0), t=5)
        run = self.session.start(flow, [base])
        table = subzero.suspects_table(run, labels, [(0, 1, 0), (1, 0, 0)], base)
        self.assertEqual((table.dtype.names or ())[:4], ("label", "layer", "row", "column"))
        self.assertEqual(table.tolist(), [(1, 0, 0, 0, 1, 1, 0, 1, True), (14, 1, 1, 1, 1, 1, 0, 0, False)])

    def test_it_says_what_the_asks_say(self) -> None:
        draw = np.random.RandomState(3)
        image: Any = np.ma.MaskedArray(draw.randint(0, 100, (20, 30)), draw.rand(20, 30) < 0.02)
        base = self.session.array("image", image)
        flow = self.session.flow("f")
        first = flow.regions(flow.clean(flow.input(0), t=95), t=55)
        labels = flow.regions(flow.add(first, flow.convolve(flow.input(0), [[0, 0, 1]])), t=90)
        run = self.session.start(flow, [base])
        bad = draw.rand(20, 30) < 0.02
        table = subzero.suspects_table(run, labels, bad, base)
        found = run.values(labels).filled(0)
        self.assertEqual(table["label"].tolist(), np.unique(found[found > 0]).tolist())
        self.assertGreater(len(table), 20)
        suspects = run.suspects(bad, base, to=labels)
        for row in table:
            mask = found == row["label"]
            behind, fixed = run.back(labels, mask, to=base), run.support(labels, mask, to=base)
            self.assertEqual(
                [row[name] for name in ("cells", "raw", "bad_behind", "bad_could_change")],
                [mask.sum(), behind.sum(), (behind & bad).sum(), (fixed & bad).sum()],
            )
            self.assertEqual([row["row"], row["column"]], cells(mask)[0])
            self.assertEqual(suspects[mask].any(), row["bad_could_change"] > 0)
            border = mask[0].any() or mask[-1].any() or mask[:, 0].any() or mask[:, -1].any()
            self.assertEqual(row["border"], border)

    def test_random_flows(self) -> None:
        """Regions that are asked about together have the rows that each alone would have."""
        rows = 0
        for seed in range(12):
            draw = np.random.RandomState(400 + seed)
            shape = [(24, 30), (3, 17, 12), (1, 40), (9, 1)][seed % 4]
            sky = self.session.array("image", draw.randint(-20, 60, shape))
            table = self.session.array("table", draw.randint(-20, 60, (1, 20)))
            state = draw.get_state()
            first, flow = (self.session.flow(f"f{seed}{part}", inputs=2) for part in "ab")
            for one in (first, flow):
                draw.set_state(state)
                draw_flow(one, [shape, (1, 20)], draw)
            values = [self.session.start(first, [sky, table]).values(node).compressed() for node in first.nodes]
            most = max(range(len(values)), key=lambda number: len(np.unique(values[number])))
            labels = flow.regions(flow.nodes[most], t=int(np.percentile(values[most], 70)) if values[most].size else 0)
            run = self.session.start(flow, [sky, table])
            found = run.values(labels).filled(0)
            for base in (sky, table):
                bad = draw.rand(*base.shape) < 0.1
                with self.subTest(seed=seed, base=base):
                    try:
                        run.paths(labels, to=base, limit=1_000_000)
                    except subzero.BadInput:
                        with self.assertRaisesRegex(subzero.BadInput, "no path leads from"):
                            subzero.suspects_table(run, labels, bad, base)
                        continue
                    told = subzero.suspects_table(run, labels, bad, base)
                    self.assertEqual(told["label"].tolist(), np.unique(found[found > 0]).tolist())
                    for row in told[:: 1 + len(told) // 40]:
                        mask = found == row["label"]
                        behind, fixed = run.back(labels, mask, to=base), run.support(labels, mask, to=base)
                        self.assertEqual(
                            [row[name] for name in ("cells", "raw", "bad_behind", "bad_could_change")],
                            [mask.sum(), behind.sum(), (behind & bad).sum(), (fixed & bad).sum()],
                        )
                        rows += 1
        self.assertGreater(rows, 200)

    def test_stars_that_stand_apart_are_asked_about_together(self) -> None:
        image = np.zeros((128, 128), dtype=int)
        image[4::8, 4::8] = 90  # 256 stars
        base = self.session.array("image", image)
        flow = self.session.flow("f")
        labels = flow.regions(flow.convolve(flow.clean(flow.input(0), t=100), np.ones((3, 3), dtype=int)), t=50)
        run = self.session.start(flow, [base])
        with mock.patch.object(self.session, "say", side_effect=self.session.say) as sent:
            table = subzero.suspects_table(run, labels, [(4, 4), (12, 14)], base)
        self.assertEqual(len(table), 256)
        self.assertEqual(table["raw"].tolist(), [25] * 256)
        self.assertEqual(np.flatnonzero(table["bad_behind"]).tolist(), [0, 17])
        asks = [call for call in sent.call_args_list if call.args[0].startswith(b'{"ask"')]
        self.assertLessEqual(len(asks), 8)  # what can change a star lies within 7 by 7 cells, and stars 8 cells off

    def test_no_region_is_no_row(self) -> None:
        base = self.session.array("image", [[0, 0]])
        flow = self.session.flow("f")
        labels = flow.regions(flow.input(0), t=5)
        run = self.session.start(flow, [base])
        self.assertEqual(len(subzero.suspects_table(run, labels, [], base)), 0)
        with self.assertRaisesRegex(subzero.BadInput, "no node of regions"):
            subzero.suspects_table(run, flow.input(0), [], base)


def supported(op: str, p: dict[str, Any], grids: list[reference.Grid], number: int, mask: NDArray[Any]) -> NDArray[Any]:
    """The cells of an input that support cells of the output, by scipy."""
    behind = reference.back(op, p, grids, number, mask)
    if op == "regions":
        behind = behind | ndimage.binary_dilation(behind & reference.high(grids[0], p["t"]), reference.CROSS)
    return behind


class ByTheDefinition(unittest.TestCase):
    """Flows drawn at random: the sets are those of the definition, told a second time node by node with scipy."""

    def check(self, seed: int) -> None:
        draw = np.random.RandomState(seed)
        shape = tuple(int(size) for size in draw.randint(1, 9, 2))
        shape = shape if draw.rand() < 0.5 else (int(draw.randint(2, 5)), *shape)
        image: Any = np.ma.MaskedArray(draw.randint(-30, 60, shape), draw.rand(*shape) < 0.1)
        table: Any = np.ma.MaskedArray(draw.randint(-30, 60, (1, 20)), draw.rand(1, 20) < 0.1)
        with subzero.Session() as session:
            held = [session.array("image", image), session.array("table", table)]
            flow = session.flow("f", inputs=2)
            draw_flow(flow, [shape, (1, 20)], draw)
            run = session.start(flow, held)
            grids: dict[Any, reference.Grid] = {
                place: reference.grid_of(given) for place, given in zip(flow.inputs, (image, table))
            }
            for node in flow.nodes:
                grids[node] = reference.evaluate(node.op, node.parameters, [grids[source] for source in node.sources])
            for node in flow.nodes:
                asked = draw.rand(*run.shape(node)) < 0.2
                masks = self.back(flow, grids, node, asked)
                for place in flow.inputs:
                    if place in masks:
                        got = run.support(node, asked, to=place)
                        self.assertTrue(np.array_equal(got, masks[place].reshape(got.shape)), (node, place))
                        hit = draw.rand(*run.shape(place)) < 0.1
                        meets = (run.suspects(hit, place, to=node) & asked).any()
                        self.assertEqual(meets, (got & hit).any(), (node, place))

    def back(
        self, flow: subzero.Flow, grids: dict[Any, reference.Grid], node: subzero.Node, asked: NDArray[Any]
    ) -> dict[Any, NDArray[Any]]:
        masks: dict[Any, NDArray[Any]] = {node: asked.reshape(grids[node][1].shape)}
        for at in reversed(flow.nodes):
            if at in masks:
                for number, source in enumerate(at.sources):
                    taken = [grids[place] for place in at.sources]
                    mask = supported(at.op, at.parameters, taken, number, masks[at])
                    masks[source] = masks[source] | mask if source in masks else mask
        return masks

    def test_random_flows(self) -> None:
        for seed in range(1000, 1060):
            with self.subTest(seed=seed):
                self.check(seed)


class ByForce(unittest.TestCase):
    """Cells are replaced and the flow is run again, a version each, in one session."""

    def values(self, session: subzero.Session, run: subzero.Run) -> list[Any]:
        with session.pipeline() as ahead:
            answers = [ahead.values(run, node) for node in run.flow.nodes]
        return [answer.result() for answer in answers]

    def replaced(self, image: Any, bad: NDArray[Any], draw: np.random.RandomState, times: int) -> Iterator[Any]:
        """The image with other values in the bad cells: empty, low, high, huge, and such as it has itself."""
        kinds = [lambda n: draw.randint(-30, 60, n), lambda n: np.full(n, -1000), lambda n: np.full(n, 1000)]
        kinds += [lambda n: draw.choice([-(2**62), 2**62, 2**63 - 1, -(2**63)], n)]
        count = int(bad.sum())
        for turn in range(times):
            new = image.copy()
            mixed = np.choose(draw.randint(0, 4, count), [kind(count) for kind in kinds])
            new[bad] = mixed if turn % 3 == 0 else kinds[turn % 4](count)
            holes = np.zeros(count, dtype=bool) if turn % 5 else draw.rand(count) < (1 if turn % 2 else 0.5)
            new[bad] = np.ma.MaskedArray(new[bad].filled(0), holes)
            yield new

    def check(self, seed: int) -> tuple[int, int, int]:
        """How many replacements were tried, how many cells were suspects, and how many of them differed once."""
        draw = np.random.RandomState(seed)
        shape = tuple(int(size) for size in draw.randint(2, 9, 2))
        shape = shape if draw.rand() < 0.5 else (int(draw.randint(2, 4)), *shape)
        image: Any = np.ma.MaskedArray(draw.randint(-30, 60, shape), draw.rand(*shape) < 0.1)
        table: Any = np.ma.MaskedArray(draw.randint(-30, 60, (1, 20)), draw.rand(1, 20) < 0.1)
        tried = told = differing = 0
        with subzero.Session() as session:
            held = [session.array("image", image), session.array("table", table)]
            flow = session.flow("f", inputs=2)
            draw_flow(flow, [shape, (1, 20)], draw)
            run = session.start(flow, held)
            old = self.values(session, run)
            for which, given in ((0, image), (0, image), (1, table)):
                base = held[which]
                bad = draw.rand(*given.shape) < draw.choice([0.03, 0.1, 0.3])
                bad[tuple(draw.randint(0, size) for size in given.shape)] = True
                nodes = [node for node in flow.nodes if self.leads(node, which)]
                suspects = {node: run.suspects(bad, base, to=node) for node in nodes}
                seen = {node: np.zeros(run.shape(node), dtype=bool) for node in nodes}
                for new in self.replaced(given, bad, draw, 20):
                    arrays = list(held)
                    arrays[which] = session.array(base.name, new)
                    tried += 1
                    again = self.values(session, session.start(flow, arrays))
                    for node in flow.nodes:
                        changed = differs(again[node.number], old[node.number])
                        if node in seen:
                            seen[node] |= changed
                        self.assertFalse(
                            (changed & ~suspects[node]).any() if node in seen else changed.any(), (node, new)
                        )
                told += sum(int(mask.sum()) for mask in suspects.values())
                differing += sum(int(mask.sum()) for mask in seen.values())
        return tried, told, differing

    def leads(self, place: Any, number: int) -> bool:
        """Whether a path leads from the base array of this number to the place."""
        if isinstance(place, subzero.Input):
            return place.number == number
        return any(self.leads(source, number) for source in place.sources)

    def test_no_cell_outside_differs_whatever_the_bad_cells_hold(self) -> None:
        tried, told, differing = np.sum([self.check(seed) for seed in range(2000, 2040)], axis=0)
        self.assertEqual(tried, 2400)
        share = differing / told
        print(f"suspects: {tried} replacements, {told} cells told, {share:.0%} of them differed", file=sys.stderr)
        self.assertGreater(share, 0.5)

    def test_a_dead_pixel_at_each_place_round_a_star(self) -> None:
        """Of three stars: each pixel up to 7 rows and columns off is dead in turn. Asked from the image with the dead
        pixel, the suspects have every cell that is another one where the pixel is sound, and cells of the star wherever
        the dead pixel changed it; forward lineage has none of them.
        """
        seen = demo.field()
        placed = behind = changing = told = 0
        for row, col in ((44, 22), (30, 10), (38, 52)):
            part = seen.image[row - 10 : row + 11, col - 10 : col + 11].copy()
            with subzero.Session() as session:
                flow = session.flow("f")
                smooth = flow.convolve(flow.clean(flow.input(0), t=demo.HOT), demo.KERNEL)
                labels = flow.regions(smooth, t=demo.BRIGHT)
                sky = session.array("sky", part)
                run = session.start(flow, [sky])
                sound = run.values(labels)
                star = sound.filled(0) == sound[10, 10]
                self.assertGreater(sound[10, 10], 0)
                behind += int(run.back(labels, star, to=sky).sum())
                for at in np.ndindex(15, 15):
                    pixel = (at[0] + 3, at[1] + 3)
                    image = part.copy()
                    image[pixel] = np.ma.masked
                    sky = session.array("sky", image)
                    run = session.start(flow, [sky])
                    found = run.values(labels)
                    changed, high = differs(found, sound), found.filled(0) > 0
                    suspects = run.suspects(pixel, sky, to=labels)
                    self.assertFalse((changed & ~suspects).any(), pixel)
                    placed += 1
                    if (changed & star).any():
                        changing += 1
                        self.assertTrue((suspects & high).any(), pixel)
                        told += bool((run.forward(sky, pixel, to=labels) & high).any())
        print(
            f"suspects: a dead pixel at {placed} places changed its star in {changing}; the suspects have the star in "
            f"all of these, forward lineage in {told}",
            file=sys.stderr,
        )
        self.assertEqual((changing, told), (behind, 0))
        self.assertGreater(behind, 200)


if __name__ == "__main__":
    unittest.main()
