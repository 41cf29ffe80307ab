"""Refreshes: a run on an array in which cells were set is what a new start on that array is, and what was computed
again is told; what may be said of cells, and what is refused.
"""

from __future__ import annotations

import tempfile
import unittest
from pathlib import Path
from typing import Any

import numpy as np

import subzero
from drawn import draw_flow
from subzero import numerals
from subzero.changes import differs

SQUARE: Any = np.ma.MaskedArray([[1, 9, 0], [9, 9, 5]], [[False, False, True], [False, False, False]])


def cells(mask: Any) -> list[list[int]]:
    """The cells of a mask, in row-major order."""
    found: list[list[int]] = np.argwhere(mask).tolist()
    return found


class WithSession(unittest.TestCase):
    def setUp(self) -> None:
        self.session = subzero.Session()
        self.addCleanup(self.session.close)

    def started(self, image: Any = SQUARE, t: int = 5) -> tuple[subzero.Run, subzero.BaseArray, subzero.Node]:
        """An awaited run that labels the regions of an image."""
        base = self.session.array("image", image)
        flow = self.session.flow(f"regions_{base.version}")
        labels = flow.regions(flow.clean(flow.input(0), t=100), t=t, name="labels")
        run = self.session.start(flow, base)
        run.wait()
        return run, base, labels


class ByHand(WithSession):
    def test_what_a_refresh_gives(self) -> None:
        run, base, labels = self.started([[9, 0, 9]])
        change = run.refresh(base, {(0, 1): 8})
        self.assertEqual((change.old, change.cells, change.input), (run, 4, run.flow.input(0)))
        self.assertEqual(repr(change), "<Change of image 1 in run 1: 1 cell set, 4 computed again, in run 2>")
        self.assertEqual(change.run.values(labels).tolist(), [[1, 1, 1]])
        self.assertEqual(run.values(labels).tolist(), [[1, 0, 3]])
        self.assertEqual(cells(change.changed(labels)), [[0, 1], [0, 2]])
        self.assertEqual(cells(change.reached(labels)), [[0, 0], [0, 1], [0, 2]])
        self.assertEqual(cells(change.reached(run.flow.nodes[0])), [[0, 1]])
        array: Any
        for array in (base, change.array, "image", run.flow.input(0)):
            self.assertEqual((cells(change.reached(array)), cells(change.changed(array))), ([[0, 1]], [[0, 1]]))
        self.assertIs(self.session.arrays["image"], change.array)
        self.assertIs(self.session.runs[2], change.run)
        self.assertEqual((change.run.base, self.session.arrays["image", 1]), ((change.array,), base))
        self.assertEqual(change.array.values.tolist(), [[9, 8, 9]])
        self.assertEqual(base.values.tolist(), [[9, 0, 9]])
        with self.assertRaises(ValueError):
            change.array.values[0, 0] = 1
        with self.assertRaisesRegex(subzero.Refused, "refused 19: the run was not waited for"):
            change.run.explain(labels, (0, 0), to="image")
        change.run.wait()
        again = change.run.refresh(change.array, {(0, 1): 0})
        self.assertEqual((again.run.values(labels).tolist(), again.array.version), ([[1, 0, 3]], 3))

    def test_a_cell_that_holds_what_it_held(self) -> None:
        run, base, labels = self.started([[9, 0, 9]])
        change = run.refresh(base, {(0, 1): 0})
        self.assertEqual((change.cells, cells(change.reached(labels))), (2, [[0, 1]]))
        self.assertFalse(change.changed(labels).any() or change.changed(base).any())

    def test_strategies_set_since_play_no_part(self) -> None:
        run, base, labels = self.started()
        run.flow.keep(labels, "small")
        change = run.refresh(base, {(0, 2): 7})
        change.run.wait()
        self.assertEqual(change.run.explain(labels, (0, 1), to="image")[0].steps[0], (labels, "blackbox"))
        self.assertEqual(change.run.merge().wait(), {})

    def test_no_cell_at_all(self) -> None:
        run, base, labels = self.started()
        nothing: list[Any] = [{}, (np.zeros((2, 3), dtype=bool), 7), ([], 7), ([], []), (SQUARE.mask & False, SQUARE)]
        for number, told in enumerate([*nothing, SQUARE, base.values], 2):
            change = run.refresh(base, told)
            self.assertEqual((change.cells, change.array.version, change.run.number), (0, number, number))
            self.assertFalse(change.reached(labels).any() or change.changed(labels).any() or change.reached(base).any())
            self.assertEqual(change.array.values.tolist(), SQUARE.tolist())

    def test_the_ways_to_say_cells(self) -> None:
        run, base, _ = self.started()
        mask = np.array([[False, True, False], [False, False, True]])
        whole = SQUARE.copy()
        whole[0, 1], whole[1, 2] = 4, np.ma.masked
        new = [[1, 4, None], [9, 9, None]]
        ways: list[Any] = [
            {(0, 1): 4, (1, 2): None},
            {(np.int64(0), 1): np.int32(4), (1, 2): np.ma.masked},
            (mask, [4, None]),
            (mask, np.ma.MaskedArray([4, 0], [False, True])),
            (mask, whole),
            ([(1, 2), (0, 1)], [None, 4]),
            (np.where(mask), [4, None]),
            ([(0, 1), (1, 2), (0, 1)], [3, None, 4]),
            whole,
        ]
        for told in ways:
            self.assertEqual(run.refresh(base, told).array.values.tolist(), new, told)
        self.assertEqual(run.refresh("image", (mask, 7)).array.values.tolist(), [[1, 7, None], [9, 9, 7]])
        self.assertEqual(run.refresh("image", (mask, None)).array.values.tolist(), [[1, None, None], [9, 9, None]])
        self.assertEqual(run.refresh(base, (np.s_[1, :], 2)).array.values.tolist(), [[1, 9, None], [2, 2, 2]])
        self.assertEqual(run.refresh(base, ((0, 2), 3)).array.values.tolist(), [[1, 9, 3], [9, 9, 5]])
        filled = run.refresh(base, SQUARE.filled(0))
        self.assertEqual((cells(filled.reached(base)), filled.array.values.tolist()[0]), ([[0, 2]], [1, 9, 0]))

    def test_floats_and_units_are_as_for_an_array(self) -> None:
        base = self.session.array("f", [[0.25, 1.5]], scale=100)
        flow = self.session.flow("f")
        flow.neg(flow.input(0))
        run = self.session.start(flow, base)
        run.wait()
        change = run.refresh(base, {(0, 1): 2.5}, scale=100)
        self.assertEqual((change.array.values.tolist(), change.array.scale), ([[25, 250]], 100))
        self.assertEqual(run.refresh(base, {(0, 1): 3}).array.values.tolist(), [[25, 3]])
        with self.assertRaisesRegex(subzero.BadInput, "the values are floats: say by scale="):
            run.refresh(base, {(0, 1): 2.5})
        with self.assertRaisesRegex(subzero.BadInput, "NaN or infinite"):
            run.refresh(base, (np.array([[True, True]]), np.array([[np.nan, 1.0]])), scale=10)

    def test_units_must_be_the_array_s(self) -> None:
        try:
            from astropy import units
        except ImportError:
            self.skipTest("astropy is not here")
        base = self.session.array("a", [[1, 2]] * units.adu, scale=1)
        flow = self.session.flow("f")
        flow.neg(flow.input(0))
        run = self.session.start(flow, base)
        run.wait()
        change = run.refresh(base, np.array([[1, 7]]) * units.adu, scale=1)
        self.assertEqual((change.array.unit, change.array.values.tolist()), (units.adu, [[1, 7]]))
        self.assertEqual(run.refresh(base, {(0, 0): 3}).array.unit, units.adu)
        with self.assertRaisesRegex(subzero.BadInput, "the new values are in s, and array a 1 is in adu"):
            run.refresh(base, np.array([[1.0, 7.0]]) * units.s, scale=1)

    def test_layers(self) -> None:
        image: Any = np.arange(12).reshape(2, 2, 3)
        run, base, labels = self.started(image)
        change = run.refresh(base, {(1, 0, 2): 0, (0, 1, 1): None})
        new = image.tolist()
        new[1][0][2], new[0][1][1] = 0, None
        self.assertEqual(change.array.values.tolist(), new)
        self.assertEqual(cells(change.reached(base)), [[0, 1, 1], [1, 0, 2]])
        self.assertEqual(sum(int(change.reached(node).sum()) for node in run.flow.nodes), change.cells)
        self.assertEqual(run.refresh(base, (np.s_[:, 0, 0], 1)).array.values[:, 0, 0].tolist(), [1, 1])
        with self.assertRaisesRegex(subzero.BadInput, r"\(0, 1\) is no cell of .* \(layer, row, column\)"):
            run.refresh(base, {(0, 1): 5})
        with self.assertRaisesRegex(subzero.BadInput, "say of which layer"):
            run.refresh(base, ([(0, 1)], 5))
        one, base, _ = self.started([[[1, 9]]])
        self.assertEqual(one.refresh(base, {(0, 0, 1): 3}).array.values.tolist(), [[[1, 3]]])

    def test_numbers_of_64_bits(self) -> None:
        run, base, _ = self.started([[1, 2, 3, 4]])
        large = [2**63 - 1, -(2**63), 2**32, -10000]
        change = run.refresh(base, (np.ones((1, 4), dtype=bool), large))
        self.assertEqual(change.array.values.tolist(), [large])
        self.assertEqual(self.session.start(run.flow, change.array).values("image").tolist(), [large])
        told = self.session.flow("shown")
        same = told.mul_k(told.input(0), 1)
        self.assertEqual(self.session.start(told, change.array).values(same).tolist(), [large])

    def test_the_text_of_cells_and_values(self) -> None:
        where, values = np.array([[0, 1], [20000, 3], [7, 12345]]), np.array([-7, 0, -(2**63)])
        told = numerals.set_text(where, values, np.array([False, True, False]))
        self.assertEqual(told, b"[[0,1,-7],[20000,3,null],[7,12345,-9223372036854775808]]")
        one = numerals.set_text(np.array([[1, 0, 2]]), np.array([10000]), np.array([False]))
        self.assertEqual(one, b"[[1,0,2,10000]]")
        none = np.zeros(0, dtype=bool)
        self.assertEqual(numerals.set_text(np.zeros((0, 2), dtype=np.int64), np.zeros(0, dtype=np.int64), none), b"[]")


class Taken(WithSession):
    """What is named, where an array stands in several places, and what is refused."""

    def test_an_array_that_is_taken_twice(self) -> None:
        base = self.session.array("image", [[9, 0, 9, 0]])
        flow = self.session.flow("two", inputs=2)
        labels = flow.regions(flow.input(0), t=5)
        last = flow.add(labels, flow.input(1))
        run = self.session.start(flow, [base, base])
        run.wait()
        with self.assertRaisesRegex(subzero.BadInput, r"array image 1 under the inputs 0 and 1, .*flow.input\(0\)"):
            run.refresh(base, {(0, 1): 8})
        change = run.refresh(flow.input(1), {(0, 1): 8})
        self.assertEqual([str(one) for one in change.run.base], ["array image 1", "array image 2"])
        self.assertEqual((change.cells, cells(change.reached(last)), cells(change.reached(labels))), (1, [[0, 1]], []))
        self.assertFalse(change.changed(labels).any() or change.changed(flow.input(0)).any())
        array: Any
        for array in (base, change.array, flow.input(1), "image"):
            self.assertEqual((cells(change.changed(array)), cells(change.reached(array))), ([[0, 1]], [[0, 1]]))
        first = run.refresh(flow.input(0), {(0, 1): 8})
        self.assertEqual([str(one) for one in first.run.base], ["array image 3", "array image 1"])
        self.assertEqual((first.cells, first.run.values(last).tolist()), (6, [[10, 1, 10, 0]]))
        with self.assertRaisesRegex(subzero.BadInput, "several versions of image"):
            first.run.refresh("image", {(0, 1): 8})

    def test_what_is_no_base_array_of_the_run(self) -> None:
        run, base, labels = self.started()
        other = self.session.array("other", [[1]])
        array: Any
        for array, why in (
            (labels, "node 1 labels, regions .* is no base array: cells are set in what a run was started on"),
            ("labels", "is no base array"),
            (other, "is no array that the run was started on"),
            ("moon", "the run has no array named 'moon'"),
            (self.session.flow("g").input(0), "is of another flow"),
        ):
            with self.assertRaisesRegex(subzero.BadInput, why):
                run.refresh(array, {(0, 0): 1})
        change = run.refresh(base, {(0, 0): 1})
        with self.assertRaisesRegex(subzero.BadInput, "is no array that the run was started on"):
            change.reached(other)
        self.assertEqual(len(self.session.arrays), 3)

    def test_what_is_no_way_to_say_cells(self) -> None:
        run, base, _ = self.started()
        mask = np.ones((2, 3), dtype=bool)
        told: Any
        for told, why in (
            ({(2, 0): 1}, r"the cell \(2, 0\) is out of range of an array of shape \(2, 3\)"),
            ({(0, -1): 1}, "out of range"),
            ({(0, 2**32): 1}, r"the cell \(0, 4294967296\) is out of range"),
            ({3: 1}, r"3 is no cell of array image 1, whose cells are \(row, column\)"),
            ({(0, 1, 2): 1}, "is no cell of array image 1"),
            ({(0, 1.0): 1}, "is no cell of array image 1"),
            ({(False, True): 1}, "is no cell of array image 1"),
            ({(0, 1): 2**63}, "9223372036854775808 is above 9223372036854775807"),
            ({(0, 1): -(2**63) - 1}, "a value is no whole number of 64 bits"),
            ({(0, 1): "x"}, "values"),
            ({(0, 1): True}, "True and False"),
            ((mask, [1, 2]), r"the new values have the shape \(2,\): say one for all cells, .* 6, or .* \(2, 3\)"),
            ((mask, [[1, 2]]), r"the new values have the shape \(1, 2\)"),
            ((mask[:1], 1), r"the mask has the shape \(1, 3\), and the array \(2, 3\)"),
            ((mask, 1, 2), "a tuple of 3 is no pair"),
            (mask, "a mask alone does not say what its cells are to hold"),
            (np.zeros((3, 3), dtype=int), r"the new values have the shape \(3, 3\), and array image 1 has \(2, 3\)"),
            ([(0, 1)], "does not say which cells are to hold what: a mapping does"),
            (None, "None does not say which cells"),
            (7, "7 does not say which cells"),
            ((7.5, 1), "cells are a boolean mask"),
        ):
            with self.assertRaisesRegex(subzero.BadInput, why):
                run.refresh(base, told)
        self.assertEqual((len(self.session.arrays), len(self.session.runs)), (1, 1))

    def test_refusals(self) -> None:
        base = self.session.array("image", [[1, 2]])
        flow = self.session.flow("f")
        flow.neg(flow.input(0))
        run = self.session.start(flow, base)
        with self.assertRaisesRegex(subzero.Refused, "refused 22: the run was not waited for, .*: call") as caught:
            run.refresh(base, {(0, 0): 1})
        self.assertEqual(caught.exception.number, 22)
        run.wait()
        for line, number, rule in (
            (b'{"refresh":2,"input":0,"set":[]}\n', 15, "no such version"),
            (b'{"refresh":1,"input":0,"set":[[0,2,1]]}\n', 17, "a cell is out of range"),
            (b'{"refresh":1,"input":1,"set":[]}\n', 23, "the version has no such input"),
            (b'{"merge":9}\n', 15, "no such version"),
        ):
            with self.assertRaisesRegex(subzero.Refused, f"refused {number}: .*{rule}"):
                self.session.say(line).wait("refreshing")
        self.assertEqual(len(self.session.arrays), 1)
        self.assertEqual(run.refresh(base, {(0, 0): 5}).run.number, 2)

    def test_more_than_a_session_holds(self) -> None:
        base = self.session.array("image", np.zeros((1024, 1024), dtype=int))
        flow = self.session.flow("f")
        flow.neg(flow.input(0))
        run = self.session.start(flow, base)
        run.wait()
        self.session.array("more", np.zeros((1024, 1024), dtype=int))
        with self.assertRaisesRegex(subzero.Refused, "refused 14: the new array and .* have 2,097,152 cells"):
            run.refresh(base, {(0, 0): 1})
        self.session.array("more", np.zeros((1024, 1000), dtype=int))
        with self.assertRaisesRegex(subzero.Refused, "refused 7: the new array has 1,048,576 cells, and 24,576 of"):
            run.refresh(base, {(0, 0): 1})
        self.assertEqual(len(self.session.runs), 1)


class Drawn(WithSession):
    def test_a_refreshed_run_is_a_new_start_on_the_changed_array(self) -> None:
        """Random flows: values, lineage both ways, and what was computed again."""
        draw = np.random.RandomState(11)
        counted = 0
        for number in range(16):
            shape: tuple[int, ...] = (8, 9) if number % 3 else (2, 5, 6)
            image: Any = np.ma.MaskedArray(draw.randint(-30, 70, shape), draw.rand(*shape) < 0.1)
            base = self.session.array("image", image)
            table = self.session.array("table", draw.randint(-9, 9, (1, 40)))
            flow = self.session.flow(f"drawn_{number}", inputs=2)
            draw_flow(flow, [shape, (1, 40)], draw)
            run = self.session.start(flow, [base, table])
            run.wait()
            which, old = ((base, image), (table, table.values))[number % 4 == 3]
            mask = draw.rand(*old.shape) < draw.choice([0.1, 0.5])
            new: Any = np.ma.MaskedArray(draw.randint(-30, 70, old.shape), draw.rand(*old.shape) < 0.2)
            change = run.refresh(which, (mask, new))
            values = old.copy()
            values[mask] = new[mask]
            self.assertEqual(change.array.values.tolist(), values.tolist())
            fresh = self.session.array("fresh", values)
            started = self.session.start(flow, [fresh if one is which else one for one in run.base])
            reached = 0
            for node in flow.nodes:
                self.assertEqual(change.run.values(node).tolist(), started.values(node).tolist())
                changed, computed = change.changed(node), change.reached(node)
                self.assertTrue((changed == differs(run.values(node), started.values(node))).all())
                self.assertFalse((changed & ~computed).any())
                reached += int(computed.sum())
            self.assertEqual(reached, change.cells)
            counted += reached
            self.same_lineage(change, started, which, fresh, draw)
        self.assertGreater(counted, 400)

    def same_lineage(
        self, change: subzero.Change, started: subzero.Run, which: subzero.BaseArray, fresh: Any, draw: Any
    ) -> None:
        """Asks of the refreshed run are answered as those of the started one, before and after it is awaited."""
        last = started.flow.nodes[-1]
        hit, some = draw.rand(*which.shape) < 0.2, draw.rand(*started.shape(last)) < 0.3
        for _ in range(2):
            for mine, other in zip(change.run.base, started.base):
                try:
                    found = started.back(last, some, to=other)
                except subzero.BadInput:
                    continue
                self.assertTrue((change.run.back(last, some, to=mine) == found).all())
            try:
                touched = started.forward(fresh, hit, to=last)
            except subzero.BadInput:
                pass
            else:
                self.assertTrue((change.run.forward(change.array, hit, to=last) == touched).all())
            change.run.wait()
            started.wait()


class Held(unittest.TestCase):
    """What a session, and a log that is opened again, hold of a refresh."""

    def setUp(self) -> None:
        folder = tempfile.TemporaryDirectory()
        self.addCleanup(folder.cleanup)
        self.folder = Path(folder.name)

    def test_in_a_log_opened_again(self) -> None:
        log = self.folder / "survey.log"
        image: Any = np.ma.MaskedArray(np.arange(24).reshape(2, 3, 4), np.arange(24).reshape(2, 3, 4) % 7 == 3)
        for base in (SQUARE, image):
            with subzero.Session(log=log) as session:
                sky = session.array("sky", base)
                flow = session.flow("stars", replace=True)
                flow.regions(flow.clean(flow.input(0), t=100), t=5, name="labels", keep="both")
                run = session.start(flow, sky)
                run.wait()
                first = tuple([0] * base.ndim)
                change = run.refresh(sky, {first: 300})
                values = change.run.values("labels").tolist()
                flow.keep_all("small")
                later = change.run
                later.wait()
                lost = run.refresh(sky, {first: None})  # which is not awaited: the log has its array alone
                arrays, kinds = len(session.arrays), later.merge().wait()
                numbers = (run.number, later.number, lost.run.number)
            with subzero.Session(log=log) as session:
                self.assertEqual(len(session.arrays), arrays)
                made = session.arrays["sky", change.array.version]
                self.assertEqual(made.values.tolist(), change.array.values.tolist())
                self.assertIs(session.arrays["sky"].values[first], np.ma.masked)
                self.assertNotIn(numbers[2], session.runs)
                again = session.runs[numbers[1]]
                self.assertEqual(again.base, (made,))
                self.assertEqual(again.values("labels").tolist(), values)
                self.assertEqual(again.explain("labels", first, to="sky")[0].steps[0][1], "full_one_b")
                found = again.merge().wait()
                told = [(node.number, name, count) for (node, name), count in found.items()]
                self.assertEqual(told, [(node.number, name, count) for (node, name), count in kinds.items()])
                change = again.refresh("sky", {first: 1})
                self.assertEqual(change.array.version, arrays + 1)
                self.assertEqual(change.run.values("labels").shape, base.shape)
            self.assertTrue(subzero.check(log))

    def test_of_a_line_that_is_said(self) -> None:
        with subzero.Session() as session:
            sky = session.array("sky", SQUARE)
            flow = session.flow("stars")
            labels = flow.regions(flow.input(0), t=5, name="labels", keep="both")
            session.start(flow, sky).wait()
            reply = session.say(b'{"refresh":1,"input":0,"set":[[0,0,7],[0,1,3],[1,2,null],[0,1,-4]]}\n')
            self.assertEqual(session.arrays["sky"].values.tolist(), [[7, -4, None], [9, 9, None]])
            self.assertEqual(reply.wait("refreshing")[:13], b"refreshed 2 c")
            run = session.runs[2]
            self.assertEqual((run.base, run.flow), ((session.arrays["sky", 2],), flow))
            self.assertEqual(run.values(labels).tolist(), [[1, 0, 0], [1, 1, 0]])
            run.wait()
            self.assertEqual(list(run.merge().wait()), [(labels, "full_one_b"), (labels, "full_one_f")])
            self.assertEqual(session.room.arrays, 2)

    def test_refreshes_sent_ahead(self) -> None:
        with subzero.Session() as session:
            sky = session.array("sky", SQUARE)
            flow = session.flow("stars")
            labels = flow.regions(flow.input(0), t=5)
            run = session.start(flow, sky)
            with session.pipeline() as ahead:
                early = ahead.refresh(run, sky, {(0, 0): 9})
                ahead.wait(run)
                changes = [ahead.refresh(run, sky, {(0, column): 9}) for column in range(3)]
                values = ahead.values(run, labels)
            with self.assertRaises(subzero.Refused) as caught:
                early.result()
            self.assertEqual(caught.exception.number, 22)
            for column, later in reversed(list(enumerate(changes))):
                change = later.result()
                self.assertEqual((change.array.version, change.run.number), (column + 2, column + 2))
                self.assertEqual(change.array.values[0, column], 9)
                self.assertEqual(cells(change.reached(sky)), [[0, column]])
            self.assertEqual(values.result().tolist(), run.values(labels).tolist())

    def test_a_recorded_session_is_replayed_with_its_refreshes(self) -> None:
        from subzero.view.replay import replay

        record = self.folder / "x.session"
        with subzero.Session() as session:
            session.record(record)
            sky = session.array("sky", SQUARE)
            flow = session.flow("stars")
            flow.regions(flow.input(0), t=5, name="labels")
            run = session.start(flow, sky)
            run.wait()
            run.merge()
            change = run.refresh(sky, {(0, 0): 9})
            values = change.run.values("labels").tolist()
        with subzero.Session() as session:
            replay(session, record)
            self.assertEqual((len(session.arrays), list(session.runs)), (2, [1, 2]))
            self.assertEqual(session.runs[2].values("labels").tolist(), values)


if __name__ == "__main__":
    unittest.main()
