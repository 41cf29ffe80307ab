"""Merges: kinds of lineage against a count by force, asks beside a merge, and what a log says of lists."""

from __future__ import annotations

import tempfile
import unittest
from pathlib import Path
from typing import Any

import numpy as np

import reference
import subzero
from drawn import draw_flow
from subzero import logs


def kinds_of(run: subzero.Run, node: subzero.Node) -> int:
    """How many different sets of cells stand behind the cells of a node's output, those of all inputs together, none
    not counted."""
    grids = [reference.grid_of(run.values(source)) for source in node.sources]
    _, empty = reference.evaluate(node.op, node.parameters, grids)
    found = set()
    for at in np.ndindex(empty.shape):
        one = np.zeros(empty.shape, dtype=bool)
        one[at] = True
        behind = [reference.back(node.op, node.parameters, grids, at, one) for at in range(len(grids))]
        if any(mask.any() for mask in behind):
            found.add(b"|".join(mask.tobytes() for mask in behind))
    return len(found)


class Merges(unittest.TestCase):
    def setUp(self) -> None:
        self.session = subzero.Session()
        self.addCleanup(self.session.close)

    def test_the_kinds_of_the_documents(self) -> None:
        base = self.session.array("a", [[9, 9, 0], [0, 9, 0], [9, 0, 0]])
        for number, (keep, kinds) in enumerate(
            ((["full_many_b"], [7]), (["full_one_f", "pay_one", "full_many_b"], [7, 7]), (["blackbox"], []))
        ):
            flow = self.session.flow(f"f{number}")
            labels = flow.regions(flow.input(0), t=5, keep=keep)
            run = self.session.start(flow, base)
            run.wait()
            merging = run.merge()
            self.assertEqual((merging.run, repr(merging)), (run, f"<Merging of run {run.number}>"))
            for _ in range(2):
                found = merging.wait()
                self.assertEqual(list(found.values()), kinds)
                self.assertEqual(list(found), [(labels, name) for name in keep if name.startswith("full_")])
            self.assertEqual(run.merge().wait(), found)
        flow = self.session.flow("none")
        node = flow.convolve(flow.input(0), [[0]], keep=["full_many_f"])
        run = self.session.start(flow, base)
        run.wait()
        self.assertEqual(run.merge().wait(), {(node, "full_many_f"): 0})

    def test_kinds_against_a_count_by_force(self) -> None:
        draw = np.random.RandomState(5)
        checked = 0
        for number in range(8):
            shape: tuple[int, ...] = (4, 5) if number % 2 else (2, 3, 4)
            base = self.session.array("image", draw.randint(-30, 70, shape))
            table = self.session.array("table", draw.randint(-9, 9, (1, 30)))
            flow = self.session.flow(f"drawn_{number}", inputs=2)
            draw_flow(flow, [shape, (1, 30)], draw)
            run = self.session.start(flow, [base, table])
            run.wait()
            lists = [list(node.kept) for node in flow.nodes]
            flow.keep_all("nothing")  # which plays no part for a run that was started
            last = flow.nodes[-1]
            end = base if last.number in reached_from(flow, 0) else table
            before = run.back(last, np.ones(run.shape(last), dtype=bool), to=end)
            with self.session.pipeline() as ahead:
                asks = [ahead.back(run, last, np.ones(run.shape(last), dtype=bool), to=end) for _ in range(3)]
                merging = ahead.merge(run)
                asks += [ahead.back(run, last, np.ones(run.shape(last), dtype=bool), to=end) for _ in range(3)]
                told = ahead.merged(run)
                asks.append(ahead.back(run, last, np.ones(run.shape(last), dtype=bool), to=end))
            for answer in asks:
                self.assertTrue((answer.result() == before).all())
            wanted = {
                (node, name): kinds_of(run, node)
                for node, names in zip(flow.nodes, lists)
                for name in names
                if name.startswith("full_")
            }
            self.assertEqual(told.result(), wanted)
            self.assertEqual(list(told.result()), list(wanted))
            self.assertEqual(merging.result().wait(), wanted)
            checked += len(wanted)
        self.assertGreater(checked, 15)

    def test_what_is_refused(self) -> None:
        base = self.session.array("a", [[1, 2]])
        flow = self.session.flow("f")
        flow.neg(flow.input(0), keep=["full_one_b"])
        run = self.session.start(flow, base)
        with self.assertRaisesRegex(subzero.Refused, "refused 22: the run was not waited for, .*: call") as caught:
            run.merge()
        self.assertEqual(caught.exception.number, 22)
        with self.session.pipeline() as ahead:
            early, done, told = ahead.merge(run), ahead.wait(run), ahead.merged(run)
        done.result()
        later: Any
        for later, number, why in ((early, 22, "still being built"), (told, 25, "no merge of the version was asked")):
            with self.assertRaisesRegex(subzero.Refused, f"refused {number}: .*{why}"):
                later.result()
        self.assertEqual(list(run.merge().wait().values()), [2])
        with subzero.Session() as other, other.pipeline() as elsewhere:
            for call in (elsewhere.merge, elsewhere.merged):
                with self.assertRaisesRegex(subzero.BadInput, "is of another session"):
                    call(run)

    def test_a_reply_that_does_not_fit(self) -> None:
        base = self.session.array("a", [[1, 2]])
        flow = self.session.flow("f")
        flow.neg(flow.input(0), keep=["full_one_b"])
        run = self.session.start(flow, base)
        run.wait()
        later = run.merge().wait_later()
        for text in (b"merged 1", b"merged 1 2 2", b"merged 2 2", b"merging 1 2"):
            with self.assertRaisesRegex(subzero.OutOfStep, "a merge of 1 stores of full lineage has the reply"):
                later._read([text])


class Kept(unittest.TestCase):
    """What a log says of how versions are kept."""

    def test_lists_and_lengths_of_stores(self) -> None:
        draw = np.random.RandomState(2)
        with tempfile.TemporaryDirectory() as folder:
            log = Path(folder) / "survey.log"
            lists, kinds = {}, {}
            with subzero.Session(log=log) as session:
                base = session.array("image", draw.randint(-30, 70, (5, 6)))
                table = session.array("table", draw.randint(-9, 9, (1, 30)))
                for number in range(6):
                    flow = session.flow(f"drawn_{number}", inputs=2)
                    draw_flow(flow, [(5, 6), (1, 30)], draw)
                    run = session.start(flow, [base, table])
                    lists[run.number] = [list(node.kept) for node in flow.nodes]
                    flow.keep_all("nothing")  # which stands in the log before the version, and is none of its lists
                    run.wait()
                    kinds[run.number] = [*run.merge().wait().values()]
            held = logs.read_log(log)
            with open(log, "rb") as file:
                groups = [group for group in logs.groups(file) if group.is_version]
            for group, version in zip(groups, held.versions.values()):
                stores = logs.stores_of(held, version, str(log), group)
                self.assertEqual([[name for name, _ in node] for node in stores], lists[version.number])
                self.assertEqual(version.lists(), lists[version.number])
                heads = 4 + 1 + len(version.flow) + 4 + sum(5 + len(name) for name, _ in version.base) + 4
                heads += sum(1 + len(node) for node in stores)
                self.assertEqual(heads + sum(size for node in stores for _, size in node), group.length)
                for name, size in (kept for node in stores for kept in node):
                    self.assertEqual(size == 0, name in ("map", "blackbox"))
            with subzero.Session(log=log) as session:
                for number, run in session.runs.items():
                    with self.assertRaises(subzero.Refused) as caught:
                        session.say(b'{"merged":%d}\n' % number).wait("merging")
                    self.assertEqual(caught.exception.number, 25)
                    self.assertEqual([*run.merge().wait().values()], kinds[number])
            log.write_bytes(log.read_bytes()[: groups[-1].begin + 40])
            with self.assertRaisesRegex(subzero.SubZeroError, "is no longer the log that it was"):
                held.versions[6].lists()


def reached_from(flow: Any, number: int) -> set[int]:
    """The numbers of the nodes to which a path leads from an input."""
    found: set[int] = set()
    for node in flow.nodes:
        for place in node.sources:
            if place is flow.inputs[number] or isinstance(place, subzero.Node) and place.number in found:
                found.add(node.number)
    return found


if __name__ == "__main__":
    unittest.main()
