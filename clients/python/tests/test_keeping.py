"""How lineage is kept: the words beside the names of strategies, what each stands for, and that no word changes an
answer.
"""

import inspect
import tempfile
import unittest
from pathlib import Path
from typing import Any, get_args
from unittest import mock

import numpy as np

import reference
import subzero
from subzero import demo
from subzero.keeping import OPERATORS, Word

WORDS: tuple[Word, ...] = get_args(Word)
STORED = {
    "asked backward": ["full_one_b"],
    "asked forward": ["full_one_f"],
    "both": ["full_one_b", "full_one_f"],
    "small": ["comp_many"],
    "nothing": ["blackbox"],
}
ANSWERED = {  # backward, and forward
    "asked backward": ("full_one_b", "full_one_b"),
    "asked forward": ("full_one_f", "full_one_f"),
    "both": ("full_one_b", "full_one_f"),
    "small": ("comp_many", "comp_many"),
    "nothing": ("blackbox", "blackbox"),
}


def stars(flow: subzero.Flow, keep: Any = None) -> None:
    """A node of each operator without a mapping, and one of another, of an image and a table of one row."""
    clean = flow.clean(flow.input(0), t=demo.HOT, name="clean", keep=keep)
    smooth = flow.convolve(clean, demo.KERNEL, name="smooth", keep=keep)
    flow.regions(smooth, t=demo.BRIGHT, name="labels", keep=keep)
    flow.lookup(flow.input(0), flow.input(1), name="looked", keep=keep)


class Words(unittest.TestCase):
    """The table of words and operators."""

    def test_what_each_word_stands_for(self) -> None:
        self.assertEqual(WORDS, tuple(STORED))
        for word in WORDS:
            for operator in OPERATORS:
                stored = STORED[word] if operator in ("lookup", "regions", "clean") else ["map"]
                self.assertEqual(subzero.strategies(word, operator), stored)
                for name in stored:
                    self.assertTrue(reference.supports(operator, name), (word, operator, name))

    def test_operators_are_those_of_a_flow(self) -> None:
        calls = {name: call for name, call in vars(subzero.Flow).items() if inspect.isfunction(call)}
        kept = {name for name, call in calls.items() if "keep" in inspect.signature(call).parameters and name[0] != "_"}
        self.assertEqual(kept, OPERATORS)

    def test_a_list_that_is_given_can_be_changed(self) -> None:
        subzero.strategies("both", "clean").clear()
        self.assertEqual(subzero.strategies("both", "clean"), STORED["both"])

    def test_what_is_no_word_and_no_operator(self) -> None:
        with self.assertRaises(subzero.BadInput) as caught:
            subzero.strategies("asked", "clean")
        told = str(caught.exception)
        for word in WORDS:
            self.assertIn(f'"{word}"', told)
        self.assertIn('docs/FORMATS.md, "How lineage is kept"', told)
        page = Path(__file__).resolve().parents[3] / "docs" / "FORMATS.md"
        self.assertIn("### How lineage is kept\n", page.read_text())
        with self.assertRaisesRegex(subzero.BadInput, "'median' is no operator: abs, add, .*transpose"):
            subzero.strategies("small", "median")


class Kept(unittest.TestCase):
    """Words in a session."""

    def setUp(self) -> None:
        self.session = subzero.Session()
        self.addCleanup(self.session.close)
        self.image = demo.field().image
        self.sky = self.session.array("sky", self.image)
        self.table = self.session.array("table", np.arange(0, 900, 3).reshape(1, 300))

    def explained(self, run: subzero.Run, name: str) -> tuple[str, str]:
        """By which strategies a node's first step is answered, backward and forward."""
        base = run.flow[name].sources[0]
        back = run.explain(name, (1, 1), to=base)[0].steps
        forward = run.explain(base, (1, 1), to=name, direction="forward")[0].steps
        return back[0][1], forward[0][1]

    def test_words_say_by_what_is_answered_and_change_no_answer(self) -> None:
        known: dict[tuple[str, str], list[Any]] = {}
        bad = demo.field().bad
        for word in WORDS:
            flow = self.session.flow(word.replace(" ", "_"), inputs=2)
            stars(flow, keep=word)
            run = self.session.start(flow, [self.sky, self.table])
            run.wait()
            for name in ("clean", "labels", "looked"):
                self.assertEqual(self.explained(run, name), ANSWERED[word], (word, name))
                self.assertEqual(flow[name].kept, STORED[word])
            self.assertEqual((self.explained(run, "smooth"), flow["smooth"].kept), (("map", "map"), ["map"]))
            for name in ("labels", "looked"):
                for base in (self.sky, self.table):
                    if base is self.table and name == "labels":
                        continue
                    hit = bad if base is self.sky else np.arange(300).reshape(1, 300) % 7 == 0
                    answers = [
                        run.back(name, run.values(name) > 0, to=base).tolist(),
                        run.forward(base, hit, to=name).tolist(),
                    ]
                    self.assertEqual(answers, known.setdefault((name, base.name), answers), (word, name, base))
        self.assertEqual(len(known), 3)

    def test_a_word_for_a_whole_flow(self) -> None:
        flow = self.session.flow("f", inputs=2)
        stars(flow, keep=None)
        self.assertEqual([node.kept for node in flow.nodes], [["blackbox"], ["map"], ["blackbox"], ["blackbox"]])
        flow.keep_all("small")
        flow.keep(flow["labels"], "both")
        later = flow.clean(flow["labels"], t=9)
        kept = [["comp_many"], ["map"], STORED["both"], ["comp_many"], ["blackbox"]]
        self.assertEqual([node.kept for node in flow.nodes], kept)
        run = self.session.start(flow, [self.sky, self.table])
        run.wait()
        self.assertEqual([node.kept for node in flow.nodes], kept)
        self.assertEqual(self.explained(run, "labels"), ("full_one_b", "full_one_f"))
        flow.keep_all("asked forward")  # which is sent at once, for runs started later
        self.assertEqual(later.kept, ["full_one_f"])
        self.assertEqual(self.explained(run, "clean"), ("comp_many", "comp_many"))
        run = self.session.start(flow, [self.sky, self.table])
        run.wait()
        self.assertEqual(self.explained(run, "clean"), ("full_one_f", "full_one_f"))
        flow.keep_all(["full_many_b", "blackbox"])
        self.assertEqual([node.kept for node in flow.nodes], [["full_many_b", "blackbox"]] * 5)

    def test_what_a_list_cannot_be_for_a_whole_flow(self) -> None:
        flow = self.session.flow("f", inputs=2)
        stars(flow)
        flow.keep_all(["comp_one"])
        with self.assertRaises(subzero.Refused) as caught:
            flow.define()
        self.assertEqual(caught.exception.number, 18)
        self.assertRegex(caught.exception.cause or "", "smooth.* cannot be kept by comp_one")

    def test_what_is_chosen_anyway_is_not_sent(self) -> None:
        flow = self.session.flow("f", inputs=2)
        stars(flow, keep="nothing")
        with mock.patch.object(self.session, "order", side_effect=self.session.order) as sent:
            flow.define()
            flow.keep_all("nothing")
            self.assertEqual(sent.call_count, 1)
            flow.keep_all("small")
            flow.keep_all("small")
            self.assertEqual(sent.call_count, 4)
            flow.keep_all("nothing")
            self.assertEqual(sent.call_count, 7)
        run = self.session.start(flow, [self.sky, self.table])
        run.wait()
        self.assertEqual(self.explained(run, "looked"), ("blackbox", "blackbox"))

    def test_what_is_no_word(self) -> None:
        flow = self.session.flow("f")
        x = flow.input(0)
        clean = flow.clean(x, t=9)
        keep: Any
        for keep, why in (
            ("map", "'map' is no word for how lineage is kept: .*or it is a list of names of strategies"),
            ("small ", "'small ' is no word"),
            (["small"], '"small" is a word and no strategy: it stands alone'),
            (["full"], "'full' is no strategy: blackbox, comp_many"),
            (7, "7 is neither a word"),
        ):
            for call in (
                lambda: flow.neg(x, keep=keep),
                lambda: flow.keep(clean, keep),
                lambda: flow.keep_all(keep),
            ):
                with self.assertRaisesRegex(subzero.BadInput, why):
                    call()
        self.assertEqual((flow.nodes, clean.kept), ([clean], ["blackbox"]))

    def test_a_log_keeps_them(self) -> None:
        with tempfile.TemporaryDirectory() as folder:
            log = Path(folder) / "survey.log"
            with subzero.Session(log=log) as session:
                flow = session.flow("stars", inputs=2)
                stars(flow, keep="both")
                flow.define()
            with subzero.Session(log=log) as session:
                kept = [node.kept for node in session.flows["stars"].nodes]
                self.assertEqual(kept, [STORED["both"], ["map"], STORED["both"], STORED["both"]])

    def test_tiles_keep_by_words(self) -> None:
        with subzero.tiled(tile=24, programs=1) as mosaic:
            big = mosaic.array("sky", self.image)
            for word in WORDS:
                flow = mosaic.flow(word.replace(" ", "_"))
                clean = flow.clean(flow.input(0), t=demo.HOT, keep=word)
                smooth = flow.convolve(clean, demo.KERNEL)
                flow.keep_all(word)
                run = mosaic.start(flow, [big])
                back = run.explain(smooth, (30, 30), to=big)[0]
                forward = run.explain(big, (30, 30), to=smooth, direction="forward")[0]
                self.assertEqual((dict(back.steps)[clean], dict(forward.steps)[clean]), ANSWERED[word], word)

    def test_small_takes_the_fewest_bytes_in_a_log(self) -> None:
        """Of all that keep a store, for a run on the tutorial's image."""
        table = np.arange(0, 900, 3).reshape(1, 300)
        for name in ("clean", "labels", "looked"):
            sizes: dict[str, int] = {}
            for strategy in reference.STRATEGIES:
                if strategy not in ("map", "blackbox"):
                    sizes[strategy] = self.bytes_of_run(name, [strategy], table)
            with self.subTest(node=name):
                self.assertEqual(min(sizes.values()), sizes[STORED["small"][0]], sizes)

    def bytes_of_run(self, name: str, keep: list[str], table: Any) -> int:
        """By how many bytes a log grows by an awaited run, of which one node's lineage is kept."""
        with tempfile.TemporaryDirectory() as folder:
            log = Path(folder) / "survey.log"
            with subzero.Session(log=log) as session:
                arrays = [session.array("sky", self.image), session.array("table", table)]
                flow = session.flow("f", inputs=2)
                stars(flow)
                flow.keep(flow[name], keep)
                flow.define()
                before = log.stat().st_size
                session.start(flow, arrays).wait()
                return log.stat().st_size - before


if __name__ == "__main__":
    unittest.main()
