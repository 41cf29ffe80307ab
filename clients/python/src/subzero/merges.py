"""Merges: cells of one lineage joined in a run's stores, beside asks (docs/FORMATS.md, "Merges")."""

from __future__ import annotations

from typing import TYPE_CHECKING, TypeAlias

from .faults import OutOfStep, Refused
from .flow import Node
from .later import Future

if TYPE_CHECKING:
    from .run import Run

Kinds: TypeAlias = dict[tuple[Node, str], int]
"""How many kinds of lineage there are, by a node and the name of a `full_` strategy by which it is kept."""


class Merging:
    """A merge of the stores of a run, which the program does beside what it is asked. No answer becomes another one.

    >>> flow.keep(labels, "both")
    >>> kept = session.start(flow, sky)
    >>> kept.wait()
    >>> merging = kept.merge()
    >>> int(kept.back(labels, (2, 2), to=sky).sum())
    3
    >>> merging.wait()[labels, "full_one_f"]
    12
    """

    def __init__(self, run: Run) -> None:
        self.run = run

    def __repr__(self) -> str:
        return f"<Merging of run {self.run.number}>"

    def wait(self) -> Kinds:
        """Wait until the stores are merged; gives how many kinds of lineage each store of full lineage has.

        Cells of a node's output are of one kind where the same cells stand behind them, those of all its inputs
        together; a cell with none behind it is of no kind. The numbers are by node and strategy, in the order of the
        nodes and of the lists that they had when the run was started; strategies that are not `full_` have none. Of a
        run that a log gave, they are read from the log's file.

        >>> flow.keep_all("both")
        >>> kept = session.start(flow, sky)
        >>> kept.wait()
        >>> [(node.op, strategy, kinds) for (node, strategy), kinds in kept.merge().wait().items()][1:3]
        [('clean', 'full_one_f', 16), ('regions', 'full_one_b', 12)]
        """
        return self.wait_later().result()

    def wait_later(self) -> Future[Kinds]:
        """`wait`, sent ahead: a Future of it.

        >>> run.merge().wait_later().result()
        {}
        """
        return merged_later(self.run)


def merge_later(run: Run) -> Future[Merging]:
    """As `Run.merge_later`."""
    reply = run.session.say(b'{"merge":%d}\n' % run.number)
    return Future([reply], f"merging run {run.number}", lambda texts: Merging(run))


def merge(run: Run) -> Merging:
    """As `Run.merge`."""
    try:
        return merge_later(run).result()
    except Refused as fault:
        if fault.number == 22:
            fault.because("the run was not waited for, so that its stores are still being built: call its wait() first")
        raise


def merged_later(run: Run) -> Future[Kinds]:
    """How many kinds of lineage each store of full lineage of a run has, whose merge was asked."""

    def read(texts: list[bytes]) -> Kinds:
        lists = run.session.holdings().versions[run.number].lists()
        full = [(node, name) for node, names in zip(run.flow.nodes, lists) for name in names if name[:5] == "full_"]
        words = texts[0].split()
        if words[:2] != [b"merged", b"%d" % run.number] or len(words) != 2 + len(full):
            raise OutOfStep(f"a merge of {len(full)} stores of full lineage has the reply {texts[0][:80]!r}")
        return {key: int(word) for key, word in zip(full, words[2:])}

    return Future([run.session.say(b'{"merged":%d}\n' % run.number)], f"merging run {run.number}", read)
