"""Merges over tiles: cells of one lineage joined in the stores of all tiles, beside questions."""

from __future__ import annotations

from typing import TYPE_CHECKING

from ..faults import OutOfStep
from ..flow import Node
from ..geometry import CUT
from ..merges import Kinds
from .orders import Merge
from .stages import Stage
from .windows import TilePlan

if TYPE_CHECKING:
    from .run import TiledRun


class TiledMerging:
    """A merge of the stores of a run's tiles, which their programs do beside what they are asked. No answer becomes
    another one."""

    def __init__(self, run: TiledRun) -> None:
        self.run = run

    def __repr__(self) -> str:
        return f"<Merging of run {self.run.number}>"

    def wait(self) -> Kinds:
        """Wait until the stores are merged; gives how many kinds of lineage a store of full lineage has, by node and
        strategy, where that can be told of the whole array.

        Cells of a node's output are of one kind where the same cells stand behind them. What a tile's program counts is
        of the tile, and it is told of the whole only where each cell of the output is in one tile alone: then cells of
        two tiles have different cells of the node's first input behind them, so that they are of two kinds, and the
        numbers add up. Where some step of the stage takes cells round a cell, cells near the edges of tiles are in
        several, and nothing is told of what such a step takes and gives, but where one tile has all of it. Of a
        `regions` nothing is told: its step goes by the joined labels, and no tile has a store of it.

        Tiles that no program holds any more are made again, where their numbers are told.
        """
        making = self.run._making
        kinds: Kinds = {}
        for stage in making.plan.stages:
            told = [node for node in stage.members.nodes if self._full(node) and adds_up(stage, node)]
            plans = [plan for plan in stage.tiles.values() if any(node.number in plan.own for node in told)]
            kinds.update({(node, name): 0 for node in told for name in self._full(node)})
            for plan, numbers in zip(plans, making.has_merged(stage, plans, "merging")):
                for key, count in self._counts(stage, plan, numbers):
                    if key in kinds:
                        kinds[key] += count
        making.merges_held([Merge(), Merge(told=True)], "merging")
        return dict(sorted(kinds.items(), key=lambda one: one[0][0].number))

    def _full(self, node: Node) -> list[str]:
        """By which strategies of full lineage the tiles keep a node."""
        names = self.run._making.strategies.get(node.number, ()) if node.op != CUT else ()
        return [name for name in names if name.startswith("full_")]

    def _counts(self, stage: Stage, plan: TilePlan, numbers: list[int]) -> list[tuple[tuple[Node, str], int]]:
        """The numbers that a tile's program told, each with its node and strategy, of the tile's own cells. Raises
        OutOfStep where they are not as many as the tile has stores of full lineage."""
        keys = [(node, name) for node in stage.members.nodes if node.number in plan.local for name in self._full(node)]
        if len(keys) != len(numbers):
            raise OutOfStep(f"a tile of {len(keys)} stores of full lineage tells of {len(numbers)}")
        return [(key, count) for key, count in zip(keys, numbers) if key[0].number in plan.own]


def adds_up(stage: Stage, node: Node) -> bool:
    """Whether the kinds of lineage of a node are those of the stage's tiles together: it is the stage's own, and each
    cell of its output is in one tile alone."""
    plans = [plan for plan in stage.tiles.values() if node.number in plan.own]
    return bool(plans) and all(plan.local[node.number] == plan.own[node.number] for plan in plans)
