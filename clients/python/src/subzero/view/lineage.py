"""The lineage of a selection in all arrays of a run at once, each way, by sets that go through the flow node by node.

`subzero.spread` carries the sets; here is which of them the page wants, and over which steps they came.
"""

from __future__ import annotations

from dataclasses import dataclass
from typing import TYPE_CHECKING, Literal, TypeAlias

import numpy as np

from ..cells import Mask
from ..flow import Node, Place
from ..spread import masks_between

if TYPE_CHECKING:
    from ..run import Array, Direction, Run

Sense: TypeAlias = Literal["stood", "could"]
"""What is asked: `stood`, the cells that stood behind the selected ones and those that they touched; or `could`, the
cells that fix the values of the selected ones, and those that could be others if the selected ones were."""


@dataclass(frozen=True)
class Step:
    """A step that sets went over: a node, the number of its input, and in which direction it was asked."""

    node: Node
    input: int
    direction: Direction


class Lineage:
    """What cells of a run lead to; what is needed of its values for that is taken once."""

    def __init__(self, run: Run) -> None:
        self.run = run
        self._high: dict[Node, Mask] = {}

    def masks(self, array: Array, mask: Mask, direction: Direction, sense: Sense) -> dict[Place, Mask]:
        """The cells of every array to which these cells of `array` lead in one direction, `array` itself included:
        boolean arrays of their shapes. An array that lies on no path from there is not among them.

        Raises Refused and ProgramEnded.
        """
        starts = self.run.places(array)
        ends: list[Array] = [*self.run.base] if direction == "back" else [*self.run.flow.nodes]
        if not any(self._leads_on(place, direction) for place in starts):
            return dict.fromkeys(starts, mask)
        cells = np.stack(np.unravel_index(np.flatnonzero(mask), mask.shape), axis=1).astype(np.int64)
        return masks_between(self.run, direction, array, cells, ends, supports=sense == "could", high=self._high)

    def steps(self, masks: dict[Place, Mask], direction: Direction) -> list[Step]:
        """The steps over which sets of cells came from one of these arrays to another, in the order of the walk."""
        nodes = [node for node in self.run.flow.nodes if node in masks]
        return [
            Step(node, number, direction)
            for node in (nodes if direction == "forward" else reversed(nodes))
            for number, source in enumerate(node.sources)
            if source in masks and masks[source if direction == "forward" else node].any()
        ]

    def _leads_on(self, place: Place, direction: Direction) -> bool:
        if direction == "back":
            return isinstance(place, Node)
        return any(place in node.sources for node in self.run.flow.nodes)
