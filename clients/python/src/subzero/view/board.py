"""What the page shows of a run: its arrays, where they stand, and the arrows between them."""

from __future__ import annotations

from collections.abc import Iterable, Mapping, Sequence
from dataclasses import dataclass
from typing import TYPE_CHECKING, Any, TypeAlias

import numpy as np

from ..cells import Integers, Shape, Values
from ..flow import Input, Node, Place
from . import marks

if TYPE_CHECKING:
    from ..run import Array, Run

PERCENTILES = (90.0, 95.0, 98.0, 99.0, 99.5, 99.9, 100.0)


@dataclass(frozen=True)
class Panel:
    """One array on the page: a node's output, or a base array, which may be taken in several places of the flow."""

    number: int
    title: str
    detail: str
    places: tuple[Place, ...]
    shape: Shape

    @property
    def layers(self) -> int:
        """How many layers the array has."""
        return self.shape[0] if len(self.shape) == 3 else 1


@dataclass(frozen=True)
class Arrow:
    """That one array is taken by another, as its input of this number."""

    begin: int
    end: int
    input: int


Slot: TypeAlias = tuple[str, int]
"""What stands in a column: ("array", the panel's number), or ("lane", the number of an arrow that passes there)."""

_Stop: TypeAlias = tuple[int, Slot]
"""A slot, with the number of its column."""


class Board:
    """The arrays of a run, base arrays first, with their values."""

    def __init__(self, run: Run) -> None:
        self.run = run
        self.panels = _panels(run)
        self._of = {place: panel for panel in self.panels for place in panel.places}
        self.arrows = [
            Arrow(self._of[source].number, self._of[node].number, number)
            for node in run.flow.nodes
            for number, source in enumerate(node.sources)
        ]
        self.columns = columns_of(len(self.panels), self.arrows)
        self._values: dict[int, Values] = {}

    def panel(self, array: Array) -> Panel:
        """The panel of an array of the run. Raises BadInput for another one."""
        return self._of[self.run.places(array)[0]]

    def array(self, panel: Panel) -> Array:
        """The array of a panel: a base array of the run, or a node."""
        place = panel.places[0]
        return self.run.base[place.number] if isinstance(place, Input) else place

    def panel_of(self, place: Place) -> Panel:
        """The panel of a place of the run's flow."""
        return self._of[place]

    def values(self, number: int) -> Values:
        """The values of a panel's array, taken once."""
        if number not in self._values:
            self._values[number] = self.run.values(self.panels[number].places[0])
        return self._values[number]

    def told(self) -> dict[str, Any]:
        """The board as the page's script reads it."""
        return {
            "flow": self.run.flow.name,
            "run": self.run.number,
            "arrays": [self._panel_told(panel) for panel in self.panels],
            "arrows": [[arrow.begin, arrow.end, arrow.input] for arrow in self.arrows],
            "columns": self.columns,
            "percentiles": PERCENTILES,
        }

    def _panel_told(self, panel: Panel) -> dict[str, Any]:
        values = self.values(panel.number)
        place = panel.places[0]
        return {
            "title": panel.title,
            "detail": panel.detail,
            "base": isinstance(place, Input),
            "op": place.op if isinstance(place, Node) else None,
            "shape": [panel.layers, *panel.shape[-2:]],
            "axes": len(panel.shape),
            "labels": isinstance(place, Node) and _is_labelled(place),
            "kind": marks.kind_of(np.ma.getdata(values)),
            "empty": int(np.ma.getmaskarray(values).sum()),
            "limits": limits_of(values.compressed()),
        }


def limits_of(values: Integers) -> list[list[int]]:
    """For each of `PERCENTILES` the values between which so many of a hundred lie, the last from least to greatest."""
    if values.size == 0:
        return [[0, 1]] * len(PERCENTILES)
    whole = [int(values.min()), max(int(values.max()), int(values.min()) + 1)]
    wanted = [(100 - within) / 2 for within in PERCENTILES] + [100 - (100 - within) / 2 for within in PERCENTILES]
    found = np.percentile(values, wanted, method="nearest").reshape(2, -1).T.tolist()
    return [[int(low), int(high)] if low < high else whole for low, high in found[:-1]] + [whole]


def columns_of(count: int, arrows: Sequence[Arrow]) -> list[list[Slot]]:
    """The columns of the page from left to right, and what stands in each from top to bottom.

    Base arrays are in the first column, a node behind all that it takes. Where an arrow passes a column, a lane is kept
    free for it there. The order in a column is one in which few arrows cross.
    """
    column = [0] * count
    for arrow in arrows:  # they come in the order of the flow
        column[arrow.end] = max(column[arrow.end], column[arrow.begin] + 1)
    columns: list[list[Slot]] = [[] for _ in range(max(column, default=0) + 1)]
    for number in range(count):
        columns[column[number]].append(("array", number))
    before: dict[_Stop, list[_Stop]] = {}
    behind: dict[_Stop, list[_Stop]] = {}
    for number, arrow in enumerate(arrows):
        stops: list[_Stop] = [(column[arrow.begin], ("array", arrow.begin))]
        for passed in range(column[arrow.begin] + 1, column[arrow.end]):
            columns[passed].append(("lane", number))
            stops.append((passed, ("lane", number)))
        stops.append((column[arrow.end], ("array", arrow.end)))
        for one, next_one in zip(stops, stops[1:]):
            behind.setdefault(one, []).append(next_one)
            before.setdefault(next_one, []).append(one)
    for _ in range(4):
        _sort(columns, range(len(columns)), before)
        _sort(columns, range(len(columns) - 1, -1, -1), behind)
    return columns


def _sort(columns: Sequence[list[Slot]], order: Iterable[int], near: Mapping[_Stop, Sequence[_Stop]]) -> None:
    """Column by column, put the slots into the order of the places on which their neighbours stand, on the mean."""
    place: dict[_Stop, float] = {}
    for at in order:
        wanted = {slot: _mean([place[one] for one in near.get((at, slot), ())]) for slot in columns[at]}
        columns[at].sort(key=lambda slot: wanted[slot])
        for number, slot in enumerate(columns[at]):
            place[at, slot] = number - (len(columns[at]) - 1) / 2


def _mean(numbers: Sequence[float]) -> float:
    return sum(numbers) / len(numbers) if numbers else 0.0


def _panels(run: Run) -> list[Panel]:
    """The arrays of a run: its base arrays, each once, and then the outputs of its nodes."""
    found: list[Panel] = []
    for base in dict.fromkeys(run.base):
        found.append(Panel(len(found), base.name, "", tuple(run.places(base)), run.shape(base)))
    for node in run.flow.nodes:
        name = node.name or node.op
        told = node.label if name != node.op else node.label.removeprefix(node.op).strip(" ()")
        found.append(Panel(len(found), name, told, (node,), run.shape(node)))
    return found


def _is_labelled(node: Node) -> bool:
    """Whether a node's values are labels of regions, which a slice, a transpose or the greatest of blocks keep so."""
    if node.op in ("slice", "transpose") or (node.op == "block" and node.parameters["fold"] in ("min", "max")):
        source = node.sources[0]
        return isinstance(source, Node) and _is_labelled(source)
    return node.op == "regions"
