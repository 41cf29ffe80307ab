"""The tiles of a run that a refresh made.

A tile none of whose windows has a changed cell is the old run's own, and asked of the program that holds it. Any other
one is made of the old tile, by a refresh in its program, where that holds it and has room for both; else it is made as
every tile is. Changed are the set cells of the base array, and of what is kept between stages the cells that differ.

A component of a `regions` that has a cell in a tile that is made anew may be another one now, or several. So the other
tiles that have a part of it say their own parts again, and all seams are joined once more. A component without such a
cell stays one, and what it may be joined to now has a cell in a tile that is made anew.
"""

from __future__ import annotations

import threading
from collections.abc import Sequence
from dataclasses import dataclass
from typing import Any

import numpy as np
from numpy.typing import NDArray

from ..flow import Input, Node, Place
from ..geometry import CUT, Rect, layers_of
from ..numerals import set_text
from .cellsets import NONE, Indexes, to_local, within
from .grids import Spot
from .making import Begun, Making, Whole
from .orders import Key, NewCells, Renewal
from .sources import TiledArray
from .stages import Stage
from .windows import TilePlan, cells_of_tile, inputs_of

_FEW = 4
"""A tile is refreshed where of each of its windows at most one in so many cells changed; else all of them are sent."""


@dataclass(frozen=True)
class _Tile:
    """A tile: the key of the old run's, and whether one of its windows has a changed cell."""

    old: Key
    is_new: bool


class Remaking(Making):
    """The tiles of a run on `base`: the arrays of the run that `before` makes, but that some `cells` were set in the
    one under `place`."""

    def __init__(self, number: int, before: Making, base: Sequence[TiledArray], place: Input, cells: Indexes) -> None:
        super().__init__(number, before.plan, base, before.strategies, before.crew, before.pool)
        self.held = before.held
        self._before: Making | None = before
        self._changed: dict[Place, Indexes] = {place: cells}
        self._tiles: dict[int, dict[Spot, _Tile]] = {}
        self._look = threading.Lock()

    def make_before(self, stage: int) -> None:
        """Make all that tiles of this stage take, in the old run first."""
        before, stages = self._before, self.plan.stages
        if before is not None:
            if stage == len(stages) - 1 and not self._keeps(stages[-1]):
                stage = len(stages)  # of which nothing is made: its tiles are looked at
            before.make_before(stage)
            super().make_before(stage)
            if self._made == len(stages):
                self._before = None  # nothing more is taken from it

    def _make(self, stage: Stage) -> None:
        """Make what a stage keeps: as in the old run where all its tiles are the old run's."""
        before = self._before
        assert before is not None
        is_new = any(tile.is_new for tile in self._tiles_of(stage).values())
        if is_new:
            super()._make(stage)
        for node in self._keeps(stage):
            if not is_new and node.op == CUT:
                self._labels[node.number] = before.labels(node)
            elif not is_new:
                self._wholes[node.number] = before.whole(node)
            self._changed[node] = self._differing(before, node) if is_new else NONE

    def _differing(self, before: Making, node: Node) -> Indexes:
        """The cells in which an output that is kept differs from the old run's."""
        if node.op == CUT:
            return np.flatnonzero(before.labels(node).values != self._labels[node.number].values)
        old, new = before.whole(node), self._wholes[node.number]
        return np.flatnonzero((old.empty != new.empty) | (old.values != new.values))

    def _begun(self, stage: Stage, node: Node) -> Begun:
        """What the old run kept; wanted are the parts that may be others."""
        before = self._before
        assert before is not None
        spots = {plan.own[node.number]: spot for spot, plan in stage.tiles.items() if node.number in plan.own}
        new = {spot for spot in spots.values() if self._tile(stage, spot).is_new}
        if node.op != CUT:
            old = before.whole(node)
            return Begun(node, Whole(old.values.copy(), old.empty.copy()), [], new)
        labels = before.labels(node)
        again = labels.rects_with([spots[rect] in new for rect in labels.rects])
        parts = [part for part, is_again in zip(labels.parts(), again) if not is_again]
        wanted = {spots[rect] for rect, is_again in zip(labels.rects, again) if is_again}
        return Begun(node, labels.values.copy(), parts, wanted)

    def _tiles_of(self, stage: Stage) -> dict[Spot, _Tile]:
        """The tiles of a stage, once all is made that they take."""
        with self._look:
            if stage.number not in self._tiles:
                before = self._before
                assert before is not None
                tiles: dict[Spot, _Tile] = {}
                for spot, plan in stage.tiles.items():
                    is_new = any(cells.size for _, _, cells in self._changed_in(stage, plan))
                    tiles[spot] = _Tile(before._key(stage, plan), is_new)
                self._tiles[stage.number] = tiles
            return self._tiles[stage.number]

    def _tile(self, stage: Stage, spot: Spot) -> _Tile:
        return self._tiles_of(stage)[spot]

    def _changed_in(self, stage: Stage, plan: TilePlan) -> list[tuple[Place, Rect, Indexes]]:
        """The windows of a tile, in their order, each with its changed cells."""
        return [
            (place, rect, within(self._changed.get(place, NONE), rect, self.plan.shapes[place]))
            for place, rect in inputs_of(stage.members, plan)
        ]

    def _key(self, stage: Stage, plan: TilePlan) -> Key:
        tile = self._tile(stage, plan.spot)
        return super()._key(stage, plan) if tile.is_new else tile.old

    def _renewal(self, stage: Stage, plan: TilePlan) -> Renewal | None:
        tile = self._tile(stage, plan.spot)
        if not tile.is_new or tile.old not in self.held:
            return None
        new: list[NewCells] = []
        outputs = cells_of_tile(stage.members, plan)
        for number, (place, rect, cells) in enumerate(self._changed_in(stage, plan)):
            shape = self.plan.shapes[place]
            count = rect.area * layers_of(shape)
            outputs -= count
            if cells.size * _FEW > count:
                return None
            if cells.size:
                where = to_local(cells, shape, rect)
                text = set_text(where if layers_of(shape) > 1 else where[:, 1:], *self._now_at(place, cells))
                new.append(NewCells(number, text, self._name(place, rect), count))
        return Renewal(tile.old, new, outputs)

    def _now_at(self, place: Place, cells: Indexes) -> tuple[NDArray[Any], NDArray[Any]]:
        """What changed cells hold, and which are empty. A tile may be asked for while a later stage is made, so that
        nothing is waited for here."""
        return self._kept_at(place, cells) if isinstance(place, Node) else self.base[place.number].set_at(cells)
