"""Refreshes over tiles: a run again, on a base array in which cells were set; and which cells that changes."""

from __future__ import annotations

import os
from collections.abc import Iterator
from math import isqrt
from typing import TYPE_CHECKING, Any

import numpy as np
from numpy.typing import NDArray

from ..cells import MOST_CELLS, Shape
from ..changes import New, check_is_no_mask, input_of, named_cells
from ..flow import Input, Node, Place
from ..geometry import Rect, layers_of
from ..keeping import WITHOUT_MAPPING
from ..paths import places_between
from .asks import image
from .cellsets import NONE, Indexes, listed, mask_of, together, union
from .chains import Chain
from .sources import SetCells, TiledArray, windows_of

if TYPE_CHECKING:
    from .run import Array, TiledRun


class TiledChange:
    """What a refresh made of a run over tiles: `run`, the new one, beside `old`, and which cells changed.

    `input` is the place in the flow under which cells were set, and `array` the base array that the new run has there.
    Tiles of `run` are made when they are needed, as those of every run over tiles.
    """

    def __init__(self, old: TiledRun, run: TiledRun, place: Input, cells: Indexes) -> None:
        self.old = old
        self.run = run
        self.input = place
        self.array = run.base[place.number]
        self._reached: dict[Place, Indexes] = {place: cells}

    def __repr__(self) -> str:
        before, count = self.old.base[self.input.number], self._reached[self.input].size
        return (
            f"<Change of {before.name} {before.version} in run {self.old.number}: {count:,} "
            f"cell{'' if count == 1 else 's'} set, in run {self.run.number}>"
        )

    @property
    def cells(self) -> int:
        """How many cells of all nodes `reached` gives, which are those that one session would compute again. It is
        asked for, node by node. How many cells the programs compute is not told: cells near the edge of a tile are
        computed in several, and of a tile that is made anew all are.
        """
        return sum(self._reached_in(node).size for node in self.run.flow.nodes)

    def changed(self, array: Array, *, as_cells: bool = False) -> NDArray[Any]:
        """Where the values of an array differ between the two runs, a cell that is empty in one of them alone among
        them: a boolean array of its shape; with `as_cells` the cells one by one, int64 of shape (N, axes).

        `array` is a node, or a base array of one of the runs; of one that a flow takes under several inputs, where it
        differs under one of them. All these cells are among those that `reached` gives. Raises BadInput where it is no
        array of the runs.
        """
        places, found = self._places(array), NONE
        for place in places:
            cells = self._reached_in(place)
            if cells.size:
                old, new = (_values_at(run, place, cells) for run in (self.old, self.run))
                found = union([found, cells[(old[1] != new[1]) | ~old[1] & (old[0] != new[0])]])
        return _told(found, self.run.shape(places[0]), as_cells)

    def reached(self, array: Array, *, as_cells: bool = False) -> NDArray[Any]:
        """Which cells of an array the set cells reach: for a node those that one session would compute again, and for
        the base array of `input` the set cells. As for `changed`, a boolean array, or the cells one by one.

        Node by node, they are those that the reached cells of its inputs touch, by the lineage of the old run or by
        that of the new one, as `TiledRun.forward` gives it over the one step. All others have their old values.
        """
        places = self._places(array)
        return _told(union([self._reached_in(place) for place in places]), self.run.shape(places[0]), as_cells)

    def _places(self, array: Array) -> list[Place]:
        """The places of an array of the old run, or of the new one, in their flow. Raises BadInput where it is none."""
        return self.run.places(array) if array is self.array else self.old.places(array)

    def _reached_in(self, place: Place) -> Indexes:
        """What was reached in an array, once it was found in those on the way there."""
        for one in places_between(self.run.flow, [place], [self.input]):
            if isinstance(one, Node) and one not in self._reached:
                runs = [self.old, self.run] if one.op in WITHOUT_MAPPING else [self.run]
                self._reached[one] = union(
                    [
                        image(
                            run._making,
                            Chain(one, source, ((one, number),)),
                            self._reached.get(source, NONE),
                            forward=True,
                            wide=False,
                        )
                        for number, source in enumerate(one.sources)
                        for run in runs
                    ]
                )
        return self._reached.get(place, NONE)


def refreshed(run: TiledRun, array: Array, cells: New, scale: float | None) -> TiledChange:
    """As `TiledRun.refresh`."""
    place = input_of(run.places(array), run.base)
    base = run.base[place.number]
    new = _set_cells(cells, base, run._mosaic.next_version(base.name), scale)
    return TiledChange(run, run._mosaic.refreshed(run, place, new), place, new.indexes)


def _set_cells(cells: New, base: TiledArray, version: int, scale: float | None) -> SetCells:
    """The cells that are to be set, with what they are to hold, in the version of an array that this makes. Raises
    BadInput as `TiledRun.refresh` does."""
    named = None if isinstance(cells, (str, os.PathLike)) else named_cells(cells, base, scale)
    if named is None:
        windows = windows_of(cells)
        check_is_no_mask(getattr(windows, "dtype", None))
        other = base.with_values(version, windows, scale)
        found = [_differing(base, other, rect) for rect in _blocks(base.shape)]
        where, values, empty = (np.concatenate(parts) for parts in zip(*found))
    else:
        places, values, empty = named
        where = np.ravel_multi_index(tuple(places.T), base.shape) if len(places) else NONE
    indexes, last = np.unique(where[::-1], return_index=True)  # of a cell that is there twice the last one stands
    at = len(where) - 1 - last
    return SetCells(indexes.astype(np.int64), np.where(empty, 0, values)[at], empty[at])


def _differing(base: TiledArray, other: TiledArray, rect: Rect) -> tuple[Indexes, NDArray[Any], NDArray[Any]]:
    """The cells of a rectangle in which another array differs, what it holds there, and which are empty."""
    room = (layers_of(base.shape), rect.height, rect.width)
    (old, holes), (new, empty) = ([part.reshape(room) for part in one.read(rect)] for one in (base, other))
    layers, rows, columns = at = np.nonzero((holes != empty) | ~holes & (old != new))
    return together(layers, rows + rect.top, columns + rect.left, base.shape), new[at], empty[at]


def _blocks(shape: Shape) -> Iterator[Rect]:
    """The rectangles of an array that are read one by one."""
    side, (height, width) = isqrt(MOST_CELLS // layers_of(shape)), shape[-2:]
    for top in range(0, height, side):
        for left in range(0, width, side):
            yield Rect(top, min(top + side, height), left, min(left + side, width))


def _values_at(run: TiledRun, place: Place, cells: Indexes) -> tuple[NDArray[Any], NDArray[Any]]:
    """What cells of an array of a run hold, and which are empty."""
    if isinstance(place, Input):
        return run.base[place.number].at(cells)
    return run._making.values_at(place, cells)


def _told(cells: Indexes, shape: Shape, as_cells: bool) -> NDArray[Any]:
    """Cells as the caller wants them."""
    return listed(cells, shape) if as_cells else mask_of(cells, shape)
