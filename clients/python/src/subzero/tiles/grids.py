"""How the cells of the arrays of a stage are shared out among its tiles.

An array that is kept is cut at multiples of the tile's side; the output of a node is cut where its first input is, as
the node moves cells. So a tile has much the same cells in all arrays, and each cell of an array is one tile's own.
"""

from __future__ import annotations

from bisect import bisect_right
from dataclasses import dataclass
from typing import Any, TypeAlias

import numpy as np
from numpy.typing import NDArray

from ..cells import Shape
from ..flow import Node
from ..geometry import Rect, rect_of

Spot: TypeAlias = tuple[int, int]
"""A tile of a stage: its row and its column among the tiles."""


@dataclass(frozen=True)
class Grid:
    """Where an array is cut: `first` are the cuts between rows of tiles, `second` those between columns of tiles.

    Rows of tiles are rows of the array, or columns where it is `turned`.
    """

    first: tuple[int, ...]
    second: tuple[int, ...]
    turned: bool = False

    @property
    def rows(self) -> tuple[int, ...]:
        """The cuts between rows of the array."""
        return self.second if self.turned else self.first

    @property
    def columns(self) -> tuple[int, ...]:
        """The cuts between columns of the array."""
        return self.first if self.turned else self.second

    def own(self, spot: Spot) -> Rect | None:
        """The cells of the array that are this tile's own."""
        if spot[0] + 1 >= len(self.first) or spot[1] + 1 >= len(self.second):
            return None
        row, column = reversed(spot) if self.turned else spot
        return rect_of(self.rows[row], self.rows[row + 1], self.columns[column], self.columns[column + 1])

    def spots(self, rows: NDArray[Any], columns: NDArray[Any]) -> NDArray[Any]:
        """The tiles whose own cells these are: of shape (N, 2)."""
        found = [
            np.searchsorted(cuts, at, side="right") - 1 for cuts, at in ((self.rows, rows), (self.columns, columns))
        ]
        return np.stack(found[::-1] if self.turned else found, axis=1)

    def spot(self, row: int, column: int) -> Spot:
        """The tile whose own cell this is."""
        found = bisect_right(self.rows, row) - 1, bisect_right(self.columns, column) - 1
        return (found[1], found[0]) if self.turned else found

    def after(self, node: Node) -> Grid:
        """Where the output of a node is cut whose first input is cut so."""
        given, rows, columns = node.parameters, self.rows, self.columns
        if node.op == "transpose":
            return Grid(self.first, self.second, not self.turned)
        if node.op == "slice":
            rows = tuple(min(max(cut - given["r0"], 0), given["h"]) for cut in rows)
            columns = tuple(min(max(cut - given["c0"], 0), given["w"]) for cut in columns)
        elif node.op == "block":
            rows = tuple(-(-cut // given["h"]) for cut in rows)
            columns = tuple(-(-cut // given["w"]) for cut in columns)
        else:
            return self
        return Grid(columns, rows, True) if self.turned else Grid(rows, columns)


def even(shape: Shape, side: int) -> Grid:
    """An array cut at multiples of the side."""
    height, width = shape[-2:]
    return Grid((*range(0, height, side), height), (*range(0, width, side), width))
