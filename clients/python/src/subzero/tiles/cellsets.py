"""Sets of cells of large arrays: rising row-major indexes, int64, each once.

A question about one cell of a large image so costs what is found, and not what the image holds.
"""

from __future__ import annotations

from typing import Any, TypeAlias

import numpy as np
from numpy.typing import NDArray

from ..cells import Cells, Shape, cells_of
from ..geometry import Rect, layers_of

Indexes: TypeAlias = NDArray[Any]
"""Rising row-major indexes of cells of an array, int64, each once."""

NONE = np.zeros(0, dtype=np.int64)


def indexes_of(cells: Cells, shape: Shape) -> Indexes:
    """The cells that a caller names, as `cells_of` takes them. Raises BadInput."""
    given = np.asarray(cells)
    if given.dtype == bool and given.shape == shape:
        return np.flatnonzero(given)
    one_by_one = cells_of(cells, shape)
    if not len(one_by_one):
        return NONE
    found: Indexes = np.unique(np.ravel_multi_index(tuple(one_by_one.T), shape)).astype(np.int64)
    return found


def mask_of(indexes: Indexes, shape: Shape) -> NDArray[Any]:
    """The boolean array of the shape that is True in these cells."""
    mask = np.zeros(shape, dtype=bool)
    mask.reshape(-1)[indexes] = True
    return mask


def listed(indexes: Indexes, shape: Shape) -> NDArray[Any]:
    """The cells one by one, int64 of shape (N, axes)."""
    return np.stack(np.unravel_index(indexes, shape), axis=1).astype(np.int64).reshape(-1, len(shape))


def apart(indexes: Indexes, shape: Shape) -> tuple[NDArray[Any], NDArray[Any], NDArray[Any]]:
    """The layers, rows and columns of cells."""
    height, width = shape[-2:]
    rows, columns = np.divmod(indexes, width)
    layers, rows = np.divmod(rows, height)
    return layers, rows, columns


def together(layers: NDArray[Any], rows: NDArray[Any], columns: NDArray[Any], shape: Shape) -> Indexes:
    """The row-major indexes of cells, in their order."""
    height, width = shape[-2:]
    found: NDArray[Any] = (layers * height + rows) * width + columns
    return found


def union(parts: list[Indexes]) -> Indexes:
    """All cells of several sets."""
    parts = [part for part in parts if part.size]
    if len(parts) <= 1:
        return parts[0] if parts else NONE
    every: Indexes = np.unique(np.concatenate(parts))
    return every


def within(indexes: Indexes, rect: Rect, shape: Shape) -> Indexes:
    """The cells of a set that lie in a rectangle, in any layer."""
    height, width = shape[-2:]
    parts = []
    for layer in range(layers_of(shape)):
        first = (layer * height + rect.top) * width
        start, end = np.searchsorted(indexes, (first, first + rect.height * width))
        part = indexes[start:end]
        columns = part % width
        parts.append(part[(columns >= rect.left) & (columns < rect.right)])
    return parts[0] if len(parts) == 1 else np.concatenate(parts)


def hull_of(indexes: Indexes, shape: Shape) -> Rect:
    """The least rectangle round some cells, of whatever layers; there is at least one."""
    _, rows, columns = apart(indexes, shape)
    return Rect(int(rows.min()), int(rows.max()) + 1, int(columns.min()), int(columns.max()) + 1)


def to_local(indexes: Indexes, shape: Shape, rect: Rect) -> NDArray[Any]:
    """Cells as the array of a tile counts them that holds `rect` alone: (N, 3), layer, row, column."""
    layers, rows, columns = apart(indexes, shape)
    return np.stack([layers, rows - rect.top, columns - rect.left], axis=1)


def to_whole(cells: NDArray[Any], shape: Shape, rect: Rect) -> Indexes:
    """The cells, (N, 3), of a tile's array that holds `rect`, as indexes of the whole."""
    return np.sort(together(cells[:, 0], cells[:, 1] + rect.top, cells[:, 2] + rect.left, shape))


def neighbours(indexes: Indexes, shape: Shape) -> Indexes:
    """The cells and their four neighbours in the layer."""
    height, width = shape[-2:]
    _, rows, columns = apart(indexes, shape)
    return union(
        [
            indexes,
            indexes[rows > 0] - width,
            indexes[rows < height - 1] + width,
            indexes[columns > 0] - 1,
            indexes[columns < width - 1] + 1,
        ]
    )
