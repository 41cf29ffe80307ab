"""Cells and values as bytes, as the page's script reads them."""

from __future__ import annotations

from typing import TypeAlias

import numpy as np
import numpy.typing as npt

from ..cells import Integers, Mask, Values

Runs: TypeAlias = npt.NDArray[np.uint32]

_KINDS = (("i1", 8), ("i2", 16), ("i4", 32))


def runs_of(mask: Mask) -> Runs:
    """The cells of a boolean array as runs within rows: uint32 of shape (N, 2), first cell and how many.

    Cells are counted row by row through the layers. The runs rise, and are as long as they can be.
    """
    cells = np.flatnonzero(mask)
    if cells.size == 0:
        return np.zeros((0, 2), dtype=np.uint32)
    first = np.ones(cells.size, dtype=bool)
    first[1:] = (np.diff(cells) != 1) | (cells[1:] % mask.shape[-1] == 0)
    starts = np.flatnonzero(first)
    runs: Runs = np.stack([cells[starts], np.diff(starts, append=cells.size)], axis=1).astype(np.uint32)
    return runs


def mask_of_runs(runs: Runs, shape: tuple[int, ...]) -> Mask:
    """The boolean array of `shape` whose cells are these runs."""
    size = int(np.prod(shape))
    turns = np.zeros(size + 1, dtype=np.int64)
    np.add.at(turns, runs[:, 0], 1)
    np.add.at(turns, runs[:, 0].astype(np.int64) + runs[:, 1], -1)
    mask: Mask = (np.cumsum(turns[:-1]) > 0).reshape(shape)
    return mask


def kind_of(values: Integers) -> str:
    """The narrowest of i1, i2, i4 and i8 that holds all values."""
    least, greatest = int(values.min()), int(values.max())
    for kind, bits in _KINDS:
        if -(2 ** (bits - 1)) <= least and greatest < 2 ** (bits - 1):
            return kind
    return "i8"


def bytes_of(values: Values, kind: str) -> bytes:
    """The values, little-endian of this kind, row by row; and behind them, where some are empty, a bit a cell."""
    text: bytes = np.ma.getdata(values).astype("<" + kind).tobytes()
    empty = np.ma.getmaskarray(values)
    return text + np.packbits(empty).tobytes() if empty.any() else text
