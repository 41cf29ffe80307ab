"""What the operators do, told a second time by numpy and scipy.ndimage.

Arrays here have 3 axes (layer, row, column), and are a pair: values, Python's whole numbers in an array of objects, and
which of them are empty. Lineage is told by boolean arrays.
"""

# mypy: disable-error-code="no-any-return"

from __future__ import annotations

from collections.abc import Callable
from typing import Any

import numpy as np
from scipy import ndimage

SQUARE = np.ones((1, 3, 3), dtype=bool)
CROSS = np.zeros((3, 3, 3), dtype=bool)
CROSS[1] = [[0, 1, 0], [1, 1, 1], [0, 1, 0]]

Array = np.ndarray[Any, Any]
Grid = tuple[Array, Array]


def grid_of(array: Any) -> Grid:
    """A numpy array of 2 or 3 axes, masked or not, as a grid."""
    values = np.ma.getdata(array).astype(object)
    empty = np.ma.getmaskarray(array)
    values = np.where(empty, 0, values)
    return (values[None], empty[None].copy()) if values.ndim == 2 else (values, empty.copy())


def fitted(values: Array, empty: Array) -> Grid:
    """What is no whole number of 64 bits is empty; empty cells hold 0."""
    with np.errstate(all="ignore"):
        empty = empty | (values < -(2**63)).astype(bool) | (values > 2**63 - 1).astype(bool)
    return np.where(empty, 0, values), empty


def high(grid: Grid, t: int) -> Array:
    return (grid[0] >= t).astype(bool) & ~grid[1]


def moved(array: Array, rows: int, cols: int, outside: Any) -> Array:
    """The array with each cell holding what stands so many rows down and columns right of it, `outside` beyond the
    edge.
    """
    out = np.full_like(array, outside)
    height, width = array.shape[1:]
    if abs(rows) < height and abs(cols) < width:
        out[:, max(0, -rows) : height - max(0, rows), max(0, -cols) : width - max(0, cols)] = array[
            :, max(0, rows) : height + min(0, rows), max(0, cols) : width + min(0, cols)
        ]
    return out


def offsets(kernel: list[list[int]]) -> list[tuple[int, int, int]]:
    high_half, wide_half = len(kernel) // 2, len(kernel[0]) // 2
    return [(r - high_half, c - wide_half, w) for r, row in enumerate(kernel) for c, w in enumerate(row) if w != 0]


def folded(values: Array, empty: Array, fold: str) -> Grid:
    """The fold over the last axis."""
    there = (~empty).sum(axis=-1)
    if fold == "count":
        return there.astype(object), np.zeros(there.shape, dtype=bool)
    if fold == "sum":
        out = np.where(empty, 0, values).sum(axis=-1)
    elif fold == "min":
        out = np.where(empty, 2**64, values).min(axis=-1)
    else:
        out = np.where(empty, -(2**64), values).max(axis=-1)
    return np.where(there == 0, 0, out), there == 0


def evaluate(op: str, p: dict[str, Any], grids: list[Grid]) -> Grid:
    """The operator's output."""
    values, empty = grids[0]
    if op in ("neg", "abs", "add_k", "mul_k", "clip"):
        calls: dict[str, Callable[[], Any]] = {
            "neg": lambda: -values,
            "abs": lambda: abs(values),
            "add_k": lambda: values + p["k"],
            "mul_k": lambda: values * p["k"],
            "clip": lambda: np.minimum(np.maximum(values, p["lo"]), p["hi"]),
        }
        return fitted(calls[op](), empty)
    if op in ("add", "sub", "mul", "min", "max"):
        call: Any = {"add": np.add, "sub": np.subtract, "mul": np.multiply, "min": np.minimum, "max": np.maximum}[op]
        return fitted(call(values, grids[1][0]), empty | grids[1][1])
    if op == "transpose":
        return values.swapaxes(1, 2), empty.swapaxes(1, 2)
    if op == "slice":
        part = np.s_[:, p["r0"] : p["r0"] + p["h"], p["c0"] : p["c0"] + p["w"]]
        return values[part], empty[part]
    if op == "convolve":
        total, holes = np.zeros_like(values), np.zeros_like(empty)
        for rows, cols, weight in offsets(p["kernel"]):
            total = total + weight * moved(values, rows, cols, 0)
            holes |= moved(empty, rows, cols, False)
        return fitted(total, holes)
    if op == "block":
        layers, height, width = values.shape
        h, w = min(p["h"], height), min(p["w"], width)
        tall, wide = -(-height // h), -(-width // w)
        pad = ((0, 0), (0, tall * h - height), (0, wide * w - width))
        shape = (layers, tall, h, wide, w)
        blocks = np.pad(values, pad).reshape(shape).swapaxes(2, 3).reshape(layers, tall, wide, h * w)
        holes = (
            np.pad(empty, pad, constant_values=True).reshape(shape).swapaxes(2, 3).reshape(layers, tall, wide, h * w)
        )
        return fitted(*folded(blocks, holes, p["fold"]))
    if op == "fold_layers":
        out, holes = folded(np.moveaxis(values, 0, -1), np.moveaxis(empty, 0, -1), p["fold"])
        return fitted(out[None], holes[None])
    if op == "lookup":
        column, found = matches(grids)
        table, holes = grids[1]
        return np.where(found, table[0, 0][column], 0), ~found | holes[0, 0][column]
    if op == "regions":
        hot = high(grids[0], p["t"])
        labels, count = ndimage.label(hot, CROSS)
        index = np.arange(values.size).reshape(values.shape)
        least = ndimage.minimum(index, labels, np.arange(count + 1)) if count else np.zeros(1)
        return np.where(hot, 1 + least[labels].astype(np.int64), 0).astype(object), np.zeros_like(empty)
    assert op == "clean"
    hot = high(grids[0], p["t"])
    cool = np.where(hot | empty, 2**64, values)
    least = np.full_like(values, 2**64)
    for rows in (-1, 0, 1):
        for cols in (-1, 0, 1):
            least = np.minimum(least, moved(cool, rows, cols, 2**64))
    out = np.where(hot, least, values)
    return np.where(out == 2**64, 0, out), empty | (hot & (least == 2**64).astype(bool))


def matches(grids: list[Grid]) -> tuple[Array, Array]:
    """The column that each cell names, and whether it names one."""
    (values, empty), (table, _) = grids
    found = ~empty & (values >= 0).astype(bool) & (values < table.shape[2]).astype(bool)
    return np.where(found, values, 0).astype(int), found


def back(op: str, p: dict[str, Any], grids: list[Grid], number: int, cells: Array) -> Array:
    """The cells of input `number` behind `cells` of the output."""
    shape = grids[0][0].shape
    if op == "lookup" and number == 1:
        column, found = matches(grids)
        out = np.zeros(grids[1][0].shape, dtype=bool)
        out[0, 0, column[found & cells]] = True
        return out
    if op == "transpose":
        return cells.swapaxes(1, 2)
    if op == "slice":
        out = np.zeros(shape, dtype=bool)
        out[:, p["r0"] : p["r0"] + p["h"], p["c0"] : p["c0"] + p["w"]] = cells
        return out
    if op == "convolve":
        return ndimage.binary_dilation(cells, footprint(p["kernel"]))
    if op == "block":
        rows, cols = np.arange(shape[1]) // p["h"], np.arange(shape[2]) // p["w"]
        return cells[:, rows][:, :, cols]
    if op == "fold_layers":
        return np.broadcast_to(cells, shape).copy()
    if op == "regions":
        labels, _ = ndimage.label(high(grids[0], p["t"]), CROSS)
        return cells & (labels == 0) | np.isin(labels, labels[cells & (labels > 0)])
    if op == "clean":
        hot = high(grids[0], p["t"])
        return cells & ~hot | ndimage.binary_dilation(cells & hot, SQUARE)
    return cells.copy()


def forward(op: str, p: dict[str, Any], grids: list[Grid], number: int, cells: Array) -> Array:
    """The cells of the output that `cells` of input `number` touched."""
    if op == "lookup" and number == 1:
        column, found = matches(grids)
        return found & cells[0, 0][column]
    if op == "slice":
        return cells[:, p["r0"] : p["r0"] + p["h"], p["c0"] : p["c0"] + p["w"]]
    if op == "convolve":
        return ndimage.binary_dilation(cells, footprint(p["kernel"])[:, ::-1, ::-1])
    if op == "block":
        touched, _ = evaluate("block", {**p, "fold": "sum"}, [(cells.astype(object), np.zeros_like(cells))])
        return (touched > 0).astype(bool)
    if op == "fold_layers":
        return cells.any(axis=0, keepdims=True)
    if op == "clean":
        hot = high(grids[0], p["t"])
        return cells & ~hot | ndimage.binary_dilation(cells, SQUARE) & hot
    return back(op, p, grids, number, cells)


def footprint(kernel: list[list[int]]) -> Array:
    return (np.array(kernel) != 0)[None]


STRATEGIES = "map blackbox full_one_b full_one_f full_many_b full_many_f pay_one pay_many comp_one comp_many".split()


def supports(op: str, strategy: str) -> bool:
    """Whether an operator's lineage can be kept by a strategy."""
    mapped = op not in ("lookup", "regions", "clean")
    return {"map": mapped, "pay": not mapped, "com": not mapped}.get(strategy[:3], True)
