"""A catalogue's rows: what stands behind each region of a run, and what could change it.

The cells behind a region lie in a rectangle that the operators' reach gives. Regions whose rectangles do not meet are
asked about together, since each cell of the answer is then behind one of them. So a catalogue of stars that stand apart
costs a few asks, however many they are; where each region stands on the whole array there is an ask for each.
"""

from __future__ import annotations

from collections.abc import Sequence
from typing import TYPE_CHECKING

import numpy as np
from numpy.typing import NDArray

from .cells import Cells, Integers, Mask, Shape, cells_of, mask_of
from .faults import BadInput
from .flow import Node, Place
from .geometry import CUT, Rect, needed, whole
from .later import Future
from .paths import places_between
from .spread import beside, spread_later

if TYPE_CHECKING:
    from .run import Array, Run

_AT_ONCE = 32


def suspects_table(run: Run, labels: Array, bad: Cells, base: Array) -> NDArray[np.void]:
    """What stands behind each region of a run, and what could change it: a structured array of one row a region, in
    the order of their labels.

    `labels` is a `regions` node, and `bad` are cells of `base`, an array of the run that it was made of. The fields
    are:

    - `label`; `row` and `column` of the region's first cell (in an array of 3 axes `layer` too); `cells`, how many it
      has
    - `raw`: how many cells of `base` it was made of, as `run.back` gives them; `bad_behind`: how many of them are bad
    - `bad_could_change`: how many bad cells its labels rest on, as `run.support` gives them. Where it is 0 each of its
      cells has the same label, whatever the bad cells would have held
    - `border`: whether it touches the border of its layer, so that a part of it may lie outside

    Raises BadInput where `labels` is no `regions` node, where no path leads from it back to `base`, and for cells out
    of range.

    >>> subzero.suspects_table(run, labels, [(0, 2)], sky).tolist()
    [(2, 0, 1, 3, 3, 0, 1, True), (11, 2, 2, 3, 3, 0, 0, True)]
    """
    node = run.places(labels)[0]
    if not isinstance(node, Node) or node.op != "regions":
        raise BadInput(f"{node} is no node of regions")
    shape = run.shape(node)
    where = mask_of(cells_of(bad, run.shape(base)), run.shape(base))
    chain = places_between(run.flow, [node], run.places(base))
    if not chain:
        raise BadInput(f"no path leads from {labels} back to {base}")
    values = run.values(node).filled(0)
    groups = _groups(values)
    counts = _counted(run, node, base, chain, groups, where)
    axes = ["layer", "row", "column"][-len(shape) :]
    names = ["label", *axes, "cells", "raw", "bad_behind", "bad_could_change"]
    table = np.zeros(len(groups), dtype=[*((name, np.int64) for name in names), ("border", np.bool_)])
    for number, cells in enumerate(groups):
        ends = (cells[:, -2:] == 0) | (cells[:, -2:] == np.array(shape[-2:]) - 1)
        table[number] = (values[tuple(cells[0])], *cells[0], len(cells), *counts[number], ends.any())
    return table


def _groups(labels: Integers) -> list[Integers]:
    """The cells of each label above 0, by rising labels, whole numbers of shape (N, axes) in row-major order."""
    flat = labels.ravel()
    order = np.argsort(flat, kind="stable")[np.count_nonzero(flat <= 0) :]
    parts = np.split(order, np.flatnonzero(np.diff(flat[order])) + 1) if order.size else []
    return [np.stack(np.unravel_index(part, labels.shape), axis=1) for part in parts]


def _counted(
    run: Run, labels: Node, base: Array, chain: Sequence[Place], groups: Sequence[Integers], bad: Mask
) -> Integers:
    """Of each region how many cells of `base` are behind it, how many of them are bad, and how many bad cells could
    change it: of shape (regions, 3). `regions` relates each of a region's cells to exactly the region, so that it is
    asked from there on.
    """
    counts = np.zeros((len(groups), 3), dtype=np.int64)
    rects = [_behind(run, labels, base, chain, cells) for cells in groups]
    batches = apart(rects, bad.shape)
    for at in range(0, len(batches), _AT_ONCE):
        asked: list[tuple[list[int], Future[Mask], Future[Mask]]] = []
        for batch in batches[at : at + _AT_ONCE]:
            cells = mask_of(np.concatenate([groups[number] for number in batch]), run.shape(labels))
            behind = _raw_later(run, labels, cells, base, supports=False)
            asked.append((batch, behind, _raw_later(run, labels, cells | beside(cells), base, supports=True)))
        for batch, later, fixing in asked:
            found = later.result()
            owner = _owners(rects, batch, bad.shape)
            for field, mask in enumerate((found, found & bad, fixing.result() & bad)):
                each = np.bincount(owner[np.nonzero(mask)[-2:]], minlength=len(batch) + 1)
                assert each[0] == 0, "a cell behind a region lies outside its rectangle"
                counts[batch, field] = each[1:]
    return counts


def _behind(run: Run, labels: Node, base: Array, chain: Sequence[Place], cells: Integers) -> Rect:
    """A rectangle of `base` that holds all cells behind a region and behind the cells beside it."""
    (top, left), (bottom, right) = cells[:, -2:].min(axis=0).tolist(), cells[:, -2:].max(axis=0).tolist()
    source = labels.sources[0]
    around = Rect(top - 1, bottom + 2, left - 1, right + 2).common(whole(run.shape(source)))
    assert around is not None
    rects: dict[Place, Rect] = {source: around}
    for node in reversed(chain):
        if isinstance(node, Node) and node in rects:
            for number, place in enumerate(node.sources):
                if place in chain:
                    shape = run.shape(place)
                    found = whole(shape) if node.op == CUT else needed(node, number, rects[node], shape)
                    rects[place] = found.hull(rects.get(place))
    ends = [rects[place] for place in run.places(base) if place in rects]
    found = ends[0]
    for one in ends[1:]:
        found = found.hull(one)
    return found


def apart(rects: Sequence[Rect], shape: Shape) -> list[list[int]]:
    """The numbers of rectangles of an array in groups, in each of which no two have a cell in common.

    >>> apart([Rect(0, 2, 0, 2), Rect(1, 3, 1, 3), Rect(0, 2, 2, 4), Rect(0, 4, 0, 4)], (4, 4))
    [[3], [0, 2], [1]]
    """
    everything = whole(shape)
    groups = [[number] for number, rect in enumerate(rects) if rect == everything]
    left = [number for number, rect in enumerate(rects) if rect != everything]
    while left:
        taken = np.zeros(shape[-2:], dtype=bool)
        group: list[int] = []
        rest: list[int] = []
        for number in left:
            top, bottom, first, last = rects[number]
            part = taken[top:bottom, first:last]
            if part.any():
                rest.append(number)
            else:
                group.append(number)
                part[:] = True
        groups.append(group)
        left = rest
    return groups


def _owners(rects: Sequence[Rect], batch: Sequence[int], shape: Shape) -> NDArray[np.int32]:
    """For each row and column which rectangle of a group it lies in: its place in the group from 1, 0 for none."""
    owner = np.zeros(shape[-2:], dtype=np.int32)
    for place, number in enumerate(batch, 1):
        top, bottom, first, last = rects[number]
        owner[top:bottom, first:last] = place
    return owner


def _raw_later(run: Run, labels: Node, mask: Mask, base: Array, *, supports: bool) -> Future[Mask]:
    """The cells of `base` behind these cells of what `labels` takes."""
    source = labels.sources[0]
    if source in run.places(base):
        return Future([], "", lambda texts: mask)
    return spread_later(run, "back", source, np.argwhere(mask), base, supports=supports)
