"""Components joined over the seams between tiles.

Each tile's program numbers the components of its own cells. Their numbers are first made ones of the whole array: 1
plus the least index of the part that lies in the tile. Parts that meet over a seam are then joined, and all of them
take the least of their numbers: that is 1 plus the least index of the component in the whole.
"""

from __future__ import annotations

from collections.abc import Sequence
from dataclasses import dataclass
from typing import Any

import numpy as np
from numpy.typing import NDArray

from ..cells import Shape
from ..geometry import Rect, layers_of
from .cellsets import NONE, Indexes, apart, neighbours, together, union


@dataclass
class Labels:
    """The labels of a `regions`, of the whole array, and in which rectangles the parts of a component lie.

    `values` has 3 axes. `rects` are those of the tiles, `part_label` rises, and `part_rect` holds beside it the number
    of a rectangle in which this label stands.
    """

    shape: Shape
    values: NDArray[Any]
    rects: list[Rect]
    part_label: NDArray[Any]
    part_rect: NDArray[Any]

    def at(self, indexes: Indexes) -> NDArray[Any]:
        """The labels at cells."""
        found: NDArray[Any] = self.values.reshape(-1)[indexes]
        return found

    def related(self, indexes: Indexes, wide: bool, forward: bool) -> Indexes:
        """The cells to which these lead through the step: the components of the high ones, and the others themselves.

        `wide` says that a component stands on its cells' four neighbours too, and so can be changed by them.
        """
        labels = self.at(indexes)
        low = indexes[labels == 0]
        if wide and forward:
            around = neighbours(indexes, self.shape)
            labels = self.at(around)
        component = self.cells_of(np.unique(labels[labels > 0]))
        if wide and not forward:
            component = neighbours(component, self.shape)
        return union([low, component])

    def cells_of(self, labels: NDArray[Any]) -> Indexes:
        """The cells of components: looked for in every tile in which one of them lies."""
        if not labels.size:
            return NONE
        starts = np.searchsorted(self.part_label, labels, side="left")
        counts = np.searchsorted(self.part_label, labels, side="right") - starts
        first = np.repeat(starts - np.concatenate([[0], np.cumsum(counts)[:-1]]), counts)
        rects = np.unique(self.part_rect[first + np.arange(first.size)])
        return union([self._cells_in(self.rects[number], labels) for number in rects])

    def parts(self) -> list[tuple[Rect, NDArray[Any]]]:
        """The rectangles of the tiles, each with the different labels that stand in it, which rise."""
        order = np.argsort(self.part_rect, kind="stable")
        ends = np.searchsorted(self.part_rect[order], np.arange(1, len(self.rects)))
        return list(zip(self.rects, np.split(self.part_label[order], ends)))

    def rects_with(self, some: Sequence[bool]) -> NDArray[Any]:
        """Of each rectangle whether it is one of `some`, or has a part of a component that has one in these."""
        chosen = np.array(some, dtype=bool)
        components = np.unique(self.part_label[chosen[self.part_rect]])
        chosen[self.part_rect[np.isin(self.part_label, components)]] = True
        return chosen

    def _cells_in(self, rect: Rect, labels: NDArray[Any]) -> Indexes:
        part = self.values[:, rect.top : rect.bottom, rect.left : rect.right]
        if labels.size == 1:
            found = part == labels[0]
        else:
            found = labels[np.minimum(np.searchsorted(labels, part), labels.size - 1)] == part
        layers, rows, columns = np.nonzero(found)
        return together(layers, rows + rect.top, columns + rect.left, self.shape)


def empty_labels(shape: Shape) -> NDArray[Any]:
    """Room for the labels of a whole array, in as few bytes a label as the array's size allows."""
    size = int(np.prod(shape, dtype=object))
    return np.zeros((layers_of(shape), *shape[-2:]), dtype=np.int32 if size < 2**31 else np.int64)


def place_part(labels: NDArray[Any], shape: Shape, rect: Rect, local: NDArray[Any]) -> NDArray[Any]:
    """Write a tile's own labels, as its program gave them, into those of the whole; gives the different ones, which
    rise."""
    numbers = local.reshape(-1)
    stands = np.zeros(numbers.size + 1, dtype=bool)
    stands[numbers] = True
    stands[0] = False
    found = np.flatnonzero(stands)
    layers, rows, columns = apart(found - 1, (rect.height, rect.width))
    different: NDArray[Any] = 1 + together(layers, rows + rect.top, columns + rect.left, shape)
    moved = np.zeros(stands.size, dtype=labels.dtype)
    moved[found] = different
    part = moved[numbers].reshape(layers_of(shape), rect.height, rect.width)
    labels[:, rect.top : rect.bottom, rect.left : rect.right] = part
    return different


def join(shape: Shape, labels: NDArray[Any], parts: list[tuple[Rect, NDArray[Any]]]) -> Labels:
    """Join the parts that meet over seams. `parts` are the tiles' own rectangles with the different labels in each."""
    seams = [_touching(labels, rect) for rect, _ in parts]
    old, new = _roots(np.concatenate([*seams, np.zeros((0, 2), dtype=labels.dtype)]))
    rows: list[NDArray[Any]] = []
    tiles: list[NDArray[Any]] = []
    for number, (rect, different) in enumerate(parts):
        if old.size and different.size:
            renamed = _renamed(different, old, new)
            if not np.array_equal(renamed, different):
                window = labels[:, rect.top : rect.bottom, rect.left : rect.right]
                window[...] = _renamed(window, old, new)
                different = np.unique(renamed)
        rows.append(different)
        tiles.append(np.full(different.size, number, dtype=np.int32))
    every = np.concatenate([*rows, np.zeros(0, dtype=np.int64)])
    order = np.argsort(every, kind="stable")
    rects = [rect for rect, _ in parts]
    return Labels(shape, labels, rects, every[order], np.concatenate([*tiles, np.zeros(0, dtype=np.int32)])[order])


def _touching(labels: NDArray[Any], rect: Rect) -> NDArray[Any]:
    """The pairs of labels that meet over the lower and the right edge of a rectangle: of shape (N, 2), each once."""
    pairs = [np.zeros((0, 2), dtype=labels.dtype)]
    _, height, width = labels.shape
    if rect.bottom < height:
        above = labels[:, rect.bottom - 1, rect.left : rect.right]
        pairs.append(_pairs(above, labels[:, rect.bottom, rect.left : rect.right]))
    if rect.right < width:
        left = labels[:, rect.top : rect.bottom, rect.right - 1]
        pairs.append(_pairs(left, labels[:, rect.top : rect.bottom, rect.right]))
    return np.concatenate(pairs)


def _pairs(one: NDArray[Any], other: NDArray[Any]) -> NDArray[Any]:
    both = (one > 0) & (other > 0)
    pairs: NDArray[Any] = np.unique(np.stack([one[both], other[both]], axis=1), axis=0)
    return pairs


def _roots(pairs: NDArray[Any]) -> tuple[NDArray[Any], NDArray[Any]]:
    """The labels in pairs, rising, and beside each the least label to which pairs join it."""
    old, places = np.unique(pairs, return_inverse=True)
    ends = places.reshape(-1, 2)
    root = np.arange(old.size)
    while True:
        first, second = root[ends[:, 0]], root[ends[:, 1]]
        apart_ = first != second
        if not apart_.any():
            return old, old[root]
        least, most = np.minimum(first, second)[apart_], np.maximum(first, second)[apart_]
        np.minimum.at(root, most, least)
        _shorten(root)


def _shorten(root: NDArray[Any]) -> None:
    """Let each name the end of its chain."""
    while not np.array_equal(further := root[root], root):
        root[...] = further


def _renamed(labels: NDArray[Any], old: NDArray[Any], new: NDArray[Any]) -> NDArray[Any]:
    place = np.minimum(np.searchsorted(old, labels), old.size - 1)
    return np.where(old[place] == labels, new[place], labels)
