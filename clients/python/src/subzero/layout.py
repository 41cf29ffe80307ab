"""Where the arrays of a flow stand in a picture: in columns, each right of what it takes, with lines beside them.

A line that passes a column gets a strip of its own there, so that it runs over no array.
"""

from __future__ import annotations

from collections.abc import Hashable, Mapping, Sequence
from dataclasses import dataclass, field
from typing import Generic, TypeVar

from matplotlib.path import Path

T = TypeVar("T", bound=Hashable)

BETWEEN, STRIP, TICKS = 0.85, 0.3, 0.36
"""Inches: between two columns, the height of a strip, and what the numbers left of a picture take."""

Point = tuple[float, float]


@dataclass
class Page(Generic[T]):
    """Where things stand, in inches from the left and from the top.

    `corners` has the upper left corner of each thing, `lines` the points of each line, in the order of the pairs.
    """

    width: float
    height: float
    corners: dict[T, Point] = field(default_factory=dict)
    lines: list[list[Point]] = field(default_factory=list)


def columns(sizes: Mapping[T, tuple[float, float]], pairs: Sequence[tuple[T, T]]) -> Page[T]:
    """Lay out things of these sizes (width, height), told in the order of a flow, with a line for each pair from the
    first to the second.
    """
    column = _columns_of(list(sizes), pairs)
    last = max(column.values())
    stacks: list[list[object]] = [[] for _ in range(last + 1)]
    for thing, number in column.items():
        stacks[number].append(thing)
    strips = dict.fromkeys(
        (source, number) for source, end in pairs for number in range(column[source] + 1, column[end])
    )
    for strip in strips:
        stacks[strip[1]].append(strip)
    links = [link for pair in pairs for link in _links(pair, column)]
    _order(stacks, links)

    def height(item: object) -> float:
        return STRIP if item in strips else sizes[item][1]  # type: ignore[index]

    wide = max(size[0] for size in sizes.values())
    tall = max(sum(map(height, stack)) for stack in stacks)
    page: Page[T] = Page(width=(last + 1) * wide + last * BETWEEN, height=tall)
    middles: dict[object, float] = {}
    single = all(len(stack) == 1 for stack in stacks)
    for number, stack in enumerate(stacks):
        spare = 0.0 if single else (tall - sum(map(height, stack))) / (len(stack) + 1)
        top = spare
        for item in stack:
            if item in strips:
                middles[item] = top + STRIP / 2
            else:
                page.corners[item] = (number * (wide + BETWEEN), top)  # type: ignore[index]
                middles[item] = top + min(height(item), 2.6) / 2
            top += height(item) + spare
    entered: dict[T, int] = {}
    for source, end in pairs:
        number = entered[end] = entered.get(end, -1) + 1
        count = sum(1 for _, other in pairs if other == end)
        page.lines.append(_line(source, end, column, middles, wide, 0.16 * (number - (count - 1) / 2)))
    return page


def _columns_of(things: list[T], pairs: Sequence[tuple[T, T]]) -> dict[T, int]:
    """The column of each thing: one right of the last that it takes; what takes nothing stands beside the first that
    takes it.
    """
    column: dict[T, int] = {}
    for thing in things:
        column[thing] = 1 + max((column[source] for source, end in pairs if end == thing), default=-1)
    taking = {end for _, end in pairs}
    for thing in things:
        if thing not in taking:
            column[thing] = min((column[end] for source, end in pairs if source == thing), default=1) - 1
    return column


def _links(pair: tuple[T, T], column: dict[T, int]) -> list[tuple[object, object]]:
    """What follows what on the way of a line, strips among it."""
    source, end = pair
    way: list[object] = [source, *((source, number) for number in range(column[source] + 1, column[end])), end]
    return list(zip(way, way[1:]))


def _order(stacks: list[list[object]], links: list[tuple[object, object]]) -> None:
    """Order each stack so that lines cross little: each item at the mean height of what it hangs on, left to right,
    right to left, and left to right again.
    """

    def sweep(before: list[object], stack: list[object], hangs: list[tuple[object, object]]) -> None:
        heights = {item: (at + 0.5) / len(before) for at, item in enumerate(before)}

        def mean(item: object) -> float:
            found = [heights[other] for one, other in hangs if one == item and other in heights]
            return sum(found) / len(found) if found else (stack_before[item] + 0.5) / len(stack_before)

        stack_before = {item: at for at, item in enumerate(stack)}
        stack.sort(key=mean)

    back = [(end, source) for source, end in links]
    for turn in range(3):
        if turn % 2 == 0:
            for before, stack in zip(stacks, stacks[1:]):
                sweep(before, stack, back)
        else:
            for before, stack in zip(stacks[::-1], stacks[-2::-1]):
                sweep(before, stack, links)


def _line(
    source: T, end: T, column: dict[T, int], middles: dict[object, float], wide: float, shift: float
) -> list[Point]:
    """The points of a line: where it leaves, where it enters and leaves each strip, and where it ends."""
    left = [number * (wide + BETWEEN) for number in range(column[end] + 1)]
    points = [(left[column[source]] + wide + 0.06, middles[source])]
    for number in range(column[source] + 1, column[end]):
        height = middles[source, number]
        points += [(left[number] - TICKS, height), (left[number] + wide + 0.06, height)]
    return [*points, (left[column[end]] - TICKS, middles[end] + shift)]


def curve(points: Sequence[Point]) -> Path:
    """A path through the points, two and two joined by a curve that is level at both, and by a straight line between."""
    places, codes = [points[0]], [Path.MOVETO]
    for at in range(1, len(points)):
        (left, top), (right, bottom) = points[at - 1], points[at]
        if at % 2 == 0:
            places.append((right, bottom))
            codes.append(Path.LINETO)
            continue
        middle = (left + right) / 2
        places += [(middle, top), (middle, bottom), (right, bottom)]
        codes += [Path.CURVE4] * 3
    return Path(places, codes)
