"""Which cells of its inputs a rectangle of an operator's output needs, operator by operator; and the shapes that the
program gives to the arrays of a tile.

A rectangle stands for its cells in all layers. Two things are told apart: what an output's cells are made of
(`needed`), and how large the program's input must be for its output to have a certain place (`demanded`), since the
program gives the output of `convolve` the shape of its input.
"""

from __future__ import annotations

from typing import NamedTuple, TypeAlias

from .cells import Shape
from .flow import Node

CUT = "regions"
"""The operator at which a flow is cut into stages: its labels need the whole array."""

PAIRS = ("add", "sub", "mul", "min", "max")
"""The operators of two inputs of one shape."""


class Rect(NamedTuple):
    """Rows from `top` to below `bottom` and columns from `left` to below `right`; at least one cell."""

    top: int
    bottom: int
    left: int
    right: int

    @property
    def height(self) -> int:
        """How many rows it has."""
        return self.bottom - self.top

    @property
    def width(self) -> int:
        """How many columns it has."""
        return self.right - self.left

    @property
    def area(self) -> int:
        """How many cells of one layer it has."""
        return self.height * self.width

    def hull(self, other: Rect | None) -> Rect:
        """The least rectangle round both."""
        if other is None:
            return self
        return Rect(
            min(self.top, other.top),
            max(self.bottom, other.bottom),
            min(self.left, other.left),
            max(self.right, other.right),
        )

    def common(self, other: Rect) -> Rect | None:
        """The cells in both, or None."""
        return rect_of(
            max(self.top, other.top),
            min(self.bottom, other.bottom),
            max(self.left, other.left),
            min(self.right, other.right),
        )

    def turned(self) -> Rect:
        """Rows as columns."""
        return Rect(self.left, self.right, self.top, self.bottom)

    def moved(self, rows: int, columns: int) -> Rect:
        """So many rows down and columns right."""
        return Rect(self.top + rows, self.bottom + rows, self.left + columns, self.right + columns)


Reach: TypeAlias = tuple[int, int, int, int]
"""How far an operator looks round a cell: up, down, left, right."""


def rect_of(top: int, bottom: int, left: int, right: int) -> Rect | None:
    """The rectangle, or None where it has no cell."""
    return Rect(top, bottom, left, right) if top < bottom and left < right else None


def whole(shape: Shape) -> Rect:
    """All rows and columns of an array."""
    return Rect(0, shape[-2], 0, shape[-1])


def layers_of(shape: Shape) -> int:
    """How many layers an array of this shape has."""
    return shape[0] if len(shape) == 3 else 1


def needed(node: Node, number: int, wanted: Rect, shape: Shape) -> Rect:
    """The cells of input `number`, whose shape is `shape`, that the output's cells `wanted` are made of.

    Of `regions` these are the same cells: that its labels need more is what the joining of seams is for.
    """
    if node.op == "lookup" and number == 1:
        return whole(shape)
    if node.op in ("convolve", "clean"):
        up, down, left, right = reach(node)
        height, width = shape[-2:]
        return Rect(
            max(0, wanted.top - up),
            min(height, wanted.bottom + down),
            max(0, wanted.left - left),
            min(width, wanted.right + right),
        )
    return demanded(node, number, wanted, shape)


def reach(node: Node) -> Reach:
    """How far `convolve` or `clean` looks round a cell."""
    if node.op == "clean":
        return 1, 1, 1, 1
    kernel = node.parameters["kernel"]
    high, wide = len(kernel) // 2, len(kernel[0]) // 2
    rows = [row - high for row, weights in enumerate(kernel) if any(weights)]
    columns = [column - wide for column in range(len(kernel[0])) if any(weights[column] for weights in kernel)]
    return -min(0, *rows, 0), max(0, *rows, 0), -min(0, *columns, 0), max(0, *columns, 0)


def demanded(node: Node, number: int, place: Rect, shape: Shape) -> Rect:
    """Where input `number` of a tile must lie for the tile's output to lie at `place`; of `slice` and `regions` at
    least there, since they are cut out of it."""
    op, given = node.op, node.parameters
    if op == "lookup" and number == 1:
        return whole(shape)
    if op == "transpose":
        return place.turned()
    if op == "slice":
        return place.moved(given["r0"], given["c0"])
    if op == "block":
        high, wide = given["h"], given["w"]
        height, width = shape[-2:]
        return Rect(
            place.top * high,
            min(height, place.bottom * high),
            place.left * wide,
            min(width, place.right * wide),
        )
    return place


def placed(node: Node, number: int, place: Rect) -> Rect | None:
    """Where a tile's output lies when its input `number` lies at `place`; None where the output may lie anywhere
    within."""
    op, given = node.op, node.parameters
    if op in ("slice", CUT) or (op == "lookup" and number == 1):
        return None
    if op == "transpose":
        return place.turned()
    if op == "block":
        high, wide = given["h"], given["w"]
        return Rect(place.top // high, -(-place.bottom // high), place.left // wide, -(-place.right // wide))
    return place
