"""What a viewer has selected: rectangles of one array, and perhaps a set of cells that came from Python."""

from __future__ import annotations

from dataclasses import dataclass
from typing import Any

import numpy as np

from ..cells import Mask, Shape
from ..faults import BadInput
from .lineage import Sense

MOST_PARTS = 4096


@dataclass(frozen=True)
class Question:
    """What a viewer asks: the cells of one panel's array, and in which sense.

    `parts` are rectangles: layer, first row, first column, last row, last column. `kept` is the number of a set of
    cells that came from Python, None where there is none.
    """

    array: int
    parts: tuple[tuple[int, int, int, int, int], ...]
    kept: int | None
    sense: Sense

    @classmethod
    def read(cls, given: Any) -> Question:
        """The question in what JSON gave. Raises BadInput where it is none."""
        if not isinstance(given, dict) or set(given) != {"array", "parts", "kept", "sense"}:
            raise BadInput("a question has the fields array, parts, kept and sense")
        array, parts, kept, sense = given["array"], given["parts"], given["kept"], given["sense"]
        if not _is_number(array) or not (kept is None or _is_number(kept)):
            raise BadInput("an array and a kept selection are numbers")
        if sense not in ("stood", "could"):
            raise BadInput("the sense is neither stood nor could")
        if not isinstance(parts, list) or len(parts) > MOST_PARTS:
            raise BadInput(f"the parts are a list of at most {MOST_PARTS} rectangles")
        for part in parts:
            if not isinstance(part, list) or len(part) != 5 or not all(map(_is_number, part)):
                raise BadInput("a rectangle is five numbers: layer, first row and column, last row and column")
        return cls(array, tuple((part[0], part[1], part[2], part[3], part[4]) for part in parts), kept, sense)

    def mask(self, shape: Shape) -> Mask:
        """The cells of the rectangles in an array of this shape, as a boolean array. Raises BadInput out of range."""
        mask = np.zeros(shape, dtype=bool)
        layers = mask if mask.ndim == 3 else mask[None]
        for layer, top, left, bottom, right in self.parts:
            if layer >= layers.shape[0] or not top <= bottom < layers.shape[1] or not left <= right < layers.shape[2]:
                raise BadInput(f"a rectangle lies out of range of an array of shape {shape}")
            layers[layer, top : bottom + 1, left : right + 1] = True
        return mask


def _is_number(value: Any) -> bool:
    """Whether a JSON value is a whole number that is not below 0."""
    return isinstance(value, int) and not isinstance(value, bool) and 0 <= value < 2**31
