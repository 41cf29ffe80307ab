"""Values and cells as the caller has them, checked and brought into one form before anything is sent."""

from __future__ import annotations

import re
import reprlib
import sys
from collections.abc import Sequence
from dataclasses import dataclass
from typing import Any, TypeAlias, Union

import numpy as np
from numpy.typing import NDArray

from .faults import BadInput

Shape: TypeAlias = tuple[int, ...]
"""The shape of an array: (height, width), or (layers, height, width)."""

Mask: TypeAlias = NDArray[np.bool_]
"""A boolean array."""

Integers: TypeAlias = NDArray[np.int64]
"""An array of whole numbers."""

Values: TypeAlias = "np.ma.MaskedArray[Any, np.dtype[np.int64]]"
"""An array's values: int64, empty cells masked."""

Cells: TypeAlias = Union[NDArray[Any], Sequence[Sequence[int]], Sequence[int], "tuple[Any, ...]", slice]
"""Cells of an array, in one of these ways:

- a boolean mask of the array's shape (masked cells of it are not asked);
- one cell, (row, column) or (layer, row, column), as many numbers as the array has axes;
- several cells: a list of them, or an array of shape (N, axes);
- what numpy takes as an index: the arrays that `np.where` gives, or slices as `np.s_[2:5, :]` writes them.
"""

LEAST, GREATEST = -(2**63), 2**63 - 1
MOST_LAYERS, MOST_CELLS, MOST_BYTES = 16, 1_048_576, 33_554_432


def short(value: object) -> str:
    """The value in few words, whatever it is."""
    teller = reprlib.Repr()
    teller.maxstring = teller.maxother = 60
    if isinstance(value, np.ndarray):
        return f"an array of shape {value.shape} and type {value.dtype}"
    return " ".join(teller.repr(value).split())


def name_of(name: str) -> str:
    """The name, where it is one. Raises BadInput."""
    if not isinstance(name, str) or not re.fullmatch("[a-z0-9_]{1,32}", name):
        raise BadInput(f"{short(name)} is no name: 1 to 32 of the letters a to z, the digits and _")
    return name


def number_of(value: Any, what: str, least: int = LEAST, greatest: int = GREATEST) -> int:
    """The whole number from `least` to `greatest` that `value` is. Raises BadInput; `what` names it there."""
    if isinstance(value, (bool, np.bool_)) or not isinstance(value, (int, np.integer)):
        raise BadInput(f"{what} is {short(value)}, and must be a whole number")
    if not least <= value <= greatest:
        raise BadInput(f"{what} is {value}, and must lie from {least} to {greatest}")
    return int(value)


@dataclass(frozen=True)
class Given:
    """What was handed in, taken apart: its numbers as they came, which cells are empty, and its unit, or None."""

    data: NDArray[Any]
    empty: Mask
    unit: Any = None


def given(values: Any) -> Given:
    """What was handed in, with the mask and the unit that it carries.

    Masks are those of numpy's masked arrays and of astropy's `NDData`, `NDDataArray`, `CCDData` and `Masked`, and of
    lists of these; units those of astropy's containers and `Quantity`. Each None and `numpy.ma.masked` in a list is
    empty. Raises BadInput for what carries more than can be kept: an uncertainty, flags, a mask that is no boolean of
    the array's shape, units that differ, or a mask of another kind of container.
    """
    if isinstance(values, (list, tuple)) and not _plain_list(values):
        return _given_list(values)
    if _is(values, "astropy.nddata", "NDDataBase"):
        return _given_container(values)
    if _is(values, "astropy.utils.masked", "Masked"):
        inner = given(values.unmasked)
        return Given(inner.data, inner.empty | _mask(values.mask, inner.data.shape), inner.unit)
    if _is(values, "astropy.units", "Quantity"):
        inner = given(np.asanyarray(values.value))
        return Given(inner.data, inner.empty, values.unit)
    try:
        array = np.asanyarray(values)
    except ValueError as fault:
        raise BadInput(f"the values make no array: {fault}") from None
    if isinstance(array, np.ma.MaskedArray):
        empty = np.ma.getmaskarray(array).copy()
        data = np.asarray(np.ma.getdata(array))
        if empty.dtype != bool:
            raise BadInput(f"values of type {data.dtype} are no numbers that an array can hold")
    else:
        kept = getattr(values, "mask", None)
        if kept is not None and not callable(kept):
            raise BadInput(
                f"{type(values).__name__} has a mask of its own, which would be lost: hand in a masked array"
            )
        data = np.asarray(array)
        empty = np.zeros(data.shape, dtype=bool)
    unit = getattr(values, "unit", None) if isinstance(values, np.ndarray) else None  # as columns of tables have
    if data.dtype == object:
        empty |= np.asarray(data == None, dtype=bool)  # noqa: E711, cell by cell
    return Given(data, empty, unit)


def _is(values: object, module: str, name: str) -> bool:
    """Whether the values are of a class of a module that may not be loaded; where it is not, they are not."""
    loaded = sys.modules.get(module)
    return loaded is not None and isinstance(values, getattr(loaded, name, ()))


def _plain_list(values: Sequence[Any]) -> bool:
    """Whether nested lists hold nothing but numbers, texts and None."""
    for value in values:
        if isinstance(value, (list, tuple)):
            if not _plain_list(value):
                return False
        elif value is np.ma.masked or not (value is None or isinstance(value, (int, float, complex, str, np.generic))):
            return False
    return True


def _given_list(values: Sequence[Any]) -> Given:
    """A list of which some part is an array, or masked."""
    whole = [value for value in values if _is_part(value)]
    if not whole:
        return given(np.array([None if value is np.ma.masked else value for value in values], dtype=object))
    if len(whole) < len(values):
        raise BadInput("the values make no array: a list holds numbers and arrays")
    parts = [given(value) for value in values]
    if len({part.data.shape for part in parts}) > 1:
        raise BadInput("the values make no array: the parts of a list differ in shape")
    if len({str(part.unit) for part in parts}) > 1:
        raise BadInput(f"the parts of a list have several units: {', '.join(sorted({str(p.unit) for p in parts}))}")
    return Given(np.stack([part.data for part in parts]), np.stack([part.empty for part in parts]), parts[0].unit)


def _is_part(value: Any) -> bool:
    """Whether a list's element is an array, and no number."""
    return isinstance(value, (list, tuple)) or _is(value, "astropy.nddata", "NDDataBase") or np.ndim(value) > 0


def _given_container(values: Any) -> Given:
    """What a container of `astropy.nddata` holds."""
    kind = type(values).__name__
    for what in ("uncertainty", "flags"):
        if getattr(values, what, None) is not None:
            raise BadInput(
                f"the {what} of a {kind} cannot be kept: set x.{what} = None, or hand in "
                f"numpy.ma.MaskedArray(x.data, x.mask); the {what} can be an array of its own"
            )
    inner = given(values.data)
    empty = inner.empty
    if values.mask is not None:
        empty = empty | _mask(values.mask, inner.data.shape)
    return Given(inner.data, empty, inner.unit if values.unit is None else values.unit)


def _mask(mask: Any, shape: Shape) -> Mask:
    """A container's mask. Raises BadInput where it is none of the array's shape."""
    array = np.asarray(mask)
    if array.dtype != bool:
        raise BadInput(f"the mask holds {array.dtype}, and not True and False: make it boolean, as in mask != 0")
    if array.shape not in (shape, ()):
        raise BadInput(f"the mask has the shape {array.shape}, and the array {shape}")
    return np.broadcast_to(array, shape)


def values_of(values: Any, scale: float | None = None) -> tuple[Integers, Mask]:
    """The values as int64, and which of them are empty: two new arrays of the shape of `values`, of 2 or 3 axes.

    Empty are the masked cells of `given` and each None. Floats are multiplied by `scale` and rounded to the nearest
    whole number; without a `scale` they are refused. Raises BadInput, saying why, for what the program could not hold
    as it is.
    """
    return whole_numbers(given(values), scale)


def whole_numbers(parts: Given, scale: float | None = None) -> tuple[Integers, Mask]:
    """`values_of`, of what was taken apart."""
    data, empty = parts.data, parts.empty
    _check_shape(data.shape)
    filled = data[~empty]
    whole = _whole(_plain(filled) if filled.dtype == object else filled, scale)
    numbers = np.zeros(data.shape, dtype=np.int64)
    numbers[~empty] = whole
    return numbers, empty.copy()


def _check_shape(shape: Shape) -> None:
    if len(shape) not in (2, 3):
        raise BadInput(f"an array has 2 axes (row, column) or 3 (layer, row, column), and this one has {len(shape)}")
    if 0 in shape:
        raise BadInput(f"an array of shape {shape} has no cells")
    if len(shape) == 3 and shape[0] > MOST_LAYERS:
        raise BadInput(f"an array has at most {MOST_LAYERS} layers (its first axis), and this one has {shape[0]}")
    if np.prod(shape, dtype=object) > MOST_CELLS:
        raise BadInput(
            f"an array of shape {shape} has more than {MOST_CELLS:,} cells, which is all that a session takes: "
            "subzero.tiled cuts it into tiles"
        )


def _plain(values: NDArray[Any]) -> NDArray[Any]:
    """The same values, of one axis, in an array of numbers, where they came as Python objects."""
    listed = values.tolist()
    if any(type(value) is int and not LEAST <= value <= GREATEST for value in listed):
        raise BadInput("a value is no whole number of 64 bits with a sign")
    try:
        plain = np.array(listed)
    except ValueError:
        plain = values
    if plain.ndim != 1 or plain.dtype.kind not in "biuf":
        raise BadInput("the values are of several kinds, or no numbers")
    return plain


def _whole(values: NDArray[Any], scale: float | None) -> Integers:
    """The values as int64, `values` being of one axis and holding no empty cell."""
    kind = values.dtype.kind
    if values.size == 0:
        return values.astype(np.int64)
    if kind == "b":
        raise BadInput("the values are True and False: make them numbers by .astype(int)")
    if kind not in "iuf":
        raise BadInput(f"values of type {values.dtype} are no numbers that an array can hold")
    if kind == "f":
        bad = int(np.count_nonzero(~np.isfinite(values)))
        if bad:
            raise BadInput(
                f"{bad} values are NaN or infinite: make them empty by numpy.ma.masked_invalid, or give them numbers"
            )
        if scale is None:
            raise BadInput(
                "the values are floats: say by scale=.. with what they are multiplied before they are rounded"
            )
    if scale is not None:
        if not isinstance(scale, (int, float, np.integer, np.floating)) or not np.isfinite(scale) or scale == 0:
            raise BadInput(f"scale is {short(scale)}, and must be a number that is not 0")
        if kind != "f":
            raise BadInput("scale is for floats, and the values are whole numbers: multiply them in numpy")
        scaled = np.rint(values.astype(np.float64) * scale)
        if scaled.min() < -(2.0**63) or scaled.max() >= 2.0**63:
            raise BadInput(
                f"{scaled.max():g} or {scaled.min():g}, a value times {scale}, is no whole number of 64 bits"
            )
        whole: Integers = scaled.astype(np.int64)
        return whole
    if kind == "u" and int(values.max()) > GREATEST:  # as Python's numbers: numpy would compare the two as floats
        raise BadInput(f"{values.max()} is above {GREATEST}, the greatest whole number of 64 bits with a sign")
    return values.astype(np.int64)


def cells_of(cells: Cells, shape: Shape) -> Integers:
    """The cells as int64 of shape (N, axes), with as many axes as `shape` has. `Cells` says what is taken.

    Raises BadInput for cells out of range, and for what can be read in two ways: a tuple of lists, and two numbers for
    an array of 3 axes.

    >>> cells_of((1, 2), (3, 4)).tolist()
    [[1, 2]]
    >>> cells_of(np.where(np.eye(2, dtype=bool)), (2, 2)).tolist()
    [[0, 0], [1, 1]]
    >>> cells_of(np.s_[1:, 0], (3, 4)).tolist()
    [[1, 0], [2, 0]]
    """
    if isinstance(cells, slice):
        return _indexed((cells,), shape)
    if isinstance(cells, tuple):
        if any(isinstance(part, (np.ndarray, slice)) or part is Ellipsis for part in cells):
            return _indexed(cells, shape)
        if any(isinstance(part, (list, tuple)) for part in cells):
            raise BadInput(
                "a tuple of lists can be read as cells, and as numpy's index: several cells are a list of them, "
                "[(0, 1), (2, 3)], and an index is a tuple of arrays, as np.where gives it"
            )
    if _is(cells, "astropy.utils.masked", "Masked"):
        return cells_of(np.ma.MaskedArray(cells.unmasked, cells.mask), shape)  # type: ignore[union-attr]
    array = np.asanyarray(cells)
    if array.dtype == bool:
        if array.shape != shape:
            raise BadInput(f"the mask has the shape {array.shape}, and the array {shape}")
        return np.argwhere(np.ma.filled(array, False) if isinstance(array, np.ma.MaskedArray) else np.asarray(array))
    if isinstance(array, np.ma.MaskedArray) and np.ma.getmaskarray(array).any():
        raise BadInput("some of the cells' numbers are masked: leave these cells out")
    listed = np.asarray(array)
    if listed.size == 0:
        return np.zeros((0, len(shape)), dtype=np.int64)
    if listed.dtype.kind not in "iu":
        raise BadInput("cells are a boolean mask, or whole numbers: (row, column) or (layer, row, column)")
    listed = np.atleast_2d(listed)
    if listed.ndim == 2 and listed.shape[1] == 2 and len(shape) == 3:
        row, column = listed[0].tolist()
        raise BadInput(
            f"the array has the shape {shape}: say of which layer, as in (0, {row}, {column}), or np.s_[:, {row}, "
            f"{column}] for all of them"
        )
    if listed.ndim != 2 or listed.shape[1] != len(shape):
        raise BadInput(
            f"cells of an array of {len(shape)} axes have {len(shape)} numbers each, and these have shape {array.shape}"
        )
    return _in_range(listed, shape)


def _indexed(index: tuple[Any, ...], shape: Shape) -> Integers:
    """The cells that numpy means by an index of slices, arrays and numbers."""
    for part in index:
        if isinstance(part, slice) or part is Ellipsis:
            continue
        array = np.asarray(part)
        if array.dtype.kind not in "iub" and array.size > 0:
            raise BadInput(f"{short(part)} is no part of an index: a slice, whole numbers, or an array of them")
        if isinstance(part, np.ndarray) and array.dtype.kind == "i" and array.size > 0 and array.min() < 0:
            raise BadInput(f"{array.min()} in an index is out of range of an array of shape {shape}")
    if all(isinstance(part, np.ndarray) for part in index) and len(index) != len(shape):
        raise BadInput(f"an index of {len(index)} arrays is none of an array of {len(shape)} axes")
    whole = tuple(part.astype(np.intp) if isinstance(part, np.ndarray) and part.size == 0 else part for part in index)
    mask = np.zeros(shape, dtype=bool)
    try:
        mask[whole] = True
    except (IndexError, ValueError) as fault:
        raise BadInput(f"the index is none of an array of shape {shape}: {fault}") from None
    return np.argwhere(mask)


def _in_range(cells: NDArray[Any], shape: Shape) -> Integers:
    """The cells, of shape (N, axes), as int64. Raises BadInput where one is out of range."""
    outside = ((cells < 0) | (cells >= np.array(shape, dtype=np.int64))).any(axis=1)
    if outside.any():
        raise BadInput(f"the cell {tuple(cells[outside][0].tolist())} is out of range of an array of shape {shape}")
    return cells.astype(np.int64)


def mask_of(cells: Integers, shape: Shape) -> Mask:
    """The boolean array of `shape` that is True in `cells`, whole numbers of shape (N, axes)."""
    mask = np.zeros(shape, dtype=bool)
    mask[tuple(cells.T)] = True
    return mask
