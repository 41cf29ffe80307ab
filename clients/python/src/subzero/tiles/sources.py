"""Base arrays of any size, of which a window at a time is read."""

from __future__ import annotations

import os
from collections.abc import Callable
from dataclasses import dataclass, field, replace
from pathlib import Path
from typing import Any, Protocol

import numpy as np
from numpy.typing import NDArray

from ..cells import MOST_LAYERS, Shape, values_of
from ..faults import BadInput
from ..geometry import Rect, layers_of
from .cellsets import Indexes, apart, hull_of, to_local, within

_BLOCK = 256


class Windows(Protocol):
    """What is asked of an array: its shape, and its cells at slices of its axes."""

    @property
    def shape(self) -> Shape:
        """2 or 3 sizes."""

    def __getitem__(self, at: tuple[slice, ...]) -> Any:
        """The cells there."""


@dataclass(frozen=True)
class SetCells:
    """Cells of an array that hold something else: their indexes, what they hold, int64, and which are empty."""

    indexes: Indexes
    values: NDArray[Any]
    empty: NDArray[Any]

    def at(self, indexes: Indexes) -> tuple[NDArray[Any], NDArray[Any]]:
        """What some of these cells hold, and which are empty."""
        places = np.searchsorted(self.indexes, indexes)
        return self.values[places], self.empty[places]

    def over(self, other: SetCells | None) -> SetCells:
        """These cells, and behind them those of others that are none of these."""
        if other is None:
            return self
        left = ~np.isin(other.indexes, self.indexes, assume_unique=True)
        indexes = np.concatenate([self.indexes, other.indexes[left]])
        order = np.argsort(indexes)
        values = np.concatenate([self.values, other.values[left]])
        return SetCells(indexes[order], values[order], np.concatenate([self.empty, other.empty[left]])[order])


@dataclass(frozen=True, eq=False)
class TiledArray:
    """A base array of a mosaic: its name, its version from 1, and its shape. Its values stay where they are, and are
    read when tiles are made; cells that a refresh set are kept beside them."""

    name: str
    version: int
    shape: Shape
    _windows: Windows = field(repr=False)
    _scale: float | None = field(repr=False, default=None)
    _nan_is_empty: bool = field(repr=False, default=False)
    _set: SetCells | None = field(repr=False, default=None)

    def __str__(self) -> str:
        return f"array {self.name} {self.version}"

    @property
    def unit(self) -> None:
        """None: a unit is not kept."""

    def with_set(self, version: int, cells: SetCells) -> TiledArray:
        """The array in which these cells were set, as this version of its name."""
        return replace(self, version=version, _set=cells.over(self._set))

    def with_values(self, version: int, values: Any, scale: float | None) -> TiledArray:
        """An array of this name and shape with other values, as this version. Raises BadInput where they do not fit."""
        windows = windows_of(values)
        if tuple(windows.shape) != self.shape:
            raise BadInput(f"the new values have the shape {tuple(windows.shape)}, and {self} has {self.shape}")
        check_kind(windows, scale)
        return TiledArray(self.name, version, self.shape, windows, scale, self._nan_is_empty)

    def set_at(self, indexes: Indexes) -> tuple[NDArray[Any], NDArray[Any]]:
        """What cells hold that were set, and which are empty."""
        assert self._set is not None
        return self._set.at(indexes)

    def read(self, rect: Rect) -> tuple[NDArray[Any], NDArray[Any]]:
        """The values in a rectangle, int64, and which are empty, of the array's axes. Raises BadInput as
        `Session.array`."""
        values, empty = self._read(rect)
        if self._set is not None:
            part = within(self._set.indexes, rect, self.shape)
            layers, rows, columns = apart(part, self.shape)
            at = (layers, rows - rect.top, columns - rect.left)
            room = (layers_of(self.shape), rect.height, rect.width)
            values.reshape(room)[at], empty.reshape(room)[at] = self._set.at(part)
        return values, empty

    def at(self, indexes: Indexes) -> tuple[NDArray[Any], NDArray[Any]]:
        """The values of cells, int64, and which are empty; those that lie together are read together."""
        values, empty = np.zeros(indexes.size, dtype=np.int64), np.zeros(indexes.size, dtype=bool)
        _, rows, columns = apart(indexes, self.shape)
        blocks = rows // _BLOCK * self.shape[-1] + columns // _BLOCK
        order = np.argsort(blocks, kind="stable")
        for some in np.split(order, 1 + np.flatnonzero(np.diff(blocks[order]))) if indexes.size else ():
            rect = hull_of(indexes[some], self.shape)
            room = (layers_of(self.shape), rect.height, rect.width)
            at = tuple(to_local(indexes[some], self.shape, rect).T)
            values[some], empty[some] = (part.reshape(room)[at] for part in self.read(rect))
        return values, empty

    def _read(self, rect: Rect) -> tuple[NDArray[Any], NDArray[Any]]:
        """As `read`, where no cell was set: two new arrays."""
        at = (slice(None),) * (len(self.shape) - 2) + (slice(rect.top, rect.bottom), slice(rect.left, rect.right))
        part = self._windows[at]
        if hasattr(part, "compute"):
            part = part.compute()
        if self._nan_is_empty and part.dtype.kind == "f":
            part = np.ma.MaskedArray(part, ~np.isfinite(part))
        try:
            return values_of(part, self._scale)
        except BadInput as fault:
            raise BadInput(
                f"{self}, rows {rect.top} to {rect.bottom}, columns {rect.left} to {rect.right}: {fault}"
            ) from None


class _Sections:
    """An image of a FITS file whose values have to be scaled, read in sections: `opened` opens the file anew."""

    def __init__(self, opened: Callable[[], Any], number: int) -> None:
        self._opened = opened
        self._number = number
        with opened() as units:
            self.shape: Shape = tuple(units[number].shape)
        self.dtype = self[(slice(0, 1),) * len(self.shape)].dtype

    def __getitem__(self, at: tuple[slice, ...]) -> Any:
        with self._opened() as units:
            unit = units[self._number]
            return np.array(unit.section[at] if hasattr(unit, "section") else unit.data[at])


def windows_of(values: Any) -> Windows:
    """The windows of an array, or of a `.npy` or FITS file that is named. Raises BadInput."""
    if isinstance(values, (str, os.PathLike)):
        values = _opened(values)
    if not (hasattr(values, "shape") and hasattr(values, "__getitem__")):
        values = np.asarray(values)
    shape = tuple(values.shape)
    if len(shape) not in (2, 3):
        raise BadInput(f"an array has 2 axes (row, column) or 3 (layer, row, column), and this one has {len(shape)}")
    if 0 in shape:
        raise BadInput(f"an array of shape {shape} has no cells")
    if len(shape) == 3 and shape[0] > MOST_LAYERS:
        raise BadInput(f"an array has at most {MOST_LAYERS} layers (its first axis), and this one has {shape[0]}")
    windows: Windows = values
    return windows


def check_kind(windows: Windows, scale: float | None) -> None:
    """Refuse at once values of a kind that would be refused when tiles are made. Raises BadInput."""
    kind = getattr(windows, "dtype", None)
    if kind is not None and kind != object:
        values_of(np.zeros((1, 1), dtype=kind), scale)


def _opened(path: str | os.PathLike[str]) -> Any:
    name = Path(path).name.lower()
    if name.endswith(".npy"):
        return np.load(path, mmap_mode="r", allow_pickle=False)
    if name.removesuffix(".gz").endswith((".fits", ".fit", ".fts")):
        return _image_of(path)
    raise BadInput(f"{path} is no .npy and no FITS file")


def _image_of(path: str | os.PathLike[str]) -> Any:
    """The first image of a FITS file, read where it is asked for."""
    try:
        from astropy.io import fits
    except ImportError:
        raise BadInput("reading FITS needs astropy") from None
    with fits.open(path, memmap=True) as units:
        images = [at for at, unit in enumerate(units) if unit.is_image and unit.header.get("NAXIS", 0) > 0]
        if not images:
            raise BadInput(f"{path} has no image")
        scaled = any(word in units[images[0]].header for word in ("BZERO", "BSCALE", "BLANK"))
        if not scaled:
            return units[images[0]].data
    return _Sections(lambda: fits.open(path, memmap=False), images[0])
