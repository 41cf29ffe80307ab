"""Arrays from files."""

from __future__ import annotations

import json
import os
from pathlib import Path
from typing import Any, Literal, TypeAlias

import numpy as np
from numpy.typing import NDArray

from .faults import BadInput

Extension: TypeAlias = "int | str | tuple[str, int]"
"""A part of a FITS file: its number from 0, its name, or its name and version."""


def is_csv(path: str | os.PathLike[str]) -> bool:
    """Whether the file's name ends with `.csv`."""
    return Path(path).name.lower().endswith(".csv")


def csv_line(name: str, path: str | os.PathLike[str]) -> bytes:
    """The line that hands in a `.csv` file's text as it is, for the program to read.

    Raises BadInput where the file is no text in UTF-8.
    """
    try:
        text = Path(path).read_bytes().decode()
    except UnicodeDecodeError as fault:
        raise BadInput(f"{path} is no text in UTF-8: {fault}") from None
    return json.dumps({"csv": name, "text": text}, separators=(",", ":"), ensure_ascii=False).encode() + b"\n"


def read(
    path: str | os.PathLike[str],
    *,
    ext: Extension | None = None,
    empty: Literal["nan"] | None = None,
    squeeze: bool = False,
) -> NDArray[Any]:
    """The array of a `.npy` file, or of an image of a FITS file (`.fits`, `.fit`, `.fts`, also `.gz`; this needs
    astropy).

    `ext` says which part of a FITS file, as astropy does; without it, its first image is read. Values are as the file
    has them: floats stay floats, whole numbers are exact, also those of unsigned images. With `empty` "nan" the cells
    that are NaN, and those that hold the BLANK of a FITS image, are empty: a masked array comes back. Without it NaN
    stays NaN, and BLANK cells are refused. With `squeeze` axes of length 1 are dropped while there are more than two,
    the first ones first. Raises BadInput for what cannot be read so, and for another kind of file.
    """
    name = Path(path).name.lower().removesuffix(".gz")
    if empty not in (None, "nan"):
        raise BadInput(f"empty is {empty!r}, and must be 'nan' or left out")
    if name.endswith((".fits", ".fit", ".fts")):
        values, blank = _fits(path, ext)
    elif ext is not None:
        raise BadInput(f"ext is for FITS files, and {path} is none")
    elif name.endswith(".npy"):
        values, blank = np.load(path, allow_pickle=False), None
    else:
        raise BadInput(f"{path} is no .npy, no .csv and no FITS file")
    if empty == "nan":
        holes = np.isnan(values) if values.dtype.kind == "f" else np.zeros(values.shape, dtype=bool)
        values = np.ma.MaskedArray(values, holes if blank is None else holes | blank)
    elif blank is not None and blank.any():
        raise BadInput(f"{np.count_nonzero(blank)} cells of {path} are BLANK: take them as empty by empty='nan'")
    return _squeezed(values) if squeeze else values


def _squeezed(values: NDArray[Any]) -> NDArray[Any]:
    while values.ndim > 2 and 1 in values.shape:
        values = values.squeeze(axis=values.shape.index(1))
    return values


def _fits(path: str | os.PathLike[str], ext: Extension | None) -> tuple[NDArray[Any], NDArray[np.bool_] | None]:
    """The values of an image of a FITS file, and which of them are BLANK, where it has such a number."""
    try:
        from astropy.io import fits
    except ImportError:
        raise BadInput("reading FITS needs astropy") from None
    # astropy would make whole numbers with a BLANK floats, and leaves the BLANK of some images in
    with fits.open(path, memmap=False, do_not_scale_image_data=True) as units:
        if ext is None:
            images = [unit for unit in units if unit.is_image and unit.data is not None]
            if not images:
                raise BadInput(f"{path} has no image")
            unit = images[0]
        else:
            try:
                unit = units[ext]
            except (KeyError, IndexError):
                names = ", ".join(f"{number} {unit.name or 'without a name'}" for number, unit in enumerate(units))
                raise BadInput(f"{path} has no part {ext!r}: it has {names}") from None
            if not unit.is_image or unit.data is None:
                raise BadInput(f"part {ext!r} of {path} is no image")
        header = unit.header
        blank, factor, offset = header.get("BLANK"), header.get("BSCALE", 1), header.get("BZERO", 0)
        raw = np.array(unit.data)
    raw = raw.astype(raw.dtype.newbyteorder("="))
    blanks = raw == blank if blank is not None and raw.dtype.kind in "iu" else None
    values = _scaled(raw, factor, offset)
    if blanks is not None and values.dtype.kind == "f":
        values[blanks] = np.nan
    return values, blanks


def _scaled(raw: NDArray[Any], factor: float, offset: float) -> NDArray[Any]:
    """The values times `factor` plus `offset`: whole numbers where all of them are."""
    if factor == 1 and offset == 0:
        return raw
    if raw.dtype.kind in "iu" and factor == 1 and offset == int(offset):
        if offset == 2**63:  # unsigned numbers of 64 bits
            return raw.astype(np.int64).view(np.uint64) + np.uint64(2**63)
        return raw.astype(np.int64) + int(offset)
    return raw.astype(np.float64) * factor + offset
