"""Numbers as text, and text as numbers, a whole array at a time.

The program reads JSON and answers in decimal numbers. Both ways go through numpy, so that an array of a million cells
is written or read without a Python loop over its cells. What is written is laid out in words of four bytes, one row of
words for each number or cell: digits come from a table four at a time, and bytes that are not used are 0 and are
dropped at the end.
"""

from __future__ import annotations

from typing import Any

import numpy as np
from numpy.typing import NDArray

from .faults import OutOfStep

_GROUP = 10_000


def _word(text: bytes) -> np.uint32:
    """Up to four bytes as a word, bytes 0 behind them."""
    word: np.uint32 = np.frombuffer(text.ljust(4, b"\0"), dtype=np.uint32)[0]
    return word


def _table(last: bool) -> NDArray[np.uint32]:
    """The words of the numbers below 10,000: first with all four digits, as behind further digits; then without leading
    zeros.

    The number 0 without digits before it is no byte where it is not the `last` group of its number.
    """
    numbers = np.arange(_GROUP)
    places = np.array([1000, 100, 10, 1])
    inner = (numbers[:, None] // places % 10 + ord("0")).astype(np.uint8)
    first = np.where((numbers[:, None] < places) & ((places > 1) | (not last)), 0, inner).astype(np.uint8)
    words: NDArray[np.uint32] = np.concatenate([inner, first]).view(np.uint32).ravel()
    return words


_UPPER, _LAST = _table(last=False), _table(last=True)


def _groups(greatest: int) -> int:
    """How many groups of four digits a number up to `greatest` takes, 1 at least."""
    return (len(str(greatest)) + 3) // 4


def _put_digits(words: NDArray[np.uint32], sizes: NDArray[Any], groups: int) -> None:
    """Write each of `sizes`, whole numbers of shape (N,) and none below 0, into its row of `words`, uint32 of shape (N,
    groups).
    """
    left = sizes.astype(np.uint32 if groups <= 2 else np.uint64)
    ten_thousand = left.dtype.type(_GROUP)
    table = _LAST
    for group in range(groups - 1, 0, -1):
        rest = left // ten_thousand
        words[:, group] = table[left - rest * ten_thousand + ten_thousand * (rest == 0)]
        left, table = rest, _UPPER
    words[:, 0] = table[left + ten_thousand]  # nothing stands before it


def rows_text(cells: NDArray[np.int64], empty: NDArray[np.bool_] | None) -> bytes:
    """The JSON text of one layer, `[[1,2],[3,null]]`.

    `cells` is int64 of shape (H, W), `empty` boolean of the same shape or None where no cell is empty.
    """
    numbers = np.ascontiguousarray(cells).ravel()
    # The absolute value of the least i64 is no i64, and is right as an u64.
    sizes = np.abs(numbers).view(np.uint64)
    groups = _groups(int(sizes.max()))
    words = np.empty((numbers.size, 1 + groups), dtype=np.uint32)
    words[:, 0] = _word(b"\0\0,")
    words[:: cells.shape[1], 0] = _word(b"],[")
    words.view(np.uint8)[:, 3] = (numbers < 0) * np.uint8(ord("-"))
    _put_digits(words[:, 1:], sizes, groups)
    if empty is not None:
        holes = np.flatnonzero(empty)
        words.view(np.uint8)[holes, 3] = 0
        words[holes, 1:] = 0
        words[holes, 1] = _word(b"null")
    return b"[" + words.tobytes().translate(None, b"\0")[2:] + b"]]"


def cells_text(cells: NDArray[np.int64]) -> bytes:
    """The JSON text of cells, `[[0,1],[2,3]]`; `cells` are whole numbers of shape (N, 2) or (N, 3), none below 0."""
    count, axes = cells.shape
    if count == 0:
        return b"[]"
    groups = [_groups(int(cells[:, axis].max())) for axis in range(axes)]
    words = np.empty((count, axes + sum(groups)), dtype=np.uint32)
    at = 0
    for axis, wide in enumerate(groups):
        words[:, at] = _word(b"],[" if axis == 0 else b",")
        _put_digits(words[:, at + 1 : at + 1 + wide], cells[:, axis], wide)
        at += 1 + wide
    return b"[" + words.tobytes().translate(None, b"\0")[2:] + b"]]"


def set_text(cells: NDArray[np.int64], values: NDArray[np.int64], empty: NDArray[np.bool_]) -> bytes:
    """The JSON text of cells and what each is to hold, `[[0,1,-7],[2,3,null]]`; `cells` are whole numbers of shape (N,
    2) or (N, 3), none below 0, `values` int64 and `empty` boolean of shape (N,).
    """
    count, axes = cells.shape
    if count == 0:
        return b"[]"
    groups = [_groups(int(cells[:, axis].max())) for axis in range(axes)]
    sizes = np.abs(values).view(np.uint64)  # right for the least i64 too, as in rows_text
    words = np.empty((count, axes + sum(groups) + 1 + _groups(int(sizes.max()))), dtype=np.uint32)
    at = 0
    for axis, wide in enumerate(groups):
        words[:, at] = _word(b"],[" if axis == 0 else b",")
        _put_digits(words[:, at + 1 : at + 1 + wide], cells[:, axis], wide)
        at += 1 + wide
    words[:, at] = np.where((values < 0) & ~empty, _word(b",-"), _word(b","))
    _put_digits(words[:, at + 1 :], sizes, words.shape[1] - at - 1)
    words[empty, at + 1 :] = 0
    words[empty, at + 1] = _word(b"null")
    return b"[" + words.tobytes().translate(None, b"\0")[2:] + b"]]"


def read_numbers(text: bytes, count: int) -> NDArray[np.int64]:
    """The `count` numbers, int64, that stand in `text` with one blank between them."""
    if count == 0:
        return np.zeros(0, dtype=np.int64)
    numbers = np.fromstring(text, dtype=np.int64, sep=" ")
    if numbers.size != count:
        raise OutOfStep(f"a reply of {count} numbers holds {numbers.size}")
    return numbers


def read_values(text: bytes, count: int) -> tuple[NDArray[np.int64], NDArray[np.bool_]]:
    """The `count` values in `text`, and which of them are empty (written `-`), where the number is 0."""
    empty = np.zeros(count, dtype=bool)
    if b"- " not in text and not text.endswith(b"-"):
        return read_numbers(text, count), empty
    letters = np.frombuffer(text + b" ", dtype=np.uint8)
    dashes = np.flatnonzero(letters == ord("-"))
    holes = dashes[letters[dashes + 1] == ord(" ")]
    blanks = np.flatnonzero(letters[:-1] == ord(" "))
    empty[np.searchsorted(blanks, holes)] = True
    filled = letters[:-1].copy()
    filled[holes] = ord("0")
    return read_numbers(filled.tobytes(), count), empty


def read_cells(text: bytes, count: int, axes: int) -> NDArray[np.int64]:
    """The `count` cells in `text`, each of `axes` numbers with commas between: int64 of shape (count, axes)."""
    return read_numbers(text.replace(b",", b" "), count * axes).reshape(count, axes)
