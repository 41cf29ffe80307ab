"""How long the stores of a version are in a log, node by node (docs/FORMATS.md, "The body of a version").

Only lengths are read: what the stores say is the program's to read. In a log of format 1 the cell sets of stores have
eight bytes a run, and are stepped over; in one of format 2 they are short, and each of their numbers has to be read.
"""

from __future__ import annotations

import mmap
import os
from collections.abc import Sequence
from typing import TypeAlias

from .cells import MOST_CELLS

STRATEGIES = (
    "map",
    "full_one_b",
    "full_one_f",
    "full_many_b",
    "full_many_f",
    "pay_one",
    "pay_many",
    "comp_one",
    "comp_many",
    "blackbox",
)
"""The strategies by their number in a log, from 1."""

Bytes: TypeAlias = "bytes | mmap.mmap"
"""The bytes of a file, all of them."""


def kept(
    log: str | os.PathLike[str], begin: int, length: int, inputs: Sequence[int], *, short: bool = False
) -> list[list[tuple[str, int]]]:
    """By which strategies the nodes of a version are kept, and how many bytes each takes in the log: of each node a
    list in the order of its own, 0 bytes for what stores nothing.

    The version's body has `length` bytes from byte `begin` of the file on, and `inputs` says how many inputs each node
    has. `short` says that the cell sets of its stores are short, as in a log of format 2. Raises ValueError, which
    names the byte, where it is no such body, and OSError where the file cannot be read.
    """
    with open(log, "rb") as file, mmap.mmap(file.fileno(), 0, access=mmap.ACCESS_READ) as data:
        if begin + length > len(data):
            raise ValueError(f"the file ends at byte {len(data)}, and the body at byte {begin + length}")
        return _Body(data, begin, begin + length, short).nodes(inputs)


def short_number(data: Bytes, at: int, end: int) -> tuple[int, int]:
    """The short number that begins at byte `at`, and the byte behind it, which is `end` at most.

    It has 1 to 5 bytes of seven bits each, the lowest bits first; the top bit of a byte says that a further one
    follows. Raises ValueError, which names the byte, where it is not whole, is 2^32 or more, or could be shorter.

    >>> short_number(bytes([0xAC, 0x02]), 0, 2)
    (300, 2)
    """
    begin, number, shift = at, 0, 0
    while at < end:
        byte = data[at]
        at += 1
        if byte < 128:
            number |= byte << shift
            if number >= 1 << 32:
                raise ValueError(f"the short number at byte {begin} is {number}, and must be below 2^32")
            if byte == 0 and shift:
                raise ValueError(f"the short number at byte {begin} has a last byte 0, and so could be shorter")
            return number, at
        number |= (byte & 127) << shift
        shift += 7
        if shift > 28:
            raise ValueError(f"the short number at byte {begin} has more than 5 bytes")
    raise ValueError(f"the short number at byte {begin} is not whole: the bytes end at {end}")


def short_cells(data: Bytes, at: int, end: int, size: int = MOST_CELLS) -> tuple[list[tuple[int, int]], int]:
    """The short cell set that begins at byte `at`, and the byte behind it, which is `end` at most: its runs, each the
    first and the last of its row-major indexes, all below `size`, the number of cells of the array.

    First stands how many runs there are; of each its gap, which counts the first run from index 0 and a later one from
    2 behind the last index before it, and its length less 1. Raises ValueError, which names the byte, where a number is
    no short one, or an index is `size` or more.

    >>> short_cells(bytes([2, 5, 2, 1, 0]), 0, 5)
    ([(5, 7), (10, 10)], 5)
    """
    count, at = short_number(data, at, end)
    runs: list[tuple[int, int]] = []
    last = -2
    for _ in range(count):
        begin = at
        gap, at = short_number(data, at, end)
        further, at = short_number(data, at, end)
        first = last + 2 + gap
        last = first + further
        if last >= size:
            raise ValueError(f"the run at byte {begin} ends at index {last}, and the array has {size} cells")
        runs.append((first, last))
    return runs, at


class _Body:
    """The body of a version, which begins at one byte of a file and ends before another."""

    def __init__(self, data: Bytes, begin: int, end: int, short: bool) -> None:
        self._data = data
        self._at = begin
        self._end = end
        self._short = short

    def nodes(self, inputs: Sequence[int]) -> list[list[tuple[str, int]]]:
        self._skip(4)
        self._skip_name()
        for _ in range(self._number()):
            self._skip_name()
            self._skip(4)
        begin, count = self._at, self._number()
        if count != len(inputs):
            raise ValueError(f"the number of nodes at byte {begin} is {count}, and the flow has {len(inputs)}")
        found = [self._node(count) for count in inputs]
        if self._at != self._end:
            raise ValueError(f"the stores end at byte {self._at}, and the body at byte {self._end}")
        return found

    def _node(self, inputs: int) -> list[tuple[str, int]]:
        begin = self._at + 1
        self._skip_name()
        found = []
        for place in range(begin, self._at):
            number = self._data[place]
            if not 1 <= number <= len(STRATEGIES):
                raise ValueError(f"there is no strategy {number}, as byte {place} has it")
            name, before = STRATEGIES[number - 1], self._at
            if name.startswith("full_"):
                self._skip_full(inputs)
            elif name not in ("map", "blackbox"):
                self._skip_pay()
            found.append((name, self._at - before))
        return found

    def _skip_full(self, inputs: int) -> None:
        for _ in range(self._number()):
            self._skip(1)
            self._skip_cells()
        self._skip(4 * (1 + inputs) * self._number())

    def _skip_pay(self) -> None:
        for _ in range(self._number()):
            self._skip(self._number())
        for _ in range(self._number()):
            self._skip_cells()
        self._skip(8 * self._number())

    def _skip_cells(self) -> None:
        if self._short:
            _, self._at = short_cells(self._data, self._at, self._end)
        else:
            self._skip(8 * self._number())

    def _skip_name(self) -> None:
        """Skip as many bytes as the one that stands here says."""
        begin = self._at
        self._skip(1)
        self._skip(self._data[begin])

    def _number(self) -> int:
        begin = self._at
        self._skip(4)
        return int.from_bytes(self._data[begin : self._at], "big")

    def _skip(self, count: int) -> None:
        if self._at + count > self._end:
            raise ValueError(f"the {count} bytes at byte {self._at} are not all there: the body ends at {self._end}")
        self._at += count
