"""The bytes of logs, written by hand in both formats, as docs/FORMATS.md has them."""

from __future__ import annotations

import struct
from collections.abc import Callable, Sequence

from subzero.stores import STRATEGIES

Runs = Sequence[tuple[int, int]]
"""A cell set: the first and the last index of each of its runs."""

HEADER = b"\1SubZero log 1\r\n"


def long(number: int) -> bytes:
    return struct.pack(">I", number)


def short(number: int) -> bytes:
    """A number in seven bits a byte, the lowest first; all bytes but the last have their top bit set."""
    parts = [number & 127]
    while number := number >> 7:
        parts[-1] |= 128
        parts.append(number & 127)
    return bytes(parts)


def long_set(runs: Runs) -> bytes:
    return long(len(runs)) + b"".join(long(first) + long(last) for first, last in runs)


def short_set(runs: Runs) -> bytes:
    out, before = short(len(runs)), -2
    for first, last in runs:
        out += short(first - before - 2) + short(last - first)
        before = last
    return out


Spell = Callable[[Runs], bytes]
"""How a cell set is spelled in a store: `long_set` in format 1, `short_set` in format 2."""


def full(sets: Sequence[tuple[int, Runs]], pairs: Sequence[Sequence[int]], spell: Spell) -> bytes:
    """A store of full lineage: sets of an array each, and region pairs, each the numbers of its sets."""
    table = b"".join(bytes([array]) + spell(runs) for array, runs in sets)
    return long(len(sets)) + table + long(len(pairs)) + b"".join(long(name) for pair in pairs for name in pair)


def pay(payloads: Sequence[bytes], sets: Sequence[Runs], entries: Sequence[tuple[int, int]], spell: Spell) -> bytes:
    """A store of payloads, of output sets, and of entries of one of each."""
    out = long(len(payloads)) + b"".join(long(len(payload)) + payload for payload in payloads)
    out += long(len(sets)) + b"".join(map(spell, sets))
    return out + long(len(entries)) + b"".join(long(one) + long(other) for one, other in entries)


def group(kind: int, text: bytes = b"") -> bytes:
    return bytes([1, kind]) + struct.pack(">Q", len(text)) + text


RAISED = group(5)
"""The group that raises a log to format 2."""


def shortened(body: bytes, inputs: Sequence[int]) -> bytes:
    """The body of a version of format 1, whose nodes have so many inputs, in format 2."""
    out, at = bytearray(), 0

    def take(count: int) -> bytes:
        """So many bytes stay as they are."""
        nonlocal at
        at += count
        out.extend(body[at - count : at])
        return body[at - count : at]

    def number() -> int:
        return int.from_bytes(take(4), "big")

    def cells() -> None:
        nonlocal at
        (count,) = struct.unpack_from(">I", body, at)
        ends = struct.unpack_from(f">{2 * count}I", body, at + 4)
        out.extend(short_set(list(zip(ends[::2], ends[1::2]))))
        at += 4 + 8 * count

    take(4)
    take(take(1)[0])
    for _ in range(number()):
        take(take(1)[0])
        take(4)
    assert number() == len(inputs)
    for count in inputs:
        for strategy in take(take(1)[0]):
            kind = STRATEGIES[strategy - 1][:4]
            if kind == "full":
                for _ in range(number()):
                    take(1)
                    cells()
                take(4 * (1 + count) * number())
            elif kind in ("pay_", "comp"):
                for _ in range(number()):
                    take(number())
                for _ in range(number()):
                    cells()
                take(8 * number())
    assert at == len(body)
    return bytes(out)
