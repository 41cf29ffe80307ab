"""The stores of versions in logs of both formats, by bytes that are written here by hand: numbers, cell sets, bodies,
and whole logs, which are cut at each length and changed at each byte.
"""

from __future__ import annotations

import tempfile
import unittest
from collections.abc import Sequence
from pathlib import Path

import numpy as np

import subzero
from log_bytes import HEADER, RAISED, Runs, Spell, full, group, long, long_set, pay, short, short_set, shortened
from subzero import logs, stores

VECTORS = {
    0: "00",
    1: "01",
    127: "7f",
    128: "80 01",
    300: "ac 02",
    16383: "ff 7f",
    16384: "80 80 01",
    2**21 - 1: "ff ff 7f",
    2**21: "80 80 80 01",
    2**28 - 1: "ff ff ff 7f",
    2**28: "80 80 80 80 01",
    4294967295: "ff ff ff ff 0f",
}
NONE = {
    "80 00": "could be shorter",
    "ac 82 00": "could be shorter",
    "ff ff ff ff 1f": "must be below 2\\^32",
    "80 80 80 80 10": "is 4294967296, and must be below 2\\^32",
    "80 80 80 80 00": "could be shorter",
    "ff ff ff ff ff 01": "more than 5 bytes",
    "80 80 80 80 80 00": "more than 5 bytes",
}

# docs/FORMATS.md, "A log, byte by byte": the body of a version of `neg` on one cell, kept by full_one_b
WORKED = bytes.fromhex(
    "00000001 01 66  00000001 01 61 00000001  00000001 01 02"
    "00000002  00 00000001 00000000 00000000  01 00000001 00000000 00000000  00000001 00000000 00000001"
)
WORKED_SHORT = bytes.fromhex(
    "00000001 01 66  00000001 01 61 00000001  00000001 01 02"
    "00000002  00 01 00 00  01 01 00 00  00000001 00000000 00000001"
)

Node = Sequence[tuple[str, bytes]]
"""A node of a version: its strategies, each with the bytes of its store."""


def body(number: int, flow: str, base: Sequence[tuple[str, int]], nodes: Sequence[Node]) -> bytes:
    out = long(number) + bytes([len(flow)]) + flow.encode() + long(len(base))
    out += b"".join(bytes([len(name)]) + name.encode() + long(version) for name, version in base)
    out += long(len(nodes))
    for node in nodes:
        out += bytes([len(node), *(1 + stores.STRATEGIES.index(name) for name, _ in node)])
        out += b"".join(store for _, store in node)
    return out


def some_set(draw: np.random.RandomState, size: int) -> Runs:
    """A cell set of an array of so many cells, drawn; in one of eight cases it is empty."""
    cells = np.flatnonzero(draw.rand(size) < draw.choice([0, 0.01, 0.1, 0.5, 0.9, 1, 0.3, 0.05]))
    ends = np.flatnonzero(np.diff(cells, append=size + 1) > 1)
    starts = [0, *(ends[:-1] + 1)] if len(ends) else []
    return [(int(cells[start]), int(cells[end])) for start, end in zip(starts, ends)]


def some_store(name: str, inputs: int, draw: np.random.RandomState, spell: Spell) -> bytes:
    """A store that is well made; what it says is drawn."""
    if name in ("map", "blackbox"):
        return b""
    count = draw.randint(1, 5)
    if name.startswith("full_"):
        sets = [(draw.randint(inputs + 1), some_set(draw, draw.choice([1, 7, 900]))) for _ in range(count)]
        return full(sets, draw.randint(0, 5, (draw.randint(4), 1 + inputs)).tolist(), spell)
    payloads = [b"", long_set([(5, 7), (10, 10)]), bytes(draw.randint(0, 256, 4).tolist())][: draw.randint(4)]
    entries = [(int(one), int(other)) for one, other in draw.randint(0, 5, (draw.randint(4), 2))]
    return pay(payloads, [some_set(draw, draw.choice([1, 7, 900])) for _ in range(count)], entries, spell)


def some_body(inputs: Sequence[int], seed: int, spell: Spell) -> tuple[bytes, list[list[tuple[str, int]]]]:
    """The body of a version of nodes of so many inputs, and what is to be found in it. One seed says the same in either
    spelling."""
    draw = np.random.RandomState(seed)
    nodes = []
    for count in inputs:
        names = [str(name) for name in draw.choice(stores.STRATEGIES, draw.randint(1, 4), replace=False)]
        nodes.append([(name, some_store(name, count, draw, spell)) for name in names])
    found = [[(name, len(store)) for name, store in node] for node in nodes]
    return body(seed + 1, "stars" * draw.randint(1, 6), [("sky", 1), ("t", 70000)], nodes), found


class Numbers(unittest.TestCase):
    def test_each_vector(self) -> None:
        for number, text in VECTORS.items():
            spelled = bytes.fromhex(text)
            self.assertEqual(short(number), spelled)
            for before, behind in ((b"", b""), (b"\x80\x80", b"\xff"), (b"\x00", b"\x00")):
                data, at = before + spelled + behind, len(before)
                self.assertEqual(stores.short_number(data, at, len(data)), (number, at + len(spelled)))
            for length in range(len(spelled)):
                with self.assertRaisesRegex(ValueError, f"byte 1 is not whole: the bytes end at {1 + length}$"):
                    stores.short_number(b"\0" + spelled, 1, 1 + length)

    def test_what_is_no_short_number(self) -> None:
        for text, why in NONE.items():
            spelled = bytes.fromhex(text)
            with self.subTest(bytes=text), self.assertRaisesRegex(ValueError, f"^the short number at byte 3 .*{why}"):
                stores.short_number(b"\1\2\3" + spelled, 3, 3 + len(spelled))

    def test_each_number_has_one_spelling(self) -> None:
        """All bytes of one and two, and some of five: what is read of them is what is written of the number."""
        draw = np.random.RandomState(3)
        tried = [bytes([one]) for one in range(256)] + [bytes([one, two]) for one in range(256) for two in range(256)]
        tried += [bytes(row) for row in draw.randint(0, 256, (20_000, 5)).tolist()]
        read = 0
        for data in tried:
            try:
                number, end = stores.short_number(data, 0, len(data))
            except ValueError:
                continue
            self.assertEqual(data[:end], short(number))
            read += 1
        self.assertGreater(read, 60_000)


class Sets(unittest.TestCase):
    def test_the_set_of_the_documents(self) -> None:
        runs = [(5, 7), (10, 10)]
        self.assertEqual(long_set(runs).hex(" ", 4), "00000002 00000005 00000007 0000000a 0000000a")
        self.assertEqual(short_set(runs).hex(" "), "02 05 02 01 00")
        self.assertEqual(stores.short_cells(short_set(runs), 0, 5), (runs, 5))
        self.assertEqual(stores.short_cells(short_set(runs), 0, 5, 11), (runs, 5))
        with self.assertRaisesRegex(ValueError, "^the run at byte 3 ends at index 10, and the array has 10 cells$"):
            stores.short_cells(short_set(runs), 0, 5, 10)

    def test_each_index_is_within_the_array(self) -> None:
        rows: list[tuple[Runs, int]] = [([(0, 0)], 1), ([(0, 899)], 900), ([(7, 7)], 8), ([(0, 0), (2, 2)], 3), ([], 0)]
        for runs, size in rows:
            spelled = short_set(runs)
            self.assertEqual(stores.short_cells(spelled, 0, len(spelled), size), (runs, len(spelled)))
            if runs:
                with self.assertRaisesRegex(ValueError, f"at index {size - 1}, and the array has {size - 1} cells"):
                    stores.short_cells(spelled, 0, len(spelled), size - 1)
        whole = short_set([(0, 2**20 - 1)])  # the most cells of an array
        self.assertEqual(stores.short_cells(whole, 0, len(whole))[0], [(0, 1048575)])
        for beyond in ([(0, 2**20)], [(2**20, 2**20)], [(0, 0), (2**32 - 1, 2**32)]):
            with self.assertRaisesRegex(ValueError, "and the array has 1048576 cells"):
                stores.short_cells(short_set(beyond), 0, 99)

    def test_sets_that_are_drawn(self) -> None:
        draw = np.random.RandomState(9)
        for _ in range(100):
            runs = some_set(draw, int(draw.choice([1, 40, 3000])))
            spelled = short_set(runs)
            end = 1 + len(spelled)
            self.assertEqual(stores.short_cells(b"\xff" + spelled + b"\xff", 1, end), (runs, end))
            for length in range(0, len(spelled), 1 + len(spelled) // 40):
                with self.assertRaisesRegex(ValueError, "is not whole: the bytes end at"):
                    stores.short_cells(spelled[:length], 0, length)

    def test_more_runs_than_there_are_bytes(self) -> None:
        with self.assertRaisesRegex(ValueError, "^the short number at byte 7 is not whole"):
            stores.short_cells(short(2**32 - 1) + bytes(2), 0, 7)


class Written(unittest.TestCase):
    def setUp(self) -> None:
        folder = tempfile.TemporaryDirectory()
        self.addCleanup(folder.cleanup)
        self.log = Path(folder.name) / "survey.log"


class Bodies(Written):
    """Bodies of versions: in a file, behind other bytes and before others."""

    def kept(self, data: bytes, inputs: Sequence[int], short: bool) -> list[list[tuple[str, int]]]:
        self.log.write_bytes(bytes(7) + data + b"\1" * 9)
        return stores.kept(self.log, 7, len(data), inputs, short=short)

    def read(self, data: bytes, inputs: Sequence[int], short: bool) -> list[list[tuple[str, int]]]:
        """As `kept`, of bytes that are in no file."""
        return stores._Body(bytes(7) + data + b"\1" * 9, 7, 7 + len(data), short).nodes(inputs)

    def test_the_worked_example(self) -> None:
        self.assertEqual(shortened(WORKED, [1]), WORKED_SHORT)
        for spelled, spell, length, store in ((WORKED, long_set, 64, 42), (WORKED_SHORT, short_set, 46, 24)):
            of_neg = full([(0, [(0, 0)]), (1, [(0, 0)])], [(0, 1)], spell)
            self.assertEqual(body(1, "f", [("a", 1)], [[("full_one_b", of_neg)]]), spelled)
            self.assertEqual(len(spelled), length)
            short_ones = spell is short_set
            self.assertEqual(self.kept(spelled, [1], short_ones), [[("full_one_b", store)]])
            with self.assertRaisesRegex(ValueError, "byte [0-9]+"):  # read as of the other format
                self.kept(spelled, [1], not short_ones)
            for length in range(len(spelled)):
                with self.assertRaisesRegex(ValueError, "byte [0-9]+"):
                    self.read(spelled[:length], [1], short_ones)

    def test_bodies_that_are_drawn(self) -> None:
        for seed in range(40):
            inputs = np.random.RandomState(seed).randint(1, 3, 1 + seed % 4).tolist()
            lists = []
            one, other = (some_body(inputs, seed, spell)[0] for spell in (long_set, short_set))
            self.assertEqual(shortened(one, inputs), other)
            for spell in (long_set, short_set):
                spelled, found = some_body(inputs, seed, spell)
                self.assertEqual(self.kept(spelled, inputs, spell is short_set), found)
                lists.append([[name for name, _ in node] for node in found])
                with self.assertRaisesRegex(ValueError, f"end at byte {7 + len(spelled)}, and the body at byte"):
                    self.read(spelled + b"\0", inputs, spell is short_set)
            self.assertEqual(lists[0], lists[1])

    def test_bodies_that_are_cut_or_changed(self) -> None:
        """Cut at each length it is no body; changed at a byte it is one, or none, and nothing else goes wrong."""
        sets: list[tuple[int, Runs]] = [(0, [(0, 3), (7, 7)]), (1, [(5, 300)]), (2, []), (0, [(128, 40_000)])]
        for spell in (long_set, short_set):
            one = [("full_many_f", full(sets, [(0, 1, 2), (3, 1, 2)], spell)), ("map", b"")]
            payloads = [b"", long_set([(5, 7), (10, 10)])]
            other = pay(payloads, [[(0, 0)], [(2, 700), (702, 800)]], [(0, 1), (1, 0)], spell)
            spelled, inputs = body(3, "f", [("a", 1)], [one, [("comp_one", other)]]), [2, 1]
            found = [[(name, len(store)) for name, store in one], [("comp_one", len(other))]]
            self.assertEqual(self.read(spelled, inputs, spell is short_set), found)
            for length in range(len(spelled)):
                with self.assertRaisesRegex(ValueError, "byte [0-9]+"):
                    self.read(spelled[:length], inputs, spell is short_set)
            for at in range(len(spelled)):
                for byte in {spelled[at] ^ 1, spelled[at] ^ 128, 0, 255}:
                    try:
                        self.read(spelled[:at] + bytes([byte]) + spelled[at + 1 :], inputs, spell is short_set)
                    except ValueError as fault:
                        self.assertRegex(str(fault), "byte [0-9]+")

    def test_what_is_no_body(self) -> None:
        for data, inputs, why in (
            (WORKED_SHORT, [1, 1], "^the number of nodes at byte 23 is 1, and the flow has 2$"),
            (WORKED_SHORT[:21] + b"\0" + WORKED_SHORT[22:], [1], "^there is no strategy 0, as byte 28 has it$"),
            (WORKED_SHORT[:21] + b"\x0b" + WORKED_SHORT[22:], [1], "^there is no strategy 11, as byte 28 has it$"),
            (WORKED_SHORT[:28] + b"\x80\x00" + WORKED_SHORT[29:], [1], "^the short number at byte 35 .* shorter$"),
            (WORKED_SHORT[:-1], [1], "^the 8 bytes at byte 45 are not all there: the body ends at 52$"),
        ):
            with self.subTest(why=why), self.assertRaisesRegex(ValueError, why):
                self.kept(data, inputs, True)
        self.log.write_bytes(WORKED)
        with self.assertRaisesRegex(ValueError, "^the file ends at byte 64, and the body at byte 65$"):
            stores.kept(self.log, 1, 64, [1])
        with self.assertRaises(FileNotFoundError):
            stores.kept(self.log.with_name("other.log"), 0, 64, [1])


LINES = [
    group(1, b'{"array":"a","cells":[[5]]}'),
    group(2, b'{"flow":"f","inputs":1,"nodes":[{"op":"neg","from":[{"i":0}]}]}'),
    group(3, b'{"strategy":"f","node":0,"list":["full_one_b"]}'),
]
LONG, SHORT = group(4, WORKED), group(6, long(2) + WORKED_SHORT[4:])


class Logs(Written):
    """Whole logs, of both formats."""

    def write(self, *parts: bytes) -> bytes:
        text = HEADER + b"".join(parts) + b"\0"
        self.log.write_bytes(text)
        return text

    def test_a_log_of_the_documents_and_the_same_raised(self) -> None:
        self.assertEqual(len(self.write(*LINES, LONG)), 258)
        before = logs.read_log(self.log)
        self.assertEqual(len(self.write(RAISED)), 27)
        self.assertEqual(logs.told(self.log), "survey.log: 27 bytes in format 2, of them 0 of arrays and 0 of versions")
        self.write(*LINES, LONG, RAISED, SHORT)
        held = logs.read_log(self.log)
        self.assertEqual((held.flows, list(held.arrays)), (before.flows, list(before.arrays)))
        self.assertEqual([held.versions[number].lists() for number in (1, 2)], [[["full_one_b"]]] * 2)
        self.assertEqual([one.base for one in held.versions.values()], [(("a", 1),)] * 2)
        with open(self.log, "rb") as file:
            groups = list(logs.groups(file))
        self.assertEqual([group.kind for group in groups], [1, 2, 3, 4, 5, 6])
        self.assertEqual([group.is_version for group in groups], [False, False, False, True, False, True])
        sizes = [logs.stores_of(held, held.versions[n], str(self.log), groups[at]) for n, at in ((1, 3), (2, 5))]
        self.assertEqual(sizes, [[[("full_one_b", 42)]], [[("full_one_b", 24)]]])
        told = logs.told(self.log).splitlines()
        self.assertEqual(told[0], "survey.log: 324 bytes in format 2, of them 37 of arrays and 130 of versions")
        self.assertEqual(told[-1], "version 2: flow f on a 1")

    def test_the_order_of_kinds(self) -> None:
        """Versions of kind 4 stand before the group that raises a log, and those of kind 6 behind it."""
        array = LINES[0]
        for parts, bad in (
            ([RAISED, *LINES, SHORT], None),
            ([*LINES, LONG, RAISED], None),
            ([array, RAISED, array, array], None),
            ([array, RAISED, array, RAISED], 3),
            ([RAISED, RAISED], 1),
            ([*LINES, SHORT], 3),
            ([*LINES, LONG, SHORT], 4),
            ([*LINES, RAISED, LONG], 4),
            ([*LINES, RAISED, SHORT, LONG], 5),
            ([group(5, b"\0")], 0),
            ([array, group(5, WORKED)], 1),
            ([array, group(0)], 1),
            ([array, group(7)], 1),
            ([array, RAISED, group(7)], 2),
        ):
            with self.subTest(kinds=[part[1] for part in parts]):
                self.write(*parts)
                if bad is None:
                    logs.read_log(self.log)
                    continue
                at = len(HEADER) + sum(map(len, parts[:bad]))
                for read in (logs.read_log, logs.told):
                    with self.assertRaisesRegex(subzero.OutOfStep, f"^the log is bad at {at}$"):
                        read(self.log)

    def test_a_log_that_is_cut_at_each_length(self) -> None:
        parts = [*LINES, LONG, RAISED, LINES[0], SHORT]
        whole = self.write(*parts)
        gates = [len(HEADER) + sum(map(len, parts[:number])) for number in range(len(parts) + 1)]
        for length in range(len(whole)):
            self.log.write_bytes(whole[:length])
            why = "does not begin as a log" if length < 16 else f"bad at {max(g for g in gates if g <= length)}$"
            with self.assertRaisesRegex(subzero.OutOfStep, why):
                logs.read_log(self.log)
        for gate in gates:  # a gate that is closed ends the log, whatever stands behind it
            self.log.write_bytes(whole[:gate] + b"\0" + whole[gate + 1 :])
            self.assertEqual(len(logs.read_log(self.log).versions), sum(gate > gates[at] for at in (3, 6)))

    def test_stores_that_are_no_longer_there(self) -> None:
        whole = self.write(*LINES, RAISED, group(6, WORKED_SHORT))
        held = logs.read_log(self.log)
        self.assertEqual(held.versions[1].lists(), [["full_one_b"]])
        at = len(whole) - 1 - 46 + 26
        self.assertEqual(whole[at : at + 4].hex(" "), "00 01 00 00")
        self.log.write_bytes(whole[: at + 1] + b"\x80" + whole[at + 2 :])
        with self.assertRaisesRegex(subzero.SubZeroError, f"is no longer the log that it was: the short .* {at + 1} "):
            held.versions[1].lists()
        self.log.write_bytes(whole[: at + 1])
        with self.assertRaisesRegex(subzero.SubZeroError, f"no longer .*: the file ends at byte {at + 1},"):
            held.versions[1].lists()

    def test_many_sets_are_read_in_time(self) -> None:
        """A store of 200,000 sets, as an image's is."""
        many = full([(0, [(cell, cell)]) for cell in range(200_000)], [], short_set)
        data = body(1, "f", [("a", 1)], [[("full_one_b", many)]])
        self.log.write_bytes(data)
        self.assertEqual(stores.kept(self.log, 0, len(data), [1], short=True), [[("full_one_b", len(many))]])


if __name__ == "__main__":
    unittest.main()
