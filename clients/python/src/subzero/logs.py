"""What a session holds, and what a log's file says of it.

A log is a row of groups (docs/FORMATS.md, "The log"). Groups of kinds 1 to 3 are the lines that were accepted, as they
were sent: arrays, flows, strategies. Those of kind 4 are versions that were awaited, which begin with the version's
number, its flow's name and the names and versions of its base arrays. A group of kind 5, which has no body, raises the
log to format 2: from there on versions are of kind 6, in which the cell sets of stores are short. `read_log` takes a
log in, `Holdings` is what it says; lines that a session sends are taken into the same.

Names that only people read stand in the line of a flow: of a field that is given twice the program takes the last one,
so this client writes a first `"nodes"`, a list with the nodes' names, and a first `"flow"`, the name that is shown,
where there are such.
"""

from __future__ import annotations

import csv
import io
import json
import os
import re
import struct
import zlib
from collections.abc import Callable, Iterator
from dataclasses import dataclass, field
from pathlib import Path
from typing import Any, BinaryIO

import numpy as np

from . import stores
from .cells import Integers, Mask, Shape, Values, values_of
from .faults import OutOfStep, SubZeroError
from .keeping import chosen_for

HEADER = b"\x01SubZero log 1\r\n"
VERSION, RAISED, SHORT_VERSION = 4, 5, 6
"""The kinds of group that are no lines: a version of format 1, what raises a log to format 2, a version of format 2."""

_LAWFUL = {1, 2, 3, VERSION, RAISED}
_LAWFUL_BEHIND = {1, 2, 3, SHORT_VERSION}
_PLAIN_ARRAY = re.compile(rb'\{"(?:array|layers)":"([a-z0-9_]{1,32})","cells":\[')
_HEAD_OF_VERSION = 4 + 256 + 4 + 32 * (256 + 4) + 4


class _Fields(dict[str, Any]):
    """A JSON object, and the first value of each field that it has twice."""

    first: dict[str, Any]


def _fields(pairs: list[tuple[str, Any]]) -> _Fields:
    fields = _Fields(pairs)
    fields.first = {}
    for name, value in pairs:
        fields.first.setdefault(name, value)
    return fields


@dataclass
class HeldArray:
    """An array that is held: its name, its version, and its values, or what gives them when they are wanted."""

    name: str
    version: int
    made: Callable[[], tuple[Integers, Mask]] | None = None
    known: Values | None = None

    @classmethod
    def of_line(cls, name: str, version: int, line: Callable[[], bytes]) -> HeldArray:
        """One that a line hands in, which is taken again when its values are wanted."""
        return cls(name, version, lambda: values_of_line(line()))

    @property
    def values(self) -> Values:
        """Its values, which cannot be written."""
        if self.known is None:
            assert self.made is not None
            self.known = frozen(*self.made())
        return self.known

    @property
    def shape(self) -> Shape:
        """(height, width), or (layers, height, width)."""
        shape: Shape = self.values.shape
        return shape


def size_told(values: Values) -> str:
    """The shape of an array in words, and how many of its cells are empty."""
    empty = int(np.ma.getmaskarray(values).sum())
    return " by ".join(map(str, values.shape)) + (f", {empty:,} cells empty" if empty else "")


def frozen(numbers: Integers, empty: Mask) -> Values:
    """The values as a masked array that cannot be written."""
    values: Values = np.ma.MaskedArray(numbers, empty)
    values.flags.writeable = False
    return values


@dataclass
class HeldFlow:
    """A flow that is held.

    `name` is the program's, `shown` that which people read; `inputs` is the number of its base arrays, `nodes` are its
    nodes as JSON, `names` theirs for people, and `lists` the strategies that were set, by the node's number.
    """

    name: str
    inputs: int
    nodes: list[dict[str, Any]]
    shown: str = ""
    names: list[str | None] = field(default_factory=list)
    lists: dict[int, list[str]] = field(default_factory=dict)

    def list_of(self, number: int) -> list[str]:
        """The strategies of a node by its number: those that were set, else those that the program chooses."""
        return self.lists.get(number) or chosen_for(str(self.nodes[number]["op"]))

    def difference(self, other: HeldFlow) -> str | None:
        """In what another flow differs from this one, in words; None where the program would see the same flow."""
        if self.inputs != other.inputs:
            return f"it takes {self.inputs} base arrays, and this one {other.inputs}"
        for number, (held, new) in enumerate(zip(self.nodes, other.nodes)):
            if held != new:
                return f"its node {number} is {_told(held)}, and here {_told(new)}"
        if len(self.nodes) != len(other.nodes):
            return f"it has {len(self.nodes)} nodes, and this one {len(other.nodes)}"
        return None

    def line(self) -> bytes:
        """The line that defines it."""
        fields: list[tuple[str, Any]] = []
        if any(self.names):
            fields.append(("nodes", self.names))
        if self.shown and self.shown != self.name:
            fields.append(("flow", self.shown))
        fields += [("flow", self.name), ("inputs", self.inputs), ("nodes", self.nodes)]
        text = ",".join(f"{json.dumps(name)}:{json.dumps(value, separators=(',', ':'))}" for name, value in fields)
        return b"{" + text.encode() + b"}\n"


def _told(node: dict[str, Any]) -> str:
    """A node of a flow's line in words."""
    told = [f"{name} {json.dumps(value)}" for name, value in node.items() if name not in ("op", "from")]
    sources = ", ".join(
        f"{'input' if 'i' in source else 'node'} {next(iter(source.values()))}" for source in node["from"]
    )
    text = f"{node['op']} of {sources}" + (f" with {', '.join(told)}" if told else "")
    return text if len(text) <= 160 else text[:157] + ".."


@dataclass
class HeldVersion:
    """A version that is held: its number, its flow's name, the names and versions of its base arrays, and what gives
    the strategies that its nodes had at its start, a list a node."""

    number: int
    flow: str
    base: tuple[tuple[str, int], ...]
    lists: Callable[[], list[list[str]]]


@dataclass
class Holdings:
    """What a session holds. `arrays` are by name and version, `flows` by the program's name, `versions` by number."""

    arrays: dict[tuple[str, int], HeldArray] = field(default_factory=dict)
    flows: dict[str, HeldFlow] = field(default_factory=dict)
    versions: dict[int, HeldVersion] = field(default_factory=dict)
    _latest: dict[str, int] = field(default_factory=dict)

    def latest(self, name: str) -> int:
        """The last version of an array's name, 0 where there is none."""
        return self._latest.get(name, 0)

    def add(self, array: HeldArray) -> None:
        """Hold one more array."""
        self.arrays[array.name, array.version] = array
        self._latest[array.name] = array.version

    def start(self, number: int, flow: str, base: tuple[tuple[str, int], ...]) -> None:
        """Hold the version of this number, that was started now."""
        held = self.flows[flow]
        lists = [held.list_of(node) for node in range(len(held.nodes))]
        self.versions[number] = HeldVersion(number, flow, base, lambda: lists)

    def refresh(self, number: int, old: int, place: int, made: Callable[[], tuple[Integers, Mask]]) -> HeldArray:
        """Hold what a refresh of the version `old` made: an array for the input of the number `place`, which it gives,
        and the version of this number on it.
        """
        version = self.versions[old]
        name = version.base[place][0]
        array = HeldArray(name, self.latest(name) + 1, made)
        self.add(array)
        base = (*version.base[:place], (name, array.version), *version.base[place + 1 :])
        self.versions[number] = HeldVersion(number, version.flow, base, version.lists)
        return array

    def take(self, line: bytes, reply: bytes | None = None, again: Callable[[], bytes] | None = None) -> None:
        """Take in a line that was accepted, with its reply where there was one; other forms change nothing.

        `again` gives the line once more, where it is not to be kept.
        """
        if (name := name_of_array(line)) is not None:
            version = self.latest(name) + 1 if reply is None else int(reply.split()[-1])
            self.add(HeldArray.of_line(name, version, again or (lambda: line)))
            return
        fields = json.loads(line, object_pairs_hook=_fields)
        if "flow" in fields:
            self._take_flow(fields)
        elif "strategy" in fields:
            self.flows[fields["strategy"]].lists[fields["node"]] = fields["list"]
        elif "start" in fields and reply is not None:
            number = int(reply.split()[-1])
            self.start(number, fields["start"], tuple((str(name), int(version)) for name, version in fields["base"]))
        elif "refresh" in fields and reply is not None:
            old, place = int(fields["refresh"]), int(fields["input"])
            before = self.arrays[self.versions[old].base[place]]
            self.refresh(int(reply.split()[1]), old, place, lambda: with_set(before.values, fields["set"]))

    def _take_flow(self, fields: _Fields) -> None:
        nodes, names = fields["nodes"], fields.first["nodes"]
        shown = fields.first["flow"]
        fit = isinstance(names, list) and len(names) == len(nodes)
        named = fit and all(name is None or isinstance(name, str) for name in names)
        self.flows[fields["flow"]] = HeldFlow(
            fields["flow"],
            fields["inputs"],
            [dict(node) for node in nodes],
            shown if isinstance(shown, str) else fields["flow"],
            names if named else [None] * len(nodes),
        )

    def take_version(self, body: bytes, lists: Callable[[HeldVersion], list[list[str]]]) -> None:
        """Take in the version that the body of a group begins with; `lists` gives the strategies of its nodes."""
        at = 4
        (number,) = struct.unpack_from(">I", body)

        def name() -> str:
            nonlocal at
            text = body[at + 1 : at + 1 + body[at]].decode()
            at += 1 + body[at]
            return text

        def count() -> int:
            nonlocal at
            at += 4
            return int(struct.unpack_from(">I", body, at - 4)[0])

        flow = name()
        base = tuple((name(), count()) for _ in range(count()))
        version = self.versions[number] = HeldVersion(number, flow, base, lambda: lists(version))


def name_of_array(line: bytes) -> str | None:
    """The name of the array that a line hands in, None for a line of another form."""
    plain = _PLAIN_ARRAY.match(line)
    if plain is not None and line.count(b'"') == 6:  # no field is there twice: the line is not read whole
        return plain[1].decode()
    fields = json.loads(line)
    named = [str(fields[form]) for form in ("array", "layers", "csv") if form in fields]
    return named[0] if named else None


def values_of_line(line: bytes) -> tuple[Integers, Mask]:
    """The values of an array that a line hands in, and which cells are empty."""
    fields = json.loads(line)
    if "csv" in fields:
        records = csv.reader(io.StringIO(fields["text"].removeprefix("\ufeff"), newline=""))
        rows: Any = [[int(text) if text else None for text in record] for record in records if record]
    else:
        rows = fields["cells"]
    return values_of(rows)


def with_set(values: Values, cells: list[list[int | None]]) -> tuple[Integers, Mask]:
    """The values of an array in which cells were set, and which are empty: each of `cells` as a refresh's line has it,
    a cell and what it is to hold.
    """
    numbers, empty = np.ma.getdata(values).copy(), np.ma.getmaskarray(values).copy()
    layers, holes = (part.reshape(-1, *values.shape[-2:]) for part in (numbers, empty))
    for *cell, value in cells:
        at = tuple([0] * (3 - len(cell)) + cell)
        layers[at], holes[at] = (0, True) if value is None else (value, False)
    return numbers, empty


@dataclass(frozen=True)
class Group:
    """A group of a log: at which byte it stands, its kind, and where its body begins and how long it is."""

    at: int
    kind: int
    begin: int
    length: int

    @property
    def is_version(self) -> bool:
        """Whether it is a version that was awaited, in either format."""
        return self.kind in (VERSION, SHORT_VERSION)


def groups(file: BinaryIO) -> Iterator[Group]:
    """The groups of an open log, up to the first closed gate.

    Raises OutOfStep, which names the byte, where it is none, or a group is bad: where it is not wholly there, is of no
    kind, or is of one that has no place there. A log is raised once, by a group without a body; versions before that
    are of kind 4, and behind it of kind 6.
    """
    size = file.seek(0, os.SEEK_END)
    at, lawful = len(HEADER), _LAWFUL
    if _bytes_at(file, 0, min(at, size)) != HEADER:
        raise OutOfStep("the file does not begin as a log")
    while True:
        head = _bytes_at(file, at, max(0, min(10, size - at)))
        if head and head[0] != 1:
            return
        length = int.from_bytes(head[2:], "big")
        if len(head) < 10 or head[1] not in lawful or at + 10 + length > size or (head[1] == RAISED and length > 0):
            raise OutOfStep(f"the log is bad at {at}")
        if head[1] == RAISED:
            lawful = _LAWFUL_BEHIND
        yield Group(at, head[1], at + 10, length)
        at += 10 + length


def is_unmade(path: str | os.PathLike[str]) -> bool:
    """Whether a file is empty, or holds what a stop in the making of a log leaves, and nothing else."""
    with open(path, "rb") as file:
        return (b"\0" + HEADER[1:] + b"\0").startswith(file.read(len(HEADER) + 2))


def read_log(path: str | os.PathLike[str]) -> Holdings:
    """What a log holds. Values of its arrays are read from the file again, when they are wanted.

    The file is only read, so a session may have it open. Raises OutOfStep where it is no log, or a bad one.
    """
    held = Holdings()
    with open(path, "rb") as file:
        for group in groups(file):
            try:
                _take_group(held, file, group)
            except (ValueError, KeyError, TypeError, struct.error, IndexError) as fault:
                raise OutOfStep(f"the log's group at {group.at} is not understood: {fault!r}") from None
    return held


def _take_group(held: Holdings, file: BinaryIO, group: Group) -> None:
    path = os.path.abspath(file.name)
    if group.kind == RAISED:
        return
    if group.is_version:
        head = _bytes_at(file, group.begin, min(group.length, _HEAD_OF_VERSION))
        held.take_version(head, lambda version: _lists_of(held, version, path, group))
        return
    line = _bytes_at(file, group.begin, group.length)
    digest = zlib.crc32(line)

    def again() -> bytes:
        with open(path, "rb") as log:
            read = _bytes_at(log, group.begin, group.length)
        if zlib.crc32(read) != digest:
            raise SubZeroError(f"{path} is no longer the log that it was")
        return read

    held.take(line, again=again)


def stores_of(held: Holdings, version: HeldVersion, path: str, group: Group) -> list[list[tuple[str, int]]]:
    """What a log keeps of a version's lineage: of each node its strategies, and how many bytes each takes in the file.

    Raises SubZeroError, which names the byte, where the file is no longer that log.
    """
    inputs = [len(node["from"]) for node in held.flows[version.flow].nodes]
    try:
        return stores.kept(path, group.begin, group.length, inputs, short=group.kind == SHORT_VERSION)
    except ValueError as fault:
        raise SubZeroError(f"{path} is no longer the log that it was: {fault}") from None


def _lists_of(held: Holdings, version: HeldVersion, path: str, group: Group) -> list[list[str]]:
    return [[name for name, _ in node] for node in stores_of(held, version, path, group)]


def _bytes_at(file: BinaryIO, begin: int, length: int) -> bytes:
    """As many bytes of an open file, from one on."""
    file.seek(begin)
    read = file.read(length)
    if len(read) < length:
        raise SubZeroError("the log's file is shorter than it was")
    return read


def told(path: str | os.PathLike[str]) -> str:
    """What a log holds, in lines: its format, its arrays, flows and versions. Raises OutOfStep where it is no log, or a
    bad one."""
    held = read_log(path)
    with open(path, "rb") as file:
        every = list(groups(file))
        size = file.seek(0, os.SEEK_END)
    of_arrays = sum(10 + group.length for group in every if group.kind == 1)
    of_versions = sum(10 + group.length for group in every if group.is_version)
    written = 2 if any(group.kind == RAISED for group in every) else 1
    lines = [
        f"{Path(path).name}: {size:,} bytes in format {written}, of them {of_arrays:,} of arrays and "
        f"{of_versions:,} of versions"
    ]
    lines += [f"array {array.name} {array.version}: {size_told(array.values)}" for array in held.arrays.values()]
    for flow in held.flows.values():
        shown = f" (shown as {flow.shown})" if flow.shown != flow.name else ""
        lines.append(f"flow {flow.name}{shown}, base arrays: {flow.inputs}")
        for number, node in enumerate(flow.nodes):
            kept = f", kept by {', '.join(flow.lists[number])}" if number in flow.lists else ""
            name = f" {flow.names[number]}" if flow.names[number] else ""
            lines.append(f"    node {number}{name}: {_told(node)}{kept}")
    for version in held.versions.values():
        base = ", ".join(f"{name} {number}" for name, number in version.base)
        lines.append(f"version {version.number}: flow {version.flow} on {base}")
    return "\n".join(lines)
