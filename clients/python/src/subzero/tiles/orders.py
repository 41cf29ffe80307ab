"""What a program is told to make for one tile, as plain data that another process can take."""

from __future__ import annotations

import json
from collections.abc import Mapping, Sequence
from dataclasses import dataclass
from typing import Any, TypeAlias

from numpy.typing import NDArray

from ..flow import Node, Place
from ..geometry import CUT, Rect
from ..numerals import cells_text, rows_text
from .windows import Edge, Members, TilePlan, inputs_of, source_rect

Key: TypeAlias = tuple[int, int, int, int]
"""A tile: the number of its run, its stage, its row and its column."""


@dataclass
class Order:
    """A tile's flow and the windows that it takes.

    `flow` is the text of its nodes and `keep` the lists of strategies, each with a node's number in the tile; `windows`
    are the arrays, each with a name by which the same one is known again; `cells` is how many a session then holds.
    """

    key: Key
    flow: bytes
    keep: list[tuple[int, list[str]]]
    windows: list[Window]
    cells: int


@dataclass
class Window:
    """Cells of a kept array, int64 of 2 or 3 axes, and which of them are empty, or None."""

    name: tuple[Any, ...]
    values: NDArray[Any]
    empty: NDArray[Any] | None

    @property
    def count(self) -> int:
        """How many cells they are."""
        return self.values.size

    def line(self) -> bytes:
        """The line that hands them in."""
        layers = self.values if self.values.ndim == 3 else self.values[None]
        holes = None if self.empty is None else self.empty.reshape(layers.shape)
        texts = [rows_text(layer, None if holes is None else holes[at]) for at, layer in enumerate(layers)]
        if self.values.ndim == 3:
            return b'{"layers":"a","cells":[%s]}\n' % b",".join(texts)
        return b'{"array":"a","cells":%s}\n' % texts[0]


@dataclass(frozen=True)
class Show:
    """A node's number in the tile, the shape of its output there as (layers, height, width), and the part of it that is
    wanted."""

    node: int
    shape: tuple[int, int, int]
    part: Rect


@dataclass(frozen=True)
class Ask:
    """A question to a tile, in its own numbers: the path in the order of the ask, the cells, (N, 3), and whether the
    array in which they lie has layers to tell apart."""

    forward: bool
    path: tuple[Edge, ...]
    cells: NDArray[Any]
    layered: bool
    explain: bool = False

    def line(self, version: int) -> bytes:
        """The line that asks, of a version of the tile's flow."""
        told = cells_text(self.cells if self.layered else self.cells[:, 1:])
        steps = ",".join(f"[{node},{number}]" for node, number in self.path)
        form, way = ("explain" if self.explain else "ask"), ("forward" if self.forward else "back")
        return b'{"%s":%d,"dir":"%s","path":[%s],"cells":%s}\n' % (
            form.encode(),
            version,
            way.encode(),
            steps.encode(),
            told,
        )


@dataclass(frozen=True)
class Merge:
    """That a tile's stores are merged: begun, or with `told` waited for, where it was begun before. Told is how many
    kinds of lineage each `full_` store has, in the order of the tile's nodes and of their lists."""

    told: bool = False

    def line(self, version: int) -> bytes:
        """The line that says so, of a version of the tile's flow."""
        return b'{"%s":%d}\n' % (b"merged" if self.told else b"merge", version)


@dataclass(frozen=True)
class NewCells:
    """Cells of one of a tile's windows that are to be set: the number of the window among the tile's, the text of the
    cells with what they are to hold, the name by which the window with these cells is known, and how many cells it has
    in all."""

    input: int
    text: bytes
    name: tuple[Any, ...]
    count: int

    def line(self, version: int) -> bytes:
        """The line that sets them, of a version of the tile's flow."""
        return b'{"refresh":%d,"input":%d,"set":%s}\n' % (version, self.input, self.text)


@dataclass(frozen=True)
class Renewal:
    """How a tile is made of another one of the same windows, in which cells are set: the other's key, which a program
    may hold, the cells window by window, and how many cells the outputs of its nodes have."""

    old: Key
    new: list[NewCells]
    outputs: int

    @property
    def cells(self) -> int:
        """How many further cells a session then holds."""
        return sum(window.count + self.outputs for window in self.new)


@dataclass(frozen=True)
class Request:
    """What is wanted of a tile: parts of its outputs, answers, and merges; with the order to make it by, where it may
    not be held, or how it is made of another one that may be."""

    key: Key
    shows: list[Show]
    asks: list[Ask | Merge]
    order: Order | None
    renewal: Renewal | None = None


def numbers_in(members: Members, plan: TilePlan) -> dict[int, int]:
    """The number in the tile of each node that it makes; before a `regions` that is cropped stands a `slice`."""
    numbers: dict[int, int] = {}
    further = 0
    for node in members.nodes:
        if node.number in plan.local:
            further += node.number in plan.cropped
            numbers[node.number] = further
            further += 1
    return numbers


def flow_of(
    members: Members, plan: TilePlan, kept: Mapping[int, Sequence[str]]
) -> tuple[bytes, list[tuple[int, list[str]]]]:
    """The text of the tile's flow behind its name, and how its nodes are kept. `kept` is the list of each node of the
    whole flow that has one."""
    numbers = numbers_in(members, plan)
    inputs = list(inputs_of(members, plan).values())
    input_of = {edge: at for at, edges in enumerate(inputs) for edge in edges}
    nodes: list[dict[str, Any]] = []
    for node in members.nodes:
        if node.number in plan.local:
            sources = [_source(node, number, input_of, numbers) for number in range(len(node.sources))]
            if node.number in plan.cropped:
                nodes.append({"op": "slice", **_crop(plan, node), "from": sources})
                sources = [{"n": len(nodes) - 1}]
            nodes.append({"op": node.op, **_parameters(plan, node), "from": sources})
    text = json.dumps({"inputs": len(inputs), "nodes": nodes}, separators=(",", ":")).encode()
    keep = [
        (numbers[node.number], list(kept[node.number]))
        for node in members.nodes
        if node.number in plan.local and node.number in kept and node.op != CUT
    ]
    return text, keep


def _source(node: Node, number: int, input_of: dict[Edge, int], numbers: dict[int, int]) -> dict[str, int]:
    edge = (node.number, number)
    if edge in input_of:
        return {"i": input_of[edge]}
    source: Place = node.sources[number]
    return {"n": numbers[source.number]}


def _crop(plan: TilePlan, node: Node) -> dict[str, int]:
    own, around = plan.local[node.number], source_rect(plan, node)
    return {"r0": own.top - around.top, "c0": own.left - around.left, "h": own.height, "w": own.width}


def _parameters(plan: TilePlan, node: Node) -> dict[str, Any]:
    """A node's parameters in the tile: those of `slice` count from where its input lies."""
    if node.op != "slice":
        return node.parameters
    place, around = plan.local[node.number], source_rect(plan, node)
    return {
        "r0": place.top + node.parameters["r0"] - around.top,
        "c0": place.left + node.parameters["c0"] - around.left,
        "h": place.height,
        "w": place.width,
    }
