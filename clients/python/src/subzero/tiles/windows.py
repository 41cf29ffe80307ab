"""What one tile of a stage holds: which cells of the kept arrays go in, and where the output of each node lies.

First it is found, from the tile's own cells back, which cells of each array have to be exact. Then rectangles grow
until the program's shapes fit: the output of `convolve` lies where its input does, the two inputs of `add` lie at one
place, a `block`'s input begins and ends at blocks. Cells near the edge of what was grown may be wrong in the tile; they
are nobody's own, and nothing exact is made of them.
"""

from __future__ import annotations

from collections.abc import Mapping, Sequence
from dataclasses import dataclass, field
from typing import TypeAlias

from ..cells import MOST_CELLS, Shape
from ..flow import Node, Place
from ..geometry import CUT, Rect, demanded, layers_of, needed, placed
from .grids import Grid, Spot

Edge: TypeAlias = tuple[int, int]
"""A node's number and the number of one of its inputs."""


@dataclass(frozen=True)
class Limits:
    """What a session of the program takes: cells held, cells of one array, nodes and inputs of a flow."""

    cells: int = 4_194_304
    array: int = MOST_CELLS
    nodes: int = 32
    inputs: int = 32


@dataclass
class Members:
    """The nodes that the tiles of a stage make, in the flow's order.

    `own` are those whose cells this stage answers for, with where they are cut; the others are made again on the way to
    them. `kept` are the nodes whose outputs are kept whole, so that a tile takes them as it takes a base array.
    `shapes` gives the shape of each array of the flow.
    """

    nodes: list[Node]
    own: dict[int, Grid]
    kept: frozenset[int]
    shapes: Mapping[Place, Shape]

    def is_kept(self, place: Place) -> bool:
        """Whether a tile takes this array as a base array."""
        return not isinstance(place, Node) or place.number in self.kept


@dataclass
class TilePlan:
    """What one tile holds.

    `own` are its own cells of the stage's nodes, `local` where the output of each of its nodes lies, `windows` which
    cells of a kept array each input takes, and `cropped` the `regions` whose input is cut down to the tile's own cells.
    """

    spot: Spot
    own: dict[int, Rect] = field(default_factory=dict)
    local: dict[int, Rect] = field(default_factory=dict)
    windows: dict[Edge, Rect] = field(default_factory=dict)
    cropped: set[int] = field(default_factory=set)


def plan_tile(members: Members, spot: Spot) -> TilePlan | None:
    """What this tile of the stage holds; None where none of the cells are its own."""
    plan = TilePlan(spot)
    for number, grid in members.own.items():
        rect = grid.own(spot)
        if rect is not None:
            plan.own[number] = rect
    if not plan.own:
        return None
    _need(members, plan)
    while _settle(members, plan):
        pass
    for node in members.nodes:
        if node.op == CUT and node.number in plan.local and source_rect(plan, node) != plan.local[node.number]:
            plan.cropped.add(node.number)
    return plan


def source_rect(plan: TilePlan, node: Node, number: int = 0) -> Rect:
    """Where input `number` of a node of the tile lies."""
    window = plan.windows.get((node.number, number))
    if window is not None:
        return window
    source = node.sources[number]
    assert isinstance(source, Node)
    return plan.local[source.number]


def inputs_of(members: Members, plan: TilePlan) -> dict[tuple[Place, Rect], list[Edge]]:
    """The different windows of kept arrays that a tile takes, and which inputs take each."""
    found: dict[tuple[Place, Rect], list[Edge]] = {}
    nodes = {node.number: node for node in members.nodes}
    for edge, rect in plan.windows.items():
        found.setdefault((nodes[edge[0]].sources[edge[1]], rect), []).append(edge)
    return found


def cells_of_tile(members: Members, plan: TilePlan) -> int:
    """How many cells a session holds for this tile."""
    cells = sum(rect.area * layers_of(members.shapes[place]) for place, rect in inputs_of(members, plan))
    for node in members.nodes:
        if node.number in plan.local:
            held = plan.local[node.number].area * layers_of(members.shapes[node])
            cells += held * (2 if node.number in plan.cropped else 1)
    return cells


def excess(members: Members, plan: TilePlan, limits: Limits) -> float:
    """By how much a tile is too large for a session: 1 or less where it fits."""
    inputs = inputs_of(members, plan)
    greatest = max(rect.area * layers_of(members.shapes[place]) for place, rect in inputs)
    return max(
        cells_of_tile(members, plan) / limits.cells,
        greatest / limits.array,
        (len(plan.local) + len(plan.cropped)) / limits.nodes,
        len(inputs) / limits.inputs,
    )


def _need(members: Members, plan: TilePlan) -> None:
    """Find, from the tile's own cells back, which cells of each array must be exact."""
    plan.local.update(plan.own)
    for node in reversed(members.nodes):
        wanted = plan.local.get(node.number)
        if wanted is not None:
            for number, source in enumerate(node.sources):
                _grow_source(members, plan, node, number, needed(node, number, wanted, members.shapes[source]))


def _settle(members: Members, plan: TilePlan) -> bool:
    """Grow rectangles towards the program's shapes; whether any grew."""
    before = (dict(plan.local), dict(plan.windows))
    for node in reversed(members.nodes):
        place = plan.local.get(node.number)
        if place is not None:
            for number, source in enumerate(node.sources):
                _grow_source(members, plan, node, number, demanded(node, number, place, members.shapes[source]))
    _merge(members, plan)
    for node in members.nodes:
        if node.number in plan.local:
            for number in range(len(node.sources)):
                place = placed(node, number, source_rect(plan, node, number))
                plan.local[node.number] = plan.local[node.number].hull(place)
    return before != (plan.local, plan.windows)


def _grow_source(members: Members, plan: TilePlan, node: Node, number: int, rect: Rect) -> None:
    source = node.sources[number]
    if members.is_kept(source):
        plan.windows[node.number, number] = rect.hull(plan.windows.get((node.number, number)))
    else:
        assert isinstance(source, Node)
        plan.local[source.number] = rect.hull(plan.local.get(source.number))


def _merge(members: Members, plan: TilePlan) -> None:
    """Windows of one array become one where that holds fewer cells than the two."""
    by_place: dict[Place, set[Rect]] = {}
    for place, rect in inputs_of(members, plan):
        by_place.setdefault(place, set()).add(rect)
    for place, rects in by_place.items():
        joined = _joined(sorted(rects))
        if len(joined) < len(rects):
            for (other, rect), edges in inputs_of(members, plan).items():
                if other is place:
                    for edge in edges:
                        plan.windows[edge] = next(one for one in joined if one.hull(rect) == one)


def _joined(rects: Sequence[Rect]) -> list[Rect]:
    """The rectangles, any two joined whose hull has no more cells than both."""
    left = list(rects)
    again = True
    while again:
        again = False
        for at, one in enumerate(left):
            for other in left[at + 1 :]:
                if one.hull(other).area <= one.area + other.area:
                    left = [rect for rect in left if rect not in (one, other)] + [one.hull(other)]
                    again = True
                    break
            if again:
                break
    return left
