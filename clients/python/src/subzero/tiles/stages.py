"""A flow cut into stages.

The output of a `regions` is kept whole, since a label counts through the whole array, and what follows takes it as a
base array. So does what follows a node that is kept for another reason: a table of `lookup` that is made by the flow,
and a node that is read at places so far apart that no tile could hold both. Between kept arrays all nodes of a stage
are made together, tile by tile. A node that two stages need is made again in each.
"""

from __future__ import annotations

from collections.abc import Iterator, Sequence
from dataclasses import dataclass

from ..cells import MOST_LAYERS, Shape
from ..flow import Flow, Node, Place
from ..geometry import CUT, PAIRS, layers_of
from .faults import CannotTile
from .grids import Grid, Spot, even
from .windows import Limits, Members, TilePlan, cells_of_tile, excess, plan_tile

_SMALLER = 0.84
_MUCH_SMALLER = 4
_SAMPLED = 3
_MOST_TILES = 65_536


@dataclass
class Stage:
    """A stage: its number, the tiles' side, its nodes, and what each of its tiles holds."""

    number: int
    side: int
    members: Members
    tiles: dict[Spot, TilePlan]

    @property
    def cells(self) -> int:
        """The most cells that a session holds for one of its tiles."""
        return max(cells_of_tile(self.members, plan) for plan in self.tiles.values())


@dataclass
class Plan:
    """A flow's stages over base arrays of certain shapes; `stage_of` says which stage answers for a node."""

    stages: list[Stage]
    kept: frozenset[int]
    shapes: dict[Place, Shape]
    stage_of: dict[int, Stage]


def shapes_of(flow: Flow, base: Sequence[Shape]) -> dict[Place, Shape]:
    """The shapes of all arrays of a flow over base arrays of these shapes. Raises CannotTile where they do not fit."""
    shapes: dict[Place, Shape] = dict(zip(flow.inputs, base))
    for node in flow.nodes:
        taken = [shapes[source] for source in node.sources]
        _check_shapes(node, taken)
        shapes[node] = node.shape_from(taken[0])
    return shapes


def plan_flow(flow: Flow, base: Sequence[Shape], side: int, limits: Limits = Limits()) -> Plan:
    """Cut a flow into stages and tiles of at most this side, each of which fits into a session.

    Raises CannotTile, with the node, where even a tile of one cell would not fit.
    """
    shapes = shapes_of(flow, base)
    kept = _kept_for_meaning(flow)
    while True:
        every = [_members(flow, shapes, kept, number) for number in range(_count(flow, kept))]
        sides = [_fitting(members, side, limits, max(1, side // _MUCH_SMALLER)) for members in every]
        if None not in sides:
            break
        further = _best_cut(flow, shapes, kept, side, limits)
        if further is None:
            sides = [_fitting(members, side, limits, 1) for members in every]
            break
        kept = kept | {further}
    stages = []
    for number, (members, fitting) in enumerate(zip(every, sides)):
        if fitting is None:
            raise _too_large(members, limits)
        _cut(members, fitting)
        stages.append(Stage(number, fitting, members, _tiles(members)))
    owners = {number: stage for stage in stages for number in stage.members.own}
    return Plan(stages, kept, shapes, owners)


def _check_shapes(node: Node, taken: list[Shape]) -> None:
    if node.op in PAIRS and _three(taken[0]) != _three(taken[1]):
        raise CannotTile(node, f"its inputs have the shapes {taken[0]} and {taken[1]}, and must have one")
    if node.op == "lookup" and layers_of(taken[1]) * taken[1][-2] != 1:
        raise CannotTile(node, f"its table has the shape {taken[1]}, and must have one row")
    if node.op == "slice":
        given, (height, width) = node.parameters, taken[0][-2:]
        if given["r0"] + given["h"] > height or given["c0"] + given["w"] > width:
            raise CannotTile(node, f"it goes beyond its input, whose shape is {taken[0]}")
    assert layers_of(taken[0]) <= MOST_LAYERS


def _three(shape: Shape) -> Shape:
    return (layers_of(shape), *shape[-2:])


def _kept_for_meaning(flow: Flow) -> frozenset[int]:
    """The nodes whose outputs are needed whole: labels, and tables that the flow makes."""
    kept = {node.number for node in flow.nodes if node.op == CUT}
    for node in flow.nodes:
        if node.op == "lookup" and isinstance(node.sources[1], Node):
            kept.add(node.sources[1].number)
    return frozenset(kept)


def _levels(flow: Flow, kept: frozenset[int]) -> list[int]:
    """For each node in which stage it is made."""
    levels: list[int] = []
    for node in flow.nodes:
        sources = [source for source in node.sources if isinstance(source, Node)]
        levels.append(max((levels[one.number] + (one.number in kept) for one in sources), default=0))
    return levels


def _count(flow: Flow, kept: frozenset[int]) -> int:
    return max(_levels(flow, kept)) + 1


def _members(flow: Flow, shapes: dict[Place, Shape], kept: frozenset[int], number: int) -> Members:
    """The nodes of a stage, not yet cut into tiles: its own, and those that are made again on the way to them."""
    levels = _levels(flow, kept)
    wanted = {node.number for node in flow.nodes if levels[node.number] == number}
    own = sorted(wanted)
    for node in reversed(flow.nodes):
        if node.number in wanted:
            wanted |= {one.number for one in node.sources if isinstance(one, Node) and one.number not in kept}
    nodes = [node for node in flow.nodes if node.number in wanted]
    return Members(nodes, {one: Grid((), ()) for one in own}, kept, shapes)


def _cut(members: Members, side: int) -> None:
    """Say where each array of the stage is cut."""
    grids: dict[Place, Grid] = {}
    for node in members.nodes:
        source = node.sources[0]
        grid = even(members.shapes[source], side) if members.is_kept(source) else grids[source]
        grids[node] = grid.after(node)
    for node in members.nodes:
        if node.number in members.own:
            members.own[node.number] = grids[node]


def _counts(members: Members) -> Spot:
    """How many rows and columns of tiles a stage has."""
    high = max(len(grid.first) for grid in members.own.values()) - 1
    wide = max(len(grid.second) for grid in members.own.values()) - 1
    return high, wide


def _spots(members: Members) -> Iterator[Spot]:
    high, wide = _counts(members)
    return ((row, column) for row in range(high) for column in range(wide))


def _tiles(members: Members) -> dict[Spot, TilePlan]:
    plans = ((spot, plan_tile(members, spot)) for spot in _spots(members))
    return {spot: plan for spot, plan in plans if plan is not None}


def _sample(members: Members) -> Iterator[Spot]:
    """Some tiles that tell much of all: corners, middles of sides, the middle."""
    rows, columns = (
        sorted({at * (count - 1) // (_SAMPLED - 1) for at in range(_SAMPLED)}) for count in _counts(members)
    )
    return ((row, column) for row in rows for column in columns)


def _excess(members: Members, side: int, limits: Limits, enough: float, sampled: bool) -> float:
    """By how much the worst tile of this side is too large; ends early above `enough`."""
    _cut(members, side)
    high, wide = _counts(members)
    if not sampled and high * wide > _MOST_TILES:
        return float("inf")
    worst = 0.0
    for spot in _sample(members) if sampled else _spots(members):
        plan = plan_tile(members, spot)
        if plan is not None:
            worst = max(worst, excess(members, plan, limits))
            if worst > enough:
                break
    return worst


def _fitting(members: Members, side: int, limits: Limits, least: int) -> int | None:
    """The greatest side, down to `least`, at which all tiles of a stage fit into a session; None where there is
    none."""
    while side >= least:
        if (
            _excess(members, side, limits, 1, sampled=True) <= 1
            and _excess(members, side, limits, 1, sampled=False) <= 1
        ):
            return side
        side = min(side - 1, int(side * _SMALLER))
    return None


def _best_cut(flow: Flow, shapes: dict[Place, Shape], kept: frozenset[int], side: int, limits: Limits) -> int | None:
    """The further node that is best kept whole, so that tiles hold less; None where all that are read are kept."""
    read = {one.number for node in flow.nodes for one in node.sources if isinstance(one, Node)}
    best: tuple[float, int] | None = None
    for number in sorted(read - kept):
        worst = 0.0
        for stage in range(_count(flow, kept | {number})):
            members = _members(flow, shapes, kept | {number}, stage)
            worst = max(worst, _excess(members, side, limits, float("inf"), sampled=True))
        if best is None or worst < best[0]:
            best = (worst, number)
    return best[1] if best else None


def _too_large(members: Members, limits: Limits) -> CannotTile:
    """Which node cannot be made in tiles, however small."""
    _cut(members, 1)
    worst, at = 0.0, members.nodes[-1]
    for node in members.nodes:
        if node.number in members.own:
            before = [one for one in members.nodes if one.number <= node.number]
            alone = Members(before, {node.number: members.own[node.number]}, members.kept, members.shapes)
            plans = (plan_tile(alone, spot) for spot in _sample(alone))
            over = max((excess(alone, plan, limits) for plan in plans if plan is not None), default=0.0)
            if over > max(1.0, worst):
                worst, at = over, node
    return CannotTile(
        at,
        f"its output cannot be made in {_MOST_TILES:,} tiles or fewer of which each fits into a session: "
        f"{limits.cells:,} cells, {limits.array:,} of them in one array",
    )
