"""The tiles of a run: made stage by stage, and again where a program no longer holds one."""

from __future__ import annotations

import threading
from collections.abc import Callable, Mapping, Sequence
from concurrent.futures import ThreadPoolExecutor
from dataclasses import dataclass
from functools import partial
from itertools import zip_longest
from typing import Any

import numpy as np
from numpy.typing import NDArray

from ..cells import Shape
from ..faults import SubZeroError
from ..flow import Input, Node, Place
from ..geometry import CUT, Rect, layers_of
from .cellsets import Indexes, hull_of, to_local, within
from .crew import Crew, side_by_side
from .grids import Spot
from .orders import Ask, Key, Merge, Order, Renewal, Request, Show, Window, flow_of, numbers_in
from .seams import Labels, empty_labels, join, place_part
from .sources import TiledArray
from .stages import Plan, Stage
from .windows import TilePlan, cells_of_tile, inputs_of

_TRIES = 4
_BATCH = 1 << 18


@dataclass
class Whole:
    """The output of a node that is kept whole and is no `regions`: values and which are empty, of 3 axes."""

    values: NDArray[Any]
    empty: NDArray[Any]

    def put(self, rect: Rect, values: NDArray[Any], empty: NDArray[Any]) -> None:
        """Write a part of it."""
        at = np.s_[:, rect.top : rect.bottom, rect.left : rect.right]
        self.values[at], self.empty[at] = values, empty

    def at(self, indexes: Indexes) -> tuple[NDArray[Any], NDArray[Any]]:
        """The values of cells, and which are empty."""
        return self.values.reshape(-1)[indexes], self.empty.reshape(-1)[indexes]


def whole_of(shape: Shape) -> Whole:
    """Room for an output of 3 axes."""
    return Whole(np.zeros(shape, dtype=np.int64), np.zeros(shape, dtype=bool))


@dataclass
class Want:
    """What is wanted of a tile, and what takes it when it is there."""

    plan: TilePlan
    shows: list[Show]
    asks: list[Ask | Merge]
    take: Callable[[list[tuple[NDArray[Any], NDArray[Any]]], list[Any]], None]


@dataclass
class Begun:
    """The output of a node that is to be kept whole, as far as it was made: a Whole, or of a `regions` its labels and,
    of each part, its rectangle and the different labels in it. `wanted` are the tiles whose own part is to be written.
    """

    node: Node
    room: Whole | NDArray[Any]
    parts: list[tuple[Rect, NDArray[Any]]]
    wanted: set[Spot]


class Making:
    """The tiles of one run. `held` are those that a program was seen to hold, and may hold still."""

    def __init__(
        self,
        number: int,
        plan: Plan,
        base: Sequence[TiledArray],
        strategies: Mapping[int, Sequence[str]],
        crew: Crew,
        pool: ThreadPoolExecutor,
    ) -> None:
        self.number = number
        self.plan = plan
        self.base = base
        self.crew = crew
        self.strategies = strategies
        self.pool = pool
        self.held: set[Key] = set()
        self._labels: dict[int, Labels] = {}
        self._wholes: dict[int, Whole] = {}
        self._made = 0
        self._turn = threading.Lock()

    def labels(self, node: Node) -> Labels:
        """The joined labels of a `regions`."""
        self.make_before(self.plan.stage_of[node.number].number + 1)
        return self._labels[node.number]

    def whole(self, node: Node) -> Whole:
        """The output of a node that is kept whole and is no `regions`."""
        self.make_before(self.plan.stage_of[node.number].number + 1)
        return self._wholes[node.number]

    def make_before(self, stage: int) -> None:
        """Make all that tiles of this stage take: what the stages before it keep."""
        with self._turn:
            while self._made < stage:
                self._make(self.plan.stages[self._made])
                self._made += 1

    def values(self, place: Place, window: Rect) -> tuple[NDArray[Any], NDArray[Any]]:
        """The values in a window of an array of the flow, and which are empty, of 3 axes."""
        if isinstance(place, Node) and place.number not in self.plan.kept:
            return self._gathered(place, window)
        if isinstance(place, Node):
            self.make_before(self.plan.stage_of[place.number].number + 1)
        return self._read(place, window)

    def values_at(self, node: Node, cells: Indexes) -> tuple[NDArray[Any], NDArray[Any]]:
        """The values of cells of a node's output, and which are empty."""
        if node.number not in self.plan.kept:
            return self._gathered_at(node, cells)
        self.make_before(self.plan.stage_of[node.number].number + 1)
        return self._kept_at(node, cells)

    def ask(self, stage: Stage, asks: Sequence[tuple[TilePlan, Ask]], doing: str) -> list[Any]:
        """Put questions to tiles of a stage, side by side; gives the answers in their order."""
        self.make_before(stage.number)
        answers: list[Any] = [None] * len(asks)

        def take(at: int) -> Callable[[list[tuple[NDArray[Any], NDArray[Any]]], list[Any]], None]:
            return lambda parts, found: answers.__setitem__(at, found[0])

        self._get(stage, [Want(plan, [], [ask], take(at)) for at, (plan, ask) in enumerate(asks)], doing)
        return answers

    def has_merged(self, stage: Stage, plans: Sequence[TilePlan], doing: str) -> list[list[int]]:
        """Have the stores of tiles of a stage merged, side by side, and wait until they are; gives of each tile what
        `Merge` tells."""
        self.make_before(stage.number)
        kinds: list[list[int]] = [[]] * len(plans)

        def take(at: int) -> Callable[[list[tuple[NDArray[Any], NDArray[Any]]], list[Any]], None]:
            return lambda parts, found: kinds.__setitem__(at, found[1])

        both: list[Ask | Merge] = [Merge(), Merge(told=True)]
        self._get(stage, [Want(plan, [], both, take(at)) for at, plan in enumerate(plans)], doing)
        return kinds

    def merges_held(self, asks: Sequence[Merge], doing: str) -> None:
        """Say to all tiles that a program holds that their stores are merged; no tile is made for that."""
        batches: dict[int, list[Request]] = {}
        for stage in self.plan.stages[: self._made + 1]:
            for spot, plan in stage.tiles.items():
                key = self._key(stage, plan)
                if key in self.held:
                    request = Request(key, [], [*asks], None)
                    batches.setdefault(self._program(stage, spot), []).append(request)

        def say(program: int, requests: list[Request]) -> None:
            for request, (state, found) in zip(requests, self.crew.tiles(program, requests)):
                if state == "fault":
                    raise SubZeroError(f"a tile of run {self.number}: {found}")
                if state != "ok":
                    self.held.discard(request.key)

        side_by_side(self.pool, [partial(say, *batch) for batch in batches.items()], doing)

    def _make(self, stage: Stage) -> None:
        """Make what a stage keeps."""
        makings = [self._begun(stage, node) for node in self._keeps(stage)]
        wants = []
        for plan in stage.tiles.values():
            taken = [one for one in makings if plan.spot in one.wanted]
            if taken:
                wants.append(self._part_wanted(stage, plan, taken))
        self._get(stage, wants, f"making stage {stage.number + 1} of {len(self.plan.stages)}")
        for one in makings:
            if isinstance(one.room, Whole):
                self._wholes[one.node.number] = one.room
            else:
                pieces = sorted(one.parts, key=lambda part: part[0])
                self._labels[one.node.number] = join(self.plan.shapes[one.node], one.room, pieces)

    def _keeps(self, stage: Stage) -> list[Node]:
        """The nodes of a stage's own whose outputs are kept whole."""
        return [
            node for node in stage.members.nodes if node.number in stage.members.own and node.number in self.plan.kept
        ]

    def _begun(self, stage: Stage, node: Node) -> Begun:
        """Room for the output of a node that a stage keeps: all tiles have a part in it."""
        shape = self.plan.shapes[node]
        wanted = {spot for spot, plan in stage.tiles.items() if node.number in plan.own}
        if node.op == CUT:
            return Begun(node, empty_labels(shape), [], wanted)
        return Begun(node, whole_of((layers_of(shape), *shape[-2:])), [], wanted)

    def _part_wanted(self, stage: Stage, plan: TilePlan, taken: Sequence[Begun]) -> Want:
        """A tile's own part of what its stage keeps."""

        def take(found: list[tuple[NDArray[Any], NDArray[Any]]], _: list[Any]) -> None:
            for one, (values, empty) in zip(taken, found):
                rect = plan.own[one.node.number]
                if isinstance(one.room, Whole):
                    one.room.put(rect, values, empty)
                else:
                    one.parts.append((rect, place_part(one.room, self.plan.shapes[one.node], rect, values)))

        return Want(plan, [self._show(stage, plan, one.node, plan.own[one.node.number]) for one in taken], [], take)

    def _gathered(self, node: Node, window: Rect) -> tuple[NDArray[Any], NDArray[Any]]:
        """The values in a window of a node's output, taken from the tiles whose own they are."""
        stage = self.plan.stage_of[node.number]
        self.make_before(stage.number)
        room = whole_of((layers_of(self.plan.shapes[node]), window.height, window.width))

        def want(plan: TilePlan, part: Rect) -> Want:
            return Want(
                plan,
                [self._show(stage, plan, node, part)],
                [],
                lambda found, _: room.put(part.moved(-window.top, -window.left), *found[0]),
            )

        wants = []
        for plan in stage.tiles.values():
            part = plan.own[node.number].common(window) if node.number in plan.own else None
            if part is not None:
                wants.append(want(plan, part))
        self._get(stage, wants, f"taking the values of {node.op}")
        return room.values, room.empty

    def _kept_at(self, node: Node, cells: Indexes) -> tuple[NDArray[Any], NDArray[Any]]:
        """`values_at` of an output that is kept whole, and made."""
        if node.op == CUT:
            labels = self._labels[node.number].at(cells).astype(np.int64)
            return labels, np.zeros(labels.shape, dtype=bool)
        return self._wholes[node.number].at(cells)

    def _gathered_at(self, node: Node, cells: Indexes) -> tuple[NDArray[Any], NDArray[Any]]:
        """`values_at`, taken from the tiles whose own the cells are."""
        stage, shape = self.plan.stage_of[node.number], self.plan.shapes[node]
        self.make_before(stage.number)
        values, empty = np.zeros(cells.size, dtype=np.int64), np.zeros(cells.size, dtype=bool)

        def want(plan: TilePlan, part: Indexes) -> Want:
            rect = hull_of(part, shape)
            places, at = np.searchsorted(cells, part), tuple(to_local(part, shape, rect).T)

            def take(found: list[tuple[NDArray[Any], NDArray[Any]]], _: list[Any]) -> None:
                values[places], empty[places] = found[0][0][at], found[0][1][at]

            return Want(plan, [self._show(stage, plan, node, rect)], [], take)

        wants = []
        for plan in stage.tiles.values():
            part = within(cells, plan.own[node.number], shape) if node.number in plan.own else cells[:0]
            if part.size:
                wants.append(want(plan, part))
        self._get(stage, wants, f"taking the values of {node.op}")
        return values, empty

    def _get(self, stage: Stage, wants: list[Want], doing: str) -> None:
        """Get what is wanted of tiles of a stage, side by side."""
        batches: dict[int, list[tuple[int, list[Want]]]] = {}
        for want in wants:
            program = self._program(stage, want.plan.spot)
            size = cells_of_tile(stage.members, want.plan)
            mine = batches.setdefault(program, [])
            if not mine or mine[-1][0] + size > _BATCH:
                mine.append((0, []))
            mine[-1] = (mine[-1][0] + size, [*mine[-1][1], want])
        jobs: list[Callable[[], None]] = []
        for turn in zip_longest(*([(program, batch) for _, batch in mine] for program, mine in batches.items())):
            jobs += [partial(self._get_batch, stage, *one) for one in turn if one is not None]
        side_by_side(self.pool, jobs, doing)

    def _get_batch(self, stage: Stage, program: int, wants: list[Want]) -> None:
        """Get what is wanted of tiles of one program; a tile that it does not hold is made."""
        why: Any = None
        for turn in range(_TRIES):
            requests = [self._request(stage, want, sure=turn == 0) for want in wants]
            left = []
            for want, (state, found) in zip(wants, self.crew.tiles(program, requests)):
                key = self._key(stage, want.plan)
                if state == "ok":
                    self.held.add(key)
                    want.take(*found)
                elif state == "fault":
                    raise SubZeroError(f"tile {want.plan.spot} of stage {stage.number}: {found}")
                else:
                    self.held.discard(key)
                    why = found or why
                    left.append(want)
            wants = left
            if not wants:
                return
        raise SubZeroError(f"tile {wants[0].plan.spot} of stage {stage.number} was not made in {_TRIES} tries: {why}")

    def _request(self, stage: Stage, want: Want, sure: bool) -> Request:
        """The request for a tile; without its order where a program surely holds it, or one of which it is made."""
        key = self._key(stage, want.plan)
        if sure and key in self.held:
            return Request(key, want.shows, want.asks, None)
        renewal = self._renewal(stage, want.plan) if sure else None
        order = self._order(key, stage, want.plan) if renewal is None else None
        return Request(key, want.shows, want.asks, order, renewal)

    def _renewal(self, stage: Stage, plan: TilePlan) -> Renewal | None:
        """How a tile is made of another one that is surely held; None where there is none."""
        return None

    def _key(self, stage: Stage, plan: TilePlan) -> Key:
        return self.number, stage.number, *plan.spot

    def _program(self, stage: Stage, spot: Spot) -> int:
        """The program that makes a tile: in turn, and shifted by one where each column of tiles would have the same."""
        wide = 1 + max(column for _, column in stage.tiles)
        return (spot[0] * (wide + (wide % self.crew.count == 0)) + spot[1]) % self.crew.count

    def _order(self, key: Key, stage: Stage, plan: TilePlan) -> Order:
        windows = []
        for place, rect in inputs_of(stage.members, plan):
            values, empty = self._read(place, rect)
            shape = self.plan.shapes[place]
            room = (*shape[:-2], rect.height, rect.width)
            holes = empty.reshape(room) if empty.any() else None
            windows.append(Window(self._name(place, rect), values.reshape(room), holes))
        flow, keep = flow_of(stage.members, plan, self.strategies)
        return Order(key, flow, keep, windows, cells_of_tile(stage.members, plan))

    def _name(self, place: Place, rect: Rect) -> tuple[Any, ...]:
        """By what a program knows a window again."""
        if isinstance(place, Input):
            base = self.base[place.number]
            return (base.name, base.version, *rect)
        return (self.number, place.number, *rect)

    def _read(self, place: Place, rect: Rect) -> tuple[NDArray[Any], NDArray[Any]]:
        """The values in a window of an array that is kept, and which are empty, of 3 axes."""
        at = np.s_[:, rect.top : rect.bottom, rect.left : rect.right]
        if isinstance(place, Input):
            values, empty = self.base[place.number].read(rect)
            room = (layers_of(self.plan.shapes[place]), rect.height, rect.width)
            return values.reshape(room), empty.reshape(room)
        if place.op == CUT:
            labels = self._labels[place.number].values[at].astype(np.int64)
            return labels, np.zeros(labels.shape, dtype=bool)
        kept = self._wholes[place.number]
        return kept.values[at], kept.empty[at]

    def _show(self, stage: Stage, plan: TilePlan, node: Node, part: Rect) -> Show:
        local = plan.local[node.number]
        shape = (layers_of(self.plan.shapes[node]), local.height, local.width)
        number = numbers_in(stage.members, plan)[node.number]
        return Show(number, shape, part.moved(-local.top, -local.left))
