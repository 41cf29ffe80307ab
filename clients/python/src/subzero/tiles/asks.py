"""Lineage over tiles: each step, or chain of steps, is asked of the tiles that hold its cells.

Backward, a cell of an output is asked of the tile whose own it is. Forward, cells of an input are asked of every tile
that takes them, and of its answer the tile's own cells count. The step through a `regions` goes by its joined labels.
"""

from __future__ import annotations

from collections.abc import Iterator
from dataclasses import dataclass, replace
from typing import Any

import numpy as np

from ..cells import Shape
from ..flow import Node, Place
from ..geometry import CUT, Rect, layers_of
from .cellsets import NONE, Indexes, apart, to_local, to_whole, union, within
from .chains import Chain
from .making import Making
from .orders import Ask, numbers_in
from .stages import Stage
from .windows import TilePlan


@dataclass
class Steps:
    """What a chain was answered with: for each of its steps, from the output back, the strategy; and how many cells
    were traced."""

    ways: list[str]
    traced: int


def image(making: Making, chain: Chain, cells: Indexes, *, forward: bool, wide: bool) -> Indexes:
    """The cells to which these lead through a chain; `wide` widens the step through a `regions` to what could change
    it."""
    if not cells.size:
        return NONE
    if chain.output.op == CUT:
        return making.labels(chain.output).related(cells, wide, forward)
    stage, shapes = making.plan.stage_of[chain.output.number], making.plan.shapes
    tiles = list(_tiles(making, chain, cells, forward))
    answers = making.ask(stage, [(tile.plan, tile.ask) for tile in tiles], f"asking {'forward' if forward else 'back'}")
    parts = []
    for tile, found in zip(tiles, answers):
        if forward:
            own, shape = tile.plan.own[chain.output.number], shapes[chain.output]
            parts.append(within(to_whole(found, shape, tile.output), own, shape))
        else:
            parts.append(to_whole(found, shapes[chain.base], tile.base))
    return union(parts)


def explained(making: Making, chain: Chain, cells: Indexes, *, forward: bool) -> Steps:
    """How `image` of these cells is answered. Of no cells, as any tile would answer them."""
    if chain.output.op == CUT:
        return Steps(["joined"], 0)
    stage = making.plan.stage_of[chain.output.number]
    tiles = list(_tiles(making, chain, cells, forward))
    if not tiles:
        plan = next(plan for plan in stage.tiles.values() if chain.output.number in plan.own)
        tiles = [_tile(making, chain, stage, plan, NONE, forward)]
    asks = [(tile.plan, replace(tile.ask, explain=True)) for tile in tiles]
    ways: list[str] = []
    traced = 0
    for text in making.ask(stage, asks, "explaining"):
        _, *ways, _, count = text.split(" ")
        traced += int(count)
    return Steps(ways[::-1] if forward else ways, traced)


@dataclass
class _Tile:
    """A question to one tile, with where its output and its base lie."""

    plan: TilePlan
    output: Rect
    base: Rect
    ask: Ask


def _tiles(making: Making, chain: Chain, cells: Indexes, forward: bool) -> Iterator[_Tile]:
    """The tiles to be asked, each with its cells."""
    stage = making.plan.stage_of[chain.output.number]
    if forward:
        shape = making.plan.shapes[chain.base]
        for plan in stage.tiles.values():
            if chain.output.number in plan.own:
                part = within(cells, _base_rect(chain, plan), shape)
                if part.size:
                    yield _tile(making, chain, stage, plan, part, forward)
    else:
        grid, shape = stage.members.own[chain.output.number], making.plan.shapes[chain.output]
        _, rows, columns = apart(cells, shape)
        spots, place = np.unique(grid.spots(rows, columns), axis=0, return_inverse=True)
        for number, spot in enumerate(spots.tolist()):
            yield _tile(making, chain, stage, stage.tiles[spot[0], spot[1]], cells[place == number], forward)


def _tile(making: Making, chain: Chain, stage: Stage, plan: TilePlan, cells: Indexes, forward: bool) -> _Tile:
    numbers = numbers_in(stage.members, plan)
    path = tuple((numbers[node.number], number) for node, number in chain.steps)
    output, base = plan.local[chain.output.number], _base_rect(chain, plan)
    shape: Shape = making.plan.shapes[chain.base if forward else chain.output]
    ask = Ask(
        forward,
        path[::-1] if forward else path,
        to_local(cells, shape, base if forward else output),
        layers_of(shape) > 1,
    )
    return _Tile(plan, output, base, ask)


def _base_rect(chain: Chain, plan: TilePlan) -> Rect:
    """Where the array to which a chain leads back lies in a tile."""
    node, number = chain.steps[-1]
    window = plan.windows.get((node.number, number))
    return plan.local[chain.base.number] if window is None else window


def follow(
    making: Making, chains: list[Chain], start: dict[Place, Indexes], *, forward: bool, wide: bool
) -> dict[Place, Indexes]:
    """The cells to which these lead through all chains, of each array that is reached. `chains` begin at what is made
    last."""
    found: dict[Place, list[Indexes]] = {place: [cells] for place, cells in start.items()}
    for chain in reversed(chains) if forward else chains:
        before: Place = chain.base if forward else chain.output
        after: Place = chain.output if forward else chain.base
        cells = union(found.get(before, []))
        found[before] = [cells]
        found.setdefault(after, []).append(image(making, chain, cells, forward=forward, wide=wide))
    return {place: union(parts) for place, parts in found.items()}


def along(making: Making, path: list[Chain], cells: Indexes, *, forward: bool) -> Indexes:
    """The cells to which these lead along one path."""
    for chain in reversed(path) if forward else path:
        cells = image(making, chain, cells, forward=forward, wide=False)
    return cells


def explained_along(
    making: Making, path: list[Chain], cells: Indexes, *, forward: bool
) -> tuple[list[tuple[Node, str]], int]:
    """How an ask along one path is answered: each step in the order of the ask with its strategy, and the cells
    traced."""
    steps: list[tuple[Node, str]] = []
    traced = 0
    for chain in reversed(path) if forward else path:
        told = explained(making, chain, cells, forward=forward)
        traced += told.traced
        listed: list[Any] = [(node, way) for (node, _), way in zip(chain.steps, told.ways)]
        steps += listed[::-1] if forward else listed
        cells = image(making, chain, cells, forward=forward, wide=False)
    return steps, traced
