"""Sets of cells carried through a flow, node by node: what stands behind cells, what they touched, what they could
change.

A set goes through the arrays in the flow's order. Each array's set is the union of what its steps bring, and is asked
on once a step, so that a flow costs what its nodes cost, however many paths it has. Steps between which nothing joins
or parts go in one ask.

*Supports*: a cell supports an output cell where it is among the cells that fix its value. For every operator but
`regions` these are the cells that its lineage relates to it. A label stays what it is as long as its region's cells and
their four neighbours in the layer do, so for a high cell of `regions` the four neighbours of its region are added; any
other cell of it rests on itself. The cells of `regions` that are high are those whose label is above 0.
"""

from __future__ import annotations

from collections.abc import Callable, Collection, Sequence
from dataclasses import dataclass
from typing import TYPE_CHECKING

import numpy as np

from . import numerals
from .cells import Cells, Integers, Mask, Shape, cells_of, mask_of
from .faults import BadInput, OutOfStep, SubZeroError
from .flow import Node, Place
from .later import Future
from .paths import Path, places_between

if TYPE_CHECKING:
    from .program import Reply
    from .run import Array, Direction, Run


def suspects(run: Run, bad: Cells, base: Array, to: Array) -> Mask:
    """As `Run.suspects`."""
    return spread_later(run, "forward", base, cells_of(bad, run.shape(base)), to, supports=True).result()


def support(run: Run, array: Array, cells: Cells, to: Array) -> Mask:
    """As `Run.support`."""
    return spread_later(run, "back", array, cells_of(cells, run.shape(array)), to, supports=True).result()


def spread_later(
    run: Run, direction: Direction, array: Array, cells: Integers, to: Array, *, supports: bool = False
) -> Future[Mask]:
    """The cells of `to` to which these cells of `array`, whole numbers of shape (N, axes), lead over all paths.

    The first asks are sent ahead; those that want their answers are sent when the result is taken.
    """
    spread = Spread(run, direction, array, [to], supports=supports)

    def end(texts: list[bytes]) -> Mask:
        masks = spread.end()
        found = np.zeros(run.shape(to), dtype=bool)
        for place in run.places(to):
            if place in masks:
                found |= masks[place]
        return found

    return _Asked(spread, spread.begin(cells), f"asking {direction}", end)


class _Asked(Future[Mask]):
    """An answer whose `result` may have to send further lines."""

    def __init__(self, spread: Spread, replies: list[Reply], doing: str, read: Callable[[list[bytes]], Mask]) -> None:
        super().__init__(replies, doing, read)
        self._spread = spread

    def done(self) -> bool:
        """Whether `result` need not wait."""
        return super().done() and (bool(self._answer) or self._spread.is_sent)


def masks_between(
    run: Run,
    direction: Direction,
    array: Array,
    cells: Integers,
    to: Sequence[Array],
    *,
    supports: bool = False,
    high: dict[Node, Mask] | None = None,
) -> dict[Place, Mask]:
    """The set of cells in each array on the paths between `array` and those of `to`, their ends too, in the flow's
    order. Where `high` is given, which cells of `regions` nodes are high is kept in it from one call to the next.
    """
    spread = Spread(run, direction, array, to, supports=supports, everywhere=True, high=high)
    spread.begin(cells)
    masks = spread.end()
    return {place: masks[place] for place in spread.chain}


@dataclass(frozen=True)
class Stretch:
    """Steps that are asked at once: from `start` to `end`, `path` told from the output back."""

    start: Place
    end: Place
    path: Path


def stretches(
    direction: Direction, chain: Collection[Place], joints: Collection[Place], *, by_steps_at: str | None = None
) -> dict[Place, list[Stretch]]:
    """The stretches through `chain`, arrays in the flow's order, by the array in which they start.

    They start and end in `joints`, and wherever two steps meet or part. With `by_steps_at`, an operator's name, a
    stretch forward begins with each step of it, and one back ends with it.
    """
    steps: dict[Place, list[tuple[Place, tuple[int, int]]]] = {place: [] for place in chain}
    came = dict.fromkeys(chain, 0)
    stops = set(joints)
    for node in chain:
        for number, source in enumerate(node.sources if isinstance(node, Node) else ()):
            if source in steps:
                start, end = (node, source) if direction == "back" else (source, node)
                steps[start].append((end, (node.number, number)))
                came[end] += 1
                if isinstance(node, Node) and node.op == by_steps_at:
                    stops.add(source)
    stops.update(place for place in chain if came[place] != 1 or len(steps[place]) != 1)

    def stretch(start: Place, end: Place, step: tuple[int, int]) -> Stretch:
        path = [step]
        while end not in stops:
            end, step = steps[end][0]
            path.append(step)
        return Stretch(start, end, tuple(path if direction == "back" else reversed(path)))

    order = list(chain) if direction == "forward" else list(chain)[::-1]
    return {place: [stretch(place, end, step) for end, step in steps[place]] for place in order if place in stops}


class Spread:
    """A set of cells on its way from `array` to the arrays `to`, in one direction.

    With `supports` the set is that of the cells that could be changed (forward), or that fix the values (back); without
    it the lineage. Its cells in the ends are kept, and with `everywhere` those in each array between.
    """

    def __init__(
        self,
        run: Run,
        direction: Direction,
        array: Array,
        to: Sequence[Array],
        *,
        supports: bool = False,
        everywhere: bool = False,
        high: dict[Node, Mask] | None = None,
    ) -> None:
        if direction not in ("back", "forward"):
            raise BadInput(f"{direction!r} is no direction: back or forward")
        self._run = run
        self._direction: Direction = direction
        self._supports = supports
        starts, goals = run.places(array), [place for end in to for place in run.places(end)]
        chain = places_between(run.flow, *((starts, goals) if direction == "back" else (goals, starts)))
        if not chain:
            ends = " or ".join(map(str, to))
            output, base = (array, ends) if direction == "back" else (ends, array)
            raise BadInput(f"no path leads from {output} back to {base}")
        self.chain: list[Place] = chain
        self._starts = [place for place in starts if place in chain]
        self._kept = chain if everywhere else [place for place in goals if place in chain]
        self._stretches = stretches(
            direction, chain, [*self._starts, *self._kept], by_steps_at="regions" if supports else None
        )
        self._coming: dict[Place, list[tuple[Stretch, Reply]]] = {place: [] for place in self._stretches}
        self._high: dict[Node, Mask] = {} if high is None else high
        self._masks: dict[Place, Mask] = {}

    def begin(self, cells: Integers) -> list[Reply]:
        """Send the first asks, of these cells of `array`: whole numbers of shape (N, axes). Gives their replies."""
        for place in self._starts:
            for stretch in self._stretches[place]:
                self._send(stretch, cells)
            if place in self._kept:
                self._masks[place] = mask_of(cells, self._run.shape(place))
        return [reply for coming in self._coming.values() for _, reply in coming]

    @property
    def is_sent(self) -> bool:
        """Whether `begin` sends all that is to be asked."""
        return all(place in self._starts or not onward for place, onward in self._stretches.items())

    def end(self) -> dict[Place, Mask]:
        """The cells in each array that is kept: take the replies and send the further asks, array by array.

        An interrupt (Ctrl-C) gives up what was not sent yet.
        """
        try:
            return self._end()
        except SubZeroError:
            raise
        except BaseException:
            for coming in self._coming.values():
                for _, reply in coming:
                    reply.cancel()
            raise

    def _end(self) -> dict[Place, Mask]:
        for place, onward in self._stretches.items():
            if place in self._starts:
                continue
            mask = np.zeros(self._run.shape(place), dtype=bool)
            for stretch, reply in self._coming[place]:
                mask |= self._answer(stretch, reply)
            if place in self._kept:
                self._masks[place] = mask
            if onward and mask.any():
                cells = np.argwhere(mask)
                for stretch in onward:
                    self._send(stretch, cells)
        return self._masks

    def _send(self, stretch: Stretch, cells: Integers) -> None:
        if self._supports and self._direction == "forward":
            cells = self._with_regions_beside(stretch, cells)
        line = ask_line(b"ask", self._run.number, self._direction, stretch.path, numerals.cells_text(cells))
        self._coming[stretch.end].append((stretch, self._run.session.say(line)))

    def _answer(self, stretch: Stretch, reply: Reply) -> Mask:
        shape = self._run.shape(stretch.end)
        mask = read_mask(reply.wait(f"asking {self._direction}"), shape)
        last = self._run.flow.nodes[stretch.path[-1][0]]
        if self._supports and self._direction == "back" and last.op == "regions":
            mask |= beside(mask & self._high_of(last))
        return mask

    def _with_regions_beside(self, stretch: Stretch, cells: Integers) -> Integers:
        """Of a step through `regions`, the cells and the high ones beside them."""
        first = self._run.flow.nodes[stretch.path[-1][0]]
        if first.op != "regions":
            return cells
        mask = mask_of(cells, self._run.shape(stretch.start))
        return np.argwhere(mask | beside(mask) & self._high_of(first))

    def _high_of(self, node: Node) -> Mask:
        """Which cells of the input of a `regions` node are high: those that have a label."""
        if node not in self._high:
            self._high[node] = self._run.values(node).filled(0) > 0
        return self._high[node]


def beside(mask: Mask) -> Mask:
    """The four neighbours, in their layer, of the cells of a mask."""
    found = np.zeros_like(mask)
    found[..., 1:, :] |= mask[..., :-1, :]
    found[..., :-1, :] |= mask[..., 1:, :]
    found[..., 1:] |= mask[..., :-1]
    found[..., :-1] |= mask[..., 1:]
    return found


def ask_line(form: bytes, run: int, direction: Direction, path: Path, cells: bytes) -> bytes:
    """The line of an ask or an explain of a run's number, `cells` being their text and `path` told from the output
    back.
    """
    steps = path if direction == "back" else path[::-1]
    text = ",".join(f"[{node},{number}]" for node, number in steps).encode()
    return b'{"%s":%d,"dir":"%s","path":[%s],"cells":%s}\n' % (form, run, direction.encode(), text, cells)


def read_mask(text: bytes, shape: Shape) -> Mask:
    """The cells of a `cells` reply as a boolean array of the shape."""
    word, count, *rest = text.split(b" ", 2)
    if word != b"cells":
        raise OutOfStep(f"an ask has the reply {text[:40]!r}")
    layered = len(shape) == 3 and shape[0] > 1
    cells = numerals.read_cells(rest[0] if rest else b"", int(count), 3 if layered else 2)
    return mask_of(cells, shape[-cells.shape[1] :]).reshape(shape)
