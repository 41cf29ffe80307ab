"""Refreshes: a run again, on a base array in which cells were set; and which cells that changes.

The program computes again what the set cells can reach, node by node, and copies the rest (docs/FORMATS.md,
"Refreshes"). Which cells these are is not in its reply: here they are asked for, as it says how they are found.
"""

from __future__ import annotations

from collections.abc import Mapping, Sequence
from typing import TYPE_CHECKING, Any, Protocol, TypeAlias

import numpy as np
from numpy.typing import NDArray

from . import numerals
from .cells import (
    MOST_CELLS,
    Cells,
    Given,
    Integers,
    Mask,
    Shape,
    Values,
    cells_of,
    given,
    mask_of,
    short,
    whole_numbers,
)
from .faults import BadInput, OutOfStep, Refused
from .flow import Input, Node, Place
from .keeping import WITHOUT_MAPPING
from .later import Future
from .logs import frozen
from .paths import places_between
from .spread import ask_line, read_mask

if TYPE_CHECKING:
    from .run import Array, Run
    from .session import BaseArray, Session

New: TypeAlias = "Mapping[tuple[int, ...], Any] | tuple[Cells, Any] | NDArray[Any] | Any"
"""What cells of a base array are to hold, in one of these ways; None and masked values make cells empty:

- a mapping from cells, (row, column) or (layer, row, column), to values;
- a pair of cells, as a mask or as `Cells` has them, and what they are to hold: one value for all; as many as the cells,
  in their order (a mask's is row by row); or an array of the base array's shape, read at these cells alone. Of a cell
  that is listed twice the last value stands;
- an array of the base array's shape, or a container that `Session.array` takes: set are the cells in which it differs,
  one being empty and the other not among them.
"""

Set: TypeAlias = "tuple[Integers, Integers, Mask]"
"""Cells that are to be set, whole numbers of shape (N, axes); what they are to hold; and which are to be empty."""


class Base(Protocol):
    """What is asked of a base array in which cells are to be set: its shape and its unit."""

    @property
    def shape(self) -> Shape:
        """(height, width), or (layers, height, width)."""

    @property
    def unit(self) -> Any:
        """Its unit, of astropy, or None."""


class Change:
    """What a refresh made of a run: `run`, the new one, beside `old`, and which cells changed.

    `input` is the place in the flow under which cells were set, `array` the base array that the new run has there, and
    `cells` how many cells of nodes the program computed again. `run` is as one that was started: its values and lineage
    can be asked at once, `wait` waits for it, and a log has it from then on.

    >>> change = run.refresh(sky, {(0, 2): 9, (3, 2): None})
    >>> change
    <Change of sky 1 in run 1: 2 cells set, 9 computed again, in run 2>
    >>> change.run, change.array, change.array.values[3, 2]
    (<Run 2 of stars on sky 2>, <BaseArray sky 2: 4 by 4, 1 cells empty>, masked)
    >>> change.run.values(labels).tolist()
    [[0, 2, 2, 0], [2, 2, 0, 0], [0, 0, 11, 11], [0, 0, 0, 0]]
    """

    def __init__(self, old: Run, run: Run, place: Input, where: Mask, cells: int) -> None:
        self.old = old
        self.run = run
        self.input = place
        self.array = run.base[place.number]
        self.cells = cells
        self._reached: dict[Place, Mask] = {place: where}

    def __repr__(self) -> str:
        before = self.old.base[self.input.number]
        return (
            f"<Change of {before.name} {before.version} in run {self.old.number}: "
            f"{_counted(int(self._reached[self.input].sum()), 'cell')} set, {self.cells:,} computed again, in run "
            f"{self.run.number}>"
        )

    def changed(self, array: Array) -> Mask:
        """Where the values of an array differ between the two runs, a cell that is empty in one of them alone among
        them: a boolean array of its shape.

        `array` is a node, a base array of one of the runs, or the name of one. Of a base array that a flow takes under
        several inputs, where it differs under one of them. All these cells are among those that `reached` gives, but
        not each of those differs. Raises BadInput where it is no array of the runs.

        >>> change = run.refresh(sky, {(0, 2): 9, (3, 2): None})
        >>> np.argwhere(change.changed(labels)).tolist()
        [[0, 2], [3, 2]]
        """
        places = self._places(array)
        found = np.zeros(self.old.shape(places[0]), dtype=bool)
        for place in places:
            if place is self.input or isinstance(place, Node) and self._leads_to(place):
                before, after = (run.values_later(place) for run in (self.old, self.run))
                found |= differs(before.result(), after.result())
        return found

    def reached(self, array: Array) -> Mask:
        """Which cells of an array were computed again: a boolean array of its shape, and for the base array of `input`
        the set cells.

        Node by node, they are those that the reached cells of its inputs touch, by the lineage of the old run or by
        that of the new one, as `Run.forward` gives it over the one step. Those of all nodes together are as many as
        `cells`. All others have their old values, whatever the set cells hold now. `array` is as for `changed`.

        >>> change = run.refresh(sky, {(0, 2): 9, (3, 2): None})
        >>> np.argwhere(change.reached("labels")).tolist()
        [[0, 1], [0, 2], [1, 0], [1, 1], [2, 2], [2, 3], [3, 2]]
        >>> sum(int(change.reached(node).sum()) for node in flow.nodes) == change.cells
        True
        """
        places = self._places(array)
        found = np.zeros(self.old.shape(places[0]), dtype=bool)
        for place in places:
            if isinstance(place, Node):
                self._reach(place)
            if place in self._reached:
                found |= self._reached[place]
        return found

    def _places(self, array: Array) -> list[Place]:
        """The places of an array of the old run, or of the new one, in their flow. Raises BadInput where it is none."""
        try:
            return self.old.places(array)
        except BadInput:
            if array is not self.array:
                raise
            return self.run.places(array)

    def _leads_to(self, node: Node) -> bool:
        return bool(places_between(self.old.flow, [node], [self.input]))

    def _reach(self, wanted: Node) -> None:
        """Find what was reached in a node, and in those on the way there."""
        for node in places_between(self.old.flow, [wanted], [self.input]):
            if isinstance(node, Node) and node not in self._reached:
                self._reached[node] = self._reached_in(node)

    def _reached_in(self, node: Node) -> Mask:
        """What was reached in a node, by what was in its inputs: one ask a run and input; where the lineage is a matter
        of places alone both runs say the same, and one is asked.
        """
        runs = [self.old, self.run] if node.op in WITHOUT_MAPPING else [self.run]
        found = np.zeros(self.old.shape(node), dtype=bool)
        replies = []
        for number, source in enumerate(node.sources):
            if source in self._reached and self._reached[source].any():
                cells = numerals.cells_text(np.argwhere(self._reached[source]))
                for run in runs:
                    line = ask_line(b"ask", run.number, "forward", ((node.number, number),), cells)
                    replies.append(run.session.say(line))
        for text in Future(replies, "asking forward", lambda texts: texts).result():
            found |= read_mask(text, found.shape)
        return found


def refresh_later(run: Run, array: Array, cells: New, scale: float | None) -> Future[Change]:
    """As `Run.refresh_later`."""
    place = input_of(run.places(array), run.base)
    before = run.base[place.number]
    where, numbers, empty = cells_and_values(cells, before, scale)
    values = before.values.data.copy(), np.ma.getmaskarray(before.values).copy()
    values[0][tuple(where.T)], values[1][tuple(where.T)] = np.where(empty, 0, numbers), empty
    held, old = frozen(*values), run.number

    def hold(session: Session, text: bytes) -> None:
        session.hold_refreshed(_numbers(text)[0], old, place.number, before, held)

    def read(texts: list[bytes]) -> Change:
        number, count = _numbers(texts[0])
        run.session.holdings()
        return Change(run, run.session.run_on(number, run.flow), place, mask_of(where, before.shape), count)

    told = numerals.set_text(where, numbers, empty)
    line = b'{"refresh":%d,"input":%d,"set":%s}\n' % (old, place.number, told)
    return Future([run.session.order(line, hold)], f"refreshing run {old}", read)


def tell_why(fault: Refused, run: Run, array: Array) -> None:
    """Say by which cause a refresh of a run was refused, where that is known."""
    size = int(np.prod(run.shape(array)))
    if fault.number == 22:
        fault.because("the run was not waited for, so that it is still being built: call its wait() first")
    elif fault.number == 7:
        fault.because(run.session.why_full(size, "the new array has", "arrays"))
    elif fault.number == 14:
        fault.because(run.session.why_full(size + run.size, "the new array and the outputs of the nodes have", "runs"))


def differs(old: Values, new: Values) -> Mask:
    """Where two arrays of values differ, one cell being empty and the other not among that."""
    holes, others = np.ma.getmaskarray(old), np.ma.getmaskarray(new)
    found: Mask = (holes != others) | (~holes & (old.data != new.data))
    return found


def cells_and_values(cells: New, base: BaseArray, scale: float | None) -> Set:
    """The cells that are to be set, and what they are to hold.

    Raises BadInput for what is none of the ways of `New`, for cells out of range, and for values that the program could
    not hold as they are.
    """
    named = named_cells(cells, base, scale)
    if named is not None:
        return named
    parts = given(cells)
    if parts.data.shape != base.shape:
        raise BadInput(f"the new values have the shape {parts.data.shape}, and {base} has {base.shape}")
    check_is_no_mask(parts.data.dtype)
    _check_unit(parts, base)
    numbers, empty = whole_numbers(parts, scale)
    found = differs(base.values, frozen(numbers, empty))
    return np.argwhere(found), numbers[found], empty[found]


def named_cells(cells: New, base: Base, scale: float | None) -> Set | None:
    """`cells_and_values` of a mapping, or of a pair; None for what may be a whole array."""
    if isinstance(cells, Mapping):
        for key in cells:
            if not isinstance(key, tuple) or len(key) != len(base.shape) or not all(map(_is_number, key)):
                axes = "(layer, row, column)" if len(base.shape) == 3 else "(row, column)"
                raise BadInput(f"{short(key)} is no cell of {base}, whose cells are {axes}")
        where = cells_of(list(cells), base.shape)
        return (where, *_row(given(list(cells.values())), base, scale))
    if isinstance(cells, tuple):
        if len(cells) != 2:
            raise BadInput(f"a tuple of {len(cells)} is no pair of cells and what they are to hold")
        where = cells_of(cells[0], base.shape)
        return (where, *_values_at(where, cells[1], base, scale))
    if isinstance(cells, (list, str)) or cells is None or np.isscalar(cells):
        raise BadInput(
            f"{short(cells)} does not say which cells are to hold what: a mapping does, as {{(0, 1): 5}}, a pair, as "
            f"(mask, 5), or an array of the shape {base.shape}"
        )
    return None


def check_is_no_mask(kind: Any) -> None:
    """Refuse values of this type of numpy's where they are True and False. Raises BadInput."""
    if kind == bool:
        raise BadInput("a mask alone does not say what its cells are to hold: hand in a pair, as (mask, 5)")


def _values_at(where: Integers, values: Any, base: Base, scale: float | None) -> tuple[Integers, Mask]:
    """What each of these cells is to hold, where a pair says `values` of them."""
    parts = given([None] if values is None else values)
    if parts.data.shape == base.shape:
        at = tuple(where.T)
        parts = Given(parts.data[at], parts.empty[at], parts.unit)
    elif parts.data.ndim == 0 or values is None:
        numbers, empty = _row(parts, base, scale)
        return np.repeat(numbers, len(where)), np.repeat(empty, len(where))
    elif parts.data.shape != (len(where),):
        raise BadInput(
            f"the new values have the shape {parts.data.shape}: say one for all cells, as many as the cells, which are "
            f"{len(where):,}, or an array of the shape {base.shape}"
        )
    return _row(parts, base, scale)


def _row(parts: Given, base: Base, scale: float | None) -> tuple[Integers, Mask]:
    """Values in a row, of no or one axis, as whole numbers."""
    _check_unit(parts, base)
    if parts.data.size == 0:
        return np.zeros(0, dtype=np.int64), np.zeros(0, dtype=bool)
    data, empty = parts.data.reshape(1, -1), parts.empty.reshape(1, -1)
    pieces = [np.s_[:, at : at + MOST_CELLS] for at in range(0, data.size, MOST_CELLS)]
    found = [whole_numbers(Given(data[piece], empty[piece]), scale) for piece in pieces]
    return np.concatenate([one[0] for one, _ in found]), np.concatenate([holes[0] for _, holes in found])


def _check_unit(parts: Given, base: Base) -> None:
    if parts.unit is not None and parts.unit != base.unit:
        raise BadInput(f"the new values are in {parts.unit}, and {base} is in {base.unit or 'no unit'}")


def input_of(places: Sequence[Place], base: Sequence[object]) -> Input:
    """The input that an array is which stands in these places of a flow, whose base arrays are these. Raises BadInput
    for a node, and where the flow takes it under several."""
    if isinstance(places[0], Node):
        raise BadInput(f"{places[0]} is no base array: cells are set in what a run was started on")
    if len(places) > 1:
        inputs = " and ".join(str(place.number) for place in places)
        raise BadInput(
            f"the run takes {base[places[0].number]} under the inputs {inputs}, and a refresh sets cells under "
            f"one: name it as flow.input({places[0].number}), or start a run on an array of the new values"
        )
    assert isinstance(places[0], Input)
    return places[0]


def _numbers(text: bytes) -> tuple[int, int]:
    """The version's number and the number of cells in the reply to a refresh."""
    words = text.split()
    if len(words) != 4 or words[0] != b"refreshed" or words[2] != b"cells":
        raise OutOfStep(f"a refresh has the reply {text[:80]!r}")
    return int(words[1]), int(words[3])


def _is_number(value: object) -> bool:
    return isinstance(value, (int, np.integer)) and not isinstance(value, (bool, np.bool_))


def _counted(number: int, what: str) -> str:
    return f"{number:,} {what}{'' if number == 1 else 's'}"
