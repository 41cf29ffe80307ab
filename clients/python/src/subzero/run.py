"""A started version of a flow: its values, and the lineage of their cells."""

from __future__ import annotations

from collections.abc import Sequence
from dataclasses import dataclass
from typing import TYPE_CHECKING, Literal, TypeAlias

import numpy as np

from . import changes, merges, numerals, spread
from .cells import Cells, Mask, Shape, Values, cells_of, short
from .faults import BadInput, OutOfStep, Refused
from .flow import Flow, Input, Node, Place, table
from .later import Future
from .paths import Path, path_of, paths_between, told

if TYPE_CHECKING:
    from .session import BaseArray, Session

Array: TypeAlias = "BaseArray | Place | str"
"""An array of a run: a base array that it was started on, a base array's place in its flow, or a node of it; or the
name of a node or of a base array."""

Direction: TypeAlias = Literal["back", "forward"]

MOST_PATHS = 64


@dataclass(frozen=True)
class Explanation:
    """How one path of an ask is answered: for each step, in the order of the ask, its node and the strategy; and how
    many cells are traced in all, the sum of the output sizes of the steps that are gone through again (`blackbox`)."""

    path: Path
    steps: tuple[tuple[Node, str], ...]
    traced: int

    def __str__(self) -> str:
        steps = ", ".join(f"{node.op} by {way}" for node, way in self.steps)
        return f"{steps}: {self.traced} cells traced"


class Run:
    """A version of a flow. `number` is the program's, `base` the arrays on which it was started.

    In its calls `array` and `to` are arrays of the run: a `BaseArray` that it was started on, `flow.input(n)`, or a
    node; or the name of a base array or of a node that was given one.

    >>> run
    <Run 1 of stars on sky 1>
    >>> run.values("labels").tolist()
    [[0, 2, 0, 0], [2, 2, 0, 0], [0, 0, 11, 11], [0, 0, 11, 0]]
    >>> np.argwhere(run.back("labels", (0, 1), to="sky")).tolist()
    [[0, 1], [1, 0], [1, 1]]
    >>> int(run.forward(sky, sky.values == 7, to=labels).sum())
    3
    """

    def __init__(self, session: Session, number: int, flow: Flow, base: tuple[BaseArray, ...]) -> None:
        self.session = session
        self.number = number
        self.flow = flow
        self.base = base
        self._known: list[Shape] = []

    def __repr__(self) -> str:
        return (
            f"<Run {self.number} of {self.flow.name} on {', '.join(f'{one.name} {one.version}' for one in self.base)}>"
        )

    def _repr_html_(self) -> str:
        rows = [
            (str(node.number), node.name or "", node.label, " by ".join(map(str, self.shape(node))))
            for node in self.flow.nodes
        ]
        return table(repr(self)[1:-1], ("node", "name", "operator", "shape"), rows)

    def __getitem__(self, name: str) -> Place:
        """The node of this name, or the place of the base array of this name. Raises BadInput where there is none."""
        return self.places(name)[0]

    def _ipython_key_completions_(self) -> list[str]:
        return [node.name for node in self.flow.nodes if node.name] + [base.name for base in self.base]

    @property
    def size(self) -> int:
        """How many cells the outputs of all nodes have.

        >>> run.size
        32
        """
        return sum(int(np.prod(shape)) for shape in self._shapes)

    @property
    def _shapes(self) -> list[Shape]:
        if not self._known:
            self._known = self.flow.shapes([array.shape for array in self.base])
        return self._known

    def wait(self) -> None:
        """Wait until all is computed and kept; `explain` can be called from then on, and a log has the run.

        Raises Refused with number 15 where the session holds no such run.

        >>> session.start(flow, sky).wait()
        """
        self.wait_later().result()

    def shape(self, array: Array) -> Shape:
        """The shape of an array of the run: (height, width), or (layers, height, width).

        >>> run.shape("labels")
        (4, 4)
        """
        place = self.places(array)[0]
        return self.base[place.number].shape if isinstance(place, Input) else self._shapes[place.number]

    def values(self, array: Array) -> Values:
        """The values of an array of the run, a masked array of int64 and of its shape; empty cells are masked, and hold
        0. Raises BadInput where it is no array of the run.

        >>> run.values("labels")[2:, 2:].tolist()
        [[11, 11], [11, 0]]
        """
        return self.values_later(array).result()

    def paths(self, array: Array, *, to: Array, limit: int = MOST_PATHS) -> list[Path]:
        """All paths from `array` back to `to`, each a tuple of steps: a node's number and the number of its input.

        Raises BadInput where there is none, TooManyPaths above `limit`.

        >>> [run.told(path) for path in run.paths("labels", to="sky")]
        ['regions < clean < input 0']
        """
        found: list[Path] = []
        for place in self.places(array):
            found += paths_between(place, self.places(to), limit)
        if not found:
            raise BadInput(f"no path leads from {array} back to {to}")
        return found

    def back(
        self,
        array: Array,
        cells: Cells,
        *,
        to: Array,
        path: Sequence[Sequence[int | Node]] | None = None,
    ) -> Mask:
        """Which cells of `to` stand behind these cells of `array`: a boolean array of the shape of `to`.

        It is the union over all paths between the two, however many there are, or follows the one `path`, steps from
        `array` back, each a node and the number of its input. Raises BadInput for cells out of range and where no path
        leads there.

        >>> np.argwhere(run.back(labels, (2, 2), to=sky)).tolist()
        [[2, 2], [2, 3], [3, 2]]
        >>> int(run.back(labels, [(2, 2), (0, 1)], to=sky, path=[(labels, 0), (0, 0)]).sum())
        6
        """
        return self.asked_later("back", array, cells, to=to, path=path).result()

    def forward(
        self,
        array: Array,
        cells: Cells,
        *,
        to: Array,
        path: Sequence[Sequence[int | Node]] | None = None,
    ) -> Mask:
        """Which cells of `to` these cells of `array` touched: a boolean array of the shape of `to`.

        As `back`, and a `path` is told in the same way, from the output `to` back to `array`. Through `regions` it says
        what the cells touched as they were; what they could change, had they other values, `suspects` says.

        >>> np.argwhere(run.forward(sky, (3, 2), to=labels)).tolist()
        [[2, 2], [2, 3], [3, 2]]
        """
        return self.asked_later("forward", array, cells, to=to, path=path).result()

    def suspects(self, bad: Cells, base: Array, *, to: Array) -> Mask:
        """Which cells of `to` could be others, had the `bad` cells of `base` held anything else, values or none: a
        boolean array of the shape of `to`.

        A cell outside it has the same value, whatever they would have held. Not every cell in it must differ for some
        values. Raises BadInput for cells out of range, and where no path leads from `to` back to `base`.

        >>> np.argwhere(run.suspects((0, 2), sky, to=labels)).tolist()
        [[0, 1], [0, 2], [1, 0], [1, 1]]
        """
        return spread.suspects(self, bad, base, to)

    def support(self, array: Array, cells: Cells, *, to: Array) -> Mask:
        """Which cells of `to` fix the values of these cells of `array`: a boolean array of the shape of `to`.

        As long as they hold what they hold, these values stay, whatever stands elsewhere in `to`. They are those that
        `back` gives and, through `regions`, what is beside: a region stays as it is while its four neighbours do.
        Raises BadInput as `back` does.

        >>> np.argwhere(run.support(labels, (3, 2), to=sky)).tolist()
        [[1, 2], [1, 3], [2, 1], [2, 2], [2, 3], [3, 1], [3, 2], [3, 3]]
        """
        return spread.support(self, array, cells, to)

    def explain(
        self,
        array: Array,
        cells: Cells,
        *,
        to: Array,
        direction: Direction = "back",
        path: Sequence[Sequence[int | Node]] | None = None,
        limit: int = MOST_PATHS,
    ) -> list[Explanation]:
        """How that ask is answered: an Explanation for each path. Raises Refused with number 19 before `wait`.

        >>> print(run.explain("labels", (0, 1), to="sky")[0])
        regions by blackbox, clean by blackbox: 32 cells traced
        """
        try:
            return self.explained_later(array, cells, to=to, direction=direction, path=path, limit=limit).result()
        except Refused as fault:
            if fault.number == 19:
                fault.because("the run was not waited for, so that it is not known yet: call its wait() first")
            raise

    def refresh(self, array: Array, cells: changes.New, *, scale: float | None = None) -> changes.Change:
        """Run the flow again on a base array in which cells were set, where the program computes only what they reach.

        `array` is a base array of the run, its name, or `flow.input(n)`. `cells` says what its cells are to hold: a
        mapping from cells to values, a pair of a mask (or other cells) and values, or an array, of which those cells
        are set that differ (`subzero.changes.New`); None and masked are empty. Floats are multiplied by `scale` and
        rounded, as in `Session.array`.

        Gives a Change: its `run` is the new run, of the same flow and with the strategies that this run was started
        with, and the array with these cells is held as the next version of its name. This run stays as it is. Where no
        cell is set, the new version is the same array, and nothing is computed.

        Where the run takes the array under several inputs, BadInput says so, since a refresh sets cells under one of
        them: `flow.input(n)` names it, and under the others the array stays. Raises BadInput also for what is no base
        array, cells out of range, and values that no array can hold; Refused with 22 before `wait`, with 7 where the
        new array, and 14 where the new run with it, is more than a session can hold.

        >>> change = run.refresh(sky, {(0, 2): 9})
        >>> change.cells, change.run.values(labels)[0].tolist()
        (5, [0, 2, 2, 0])
        """
        try:
            return changes.refresh_later(self, array, cells, scale).result()
        except Refused as fault:
            changes.tell_why(fault, self, array)
            raise

    def refresh_later(self, array: Array, cells: changes.New, *, scale: float | None = None) -> Future[changes.Change]:
        """`refresh`, sent ahead: a Future of it.

        >>> run.refresh_later("sky", (sky.values == 7, None)).result().cells
        6
        """
        return changes.refresh_later(self, array, cells, scale)

    def merge(self) -> merges.Merging:
        """Have the program join cells of one lineage in the run's stores, beside what it is asked. No answer changes.

        Gives a Merging at once; its `wait` gives how many kinds of lineage each `full_` store has. Stores of other
        strategies stay as they are. A log is not changed. Raises Refused with number 22 before `wait`.

        >>> run.merge()
        <Merging of run 1>
        """
        return merges.merge(self)

    def merge_later(self) -> Future[merges.Merging]:
        """`merge`, sent ahead: a Future of it.

        >>> run.merge_later().result()
        <Merging of run 1>
        """
        return merges.merge_later(self)

    def wait_later(self) -> Future[None]:
        """`wait`, sent ahead: a Future.

        >>> run.wait_later().result()
        """
        reply = self.session.say(b'{"await":%d}\n' % self.number)
        return Future([reply], f"waiting for run {self.number}", lambda texts: None)

    def values_later(self, array: Array) -> Future[Values]:
        """`values`, sent ahead: a Future of them.

        >>> run.values_later("labels").result().max()
        11
        """
        place = self.places(array)[0]
        if isinstance(place, Input):
            values = self.base[place.number].values
            return Future([], "", lambda texts: values)
        shape = self.shape(place)
        reply = self.session.say(b'{"show":%d,"node":%d}\n' % (self.number, place.number))
        return Future([reply], f"taking the values of {place.op}", lambda texts: _values(texts[0], shape))

    def asked_later(
        self,
        direction: Direction,
        array: Array,
        cells: Cells,
        *,
        to: Array,
        path: Sequence[Sequence[int | Node]] | None = None,
    ) -> Future[Mask]:
        """`back` or `forward`, sent ahead: a Future of a boolean array. Where a flow branches, the asks that stand on
        answers of others are sent when the result is taken.

        >>> int(run.asked_later("back", labels, (2, 2), to=sky).result().sum())
        3
        """
        if path is None:
            return spread.spread_later(self, direction, array, cells_of(cells, self.shape(array)), to)
        shape = self.shape(to)
        _, lines = self._lines(b"ask", direction, array, cells, to, path)
        replies = [self.session.say(line) for line in lines]
        return Future(replies, f"asking {direction}", lambda texts: spread.read_mask(texts[0], shape))

    def explained_later(
        self,
        array: Array,
        cells: Cells,
        *,
        to: Array,
        direction: Direction = "back",
        path: Sequence[Sequence[int | Node]] | None = None,
        limit: int = MOST_PATHS,
    ) -> Future[list[Explanation]]:
        """`explain`, sent ahead: a Future of it.

        >>> run.explained_later(labels, (2, 2), to=sky).result()[0].traced
        32
        """
        paths, lines = self._lines(b"explain", direction, array, cells, to, path, limit)

        def read(texts: list[bytes]) -> list[Explanation]:
            return [self._explanation(one, direction, text) for one, text in zip(paths, texts)]

        return Future([self.session.say(line) for line in lines], "explaining", read)

    def told(self, path: Path) -> str:
        """A path in words, from the output back.

        >>> run.told(((1, 0),))
        'regions < clean'
        """
        return told(self.flow, path)

    def places(self, array: Array) -> list[Place]:
        """The places of an array in the flow: a base array may be taken as several inputs.

        Raises BadInput where it is no array of the run.

        >>> run.places(sky)
        [<Input 0 of stars>]
        """
        if isinstance(array, str):
            return self._named(array)
        if isinstance(array, (Input, Node)):
            if not array.flow.is_same(self.flow):
                raise BadInput(f"{array} is of another flow than the run's")
            return [self.flow.inputs[array.number] if isinstance(array, Input) else self.flow.nodes[array.number]]
        places: list[Place] = [self.flow.inputs[number] for number, base in enumerate(self.base) if base is array]
        if not places:
            raise BadInput(f"{short(array)} is no array that the run was started on, and no node of its flow")
        return places

    def _named(self, name: str) -> list[Place]:
        for node in self.flow.nodes:
            if node.name == name:
                return [node]
        versions = {base.version for base in self.base if base.name == name}
        if len(versions) > 1:
            raise BadInput(f"the run has several versions of {name}: name one by session.arrays[{name!r}, version]")
        places: list[Place] = [self.flow.inputs[at] for at, base in enumerate(self.base) if base.name == name]
        if not places:
            names = [node.name for node in self.flow.nodes if node.name] + [base.name for base in self.base]
            raise BadInput(f"the run has no array named {short(name)}: it has {', '.join(dict.fromkeys(names))}")
        return places

    def _lines(
        self,
        form: bytes,
        direction: Direction,
        array: Array,
        cells: Cells,
        to: Array,
        path: Sequence[Sequence[int | Node]] | None,
        limit: int = MOST_PATHS,
    ) -> tuple[list[Path], list[bytes]]:
        """The paths of an ask, and its line for each."""
        if direction not in ("back", "forward"):
            raise BadInput(f"{direction!r} is no direction: back or forward")
        output, base = (array, to) if direction == "back" else (to, array)
        paths = [self._one(path, output, base)] if path is not None else self.paths(output, to=base, limit=limit)
        told = numerals.cells_text(cells_of(cells, self.shape(array)))
        return paths, [spread.ask_line(form, self.number, direction, one, told) for one in paths]

    def _one(self, steps: Sequence[Sequence[int | Node]], output: Array, base: Array) -> Path:
        path, reached = path_of(self.flow, steps)
        if self.flow.nodes[path[0][0]] not in self.places(output) or reached not in self.places(base):
            raise BadInput(
                f"the path leads from {self.flow.nodes[path[0][0]]} to {reached}, not from {output} to {base}"
            )
        return path

    def _explanation(self, path: Path, direction: Direction, text: bytes) -> Explanation:
        word, *ways, traced, count = text.decode().split(" ")
        steps = path if direction == "back" else tuple(reversed(path))
        if word != "explain" or traced != "traced" or len(ways) != len(steps):
            raise OutOfStep(f"an explain of {len(steps)} steps has the reply {text[:80]!r}")
        return Explanation(path, tuple((self.flow.nodes[node], way) for (node, _), way in zip(steps, ways)), int(count))


def _values(text: bytes, shape: Shape) -> Values:
    """The values of a `values` or `layers` reply, of the shape that is known from the flow."""
    numbers = 2 if text.startswith(b"values ") else 3
    words = text.split(b" ", numbers + 1)
    said = tuple(int(word) for word in words[1 : numbers + 1])
    if said != shape and (1, *said) != shape:
        raise OutOfStep(f"an output of shape {shape} has the reply {text[:40]!r}")
    values, empty = numerals.read_values(words[-1], int(np.prod(said)))
    return np.ma.MaskedArray(values.reshape(shape), empty.reshape(shape))
