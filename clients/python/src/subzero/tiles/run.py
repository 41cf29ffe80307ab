"""A run over tiles: what one session's `Run` gives, for arrays of any size."""

from __future__ import annotations

from collections.abc import Sequence
from dataclasses import dataclass
from typing import TYPE_CHECKING, Any, TypeAlias

import numpy as np
from numpy.typing import NDArray

from ..cells import Cells, Shape
from ..changes import New
from ..faults import BadInput
from ..flow import Flow, Input, Node, Place
from ..geometry import Rect, rect_of, whole
from ..paths import Path, path_of, paths_between, told
from ..run import MOST_PATHS, Direction, Explanation
from .asks import along, explained_along, follow
from .cellsets import Indexes, indexes_of, listed, mask_of, union
from .chains import Chain, chains_along, chains_between
from .changes import TiledChange, refreshed
from .making import Making
from .merges import TiledMerging
from .orders import Merge
from .sources import TiledArray

if TYPE_CHECKING:
    from .mosaic import Mosaic

Array: TypeAlias = TiledArray | Input | Node
"""An array of a run: a base array that it was started on, a base array's place in its flow, or a node of it."""

Window: TypeAlias = tuple[slice, slice]
"""Rows and columns, as `numpy.s_[100:200, 50:80]` gives them."""

BYTES_A_CELL = 16


@dataclass(frozen=True)
class Layout:
    """How a run is laid out: its stages, the tiles of all of them, the side of each stage's tiles, and the most cells
    that a session holds for one tile, which take 16 bytes each in the program."""

    stages: int
    tiles: int
    sides: tuple[int, ...]
    cells: int

    @property
    def bytes(self) -> int:
        """The bytes that the largest tile takes in its program."""
        return self.cells * BYTES_A_CELL

    def __str__(self) -> str:
        sides = ", ".join(str(side) for side in self.sides)
        return (
            f"{self.tiles} tiles in {self.stages} stage{'s' * (self.stages != 1)}, of side {sides}; "
            f"the largest takes {self.bytes / 2**20:.1f} MiB in its program"
        )


class TiledRun:
    """A version of a flow over tiles.

    In its calls `array` and `to` are arrays of the run: a `TiledArray` that it was started on, `flow.input(n)`, or a
    node. Tiles are made when they are needed: `wait` makes all that is kept whole.
    """

    def __init__(
        self, number: int, flow: Flow, base: tuple[TiledArray, ...], making: Making, mosaic: Mosaic
    ) -> None:
        self.number = number
        self.flow = flow
        self.base = base
        self._making = making
        self._mosaic = mosaic

    @property
    def layout(self) -> Layout:
        """How the run is cut into stages and tiles, and what a tile takes."""
        stages = self._making.plan.stages
        return Layout(
            len(stages),
            sum(len(stage.tiles) for stage in stages),
            tuple(stage.side for stage in stages),
            max(stage.cells for stage in stages),
        )

    def wait(self) -> None:
        """Wait until all labels are joined, and all else is made that tiles need."""
        self._making.make_before(len(self._making.plan.stages))

    def shape(self, array: Array) -> Shape:
        """The shape of an array of the run: (height, width), or (layers, height, width)."""
        return self._making.plan.shapes[self.places(array)[0]]

    def values(self, array: Array, window: Window | None = None) -> np.ma.MaskedArray[Any, Any]:
        """The values of an array of the run in a window, or all of them: int64 of the window's shape, all layers; empty
        cells are masked, and hold 0.

        Raises BadInput for a window that is no two slices, or has a step or no cell.
        """
        place, shape = self.places(array)[0], self.shape(array)
        rect = whole(shape) if window is None else _rect(window, shape)
        values, empty = self._making.values(place, rect)
        room = (*shape[:-2], rect.height, rect.width)
        return np.ma.MaskedArray(values.reshape(room), empty.reshape(room))

    def paths(self, array: Array, *, to: Array, limit: int = MOST_PATHS) -> list[Path]:
        """All paths from `array` back to `to`. Raises BadInput where there is none, TooManyPaths above `limit`."""
        found: list[Path] = []
        for place in self.places(array):
            found += paths_between(place, self.places(to), limit)
        if not found:
            raise BadInput(f"no path leads from {array} back to {to}")
        return found

    def back(
        self,
        array: Array,
        cells: Cells,
        *,
        to: Array,
        path: Sequence[Sequence[int | Node]] | None = None,
        as_cells: bool = False,
    ) -> NDArray[Any]:
        """Which cells of `to` stand behind these cells of `array`, over all paths between the two or along one `path`.

        Gives a boolean array of the shape of `to`; with `as_cells` the cells one by one, int64 of shape (N, axes).
        Raises BadInput for cells out of range and where no path leads there.
        """
        return self._asked(array, to, cells, to=to, path=path, as_cells=as_cells, forward=False)

    def forward(
        self,
        array: Array,
        cells: Cells,
        *,
        to: Array,
        path: Sequence[Sequence[int | Node]] | None = None,
        as_cells: bool = False,
    ) -> NDArray[Any]:
        """Which cells of `to` these cells of `array` touched. As `back`, and a `path` is told in the same way, from the
        output `to` back to `array`."""
        return self._asked(to, array, cells, to=to, path=path, as_cells=as_cells, forward=True)

    def suspects(self, bad: Cells, base: Array, *, to: Array, as_cells: bool = False) -> NDArray[Any]:
        """Which cells of `to` could be others, whatever these cells of `base` would have held. As `forward`, but that a
        region can also be changed by the four neighbours of its cells."""
        return self._asked(to, base, bad, to=to, path=None, as_cells=as_cells, forward=True, wide=True)

    def support(self, array: Array, cells: Cells, *, to: Array, as_cells: bool = False) -> NDArray[Any]:
        """Which cells of `to` fix the values of these cells of `array`: where all of them stay, so do the values. As
        `back`, but that a region stands on the four neighbours of its cells too."""
        return self._asked(array, to, cells, to=to, path=None, as_cells=as_cells, forward=False, wide=True)

    def explain(
        self,
        array: Array,
        cells: Cells,
        *,
        to: Array,
        direction: Direction = "back",
        path: Sequence[Sequence[int | Node]] | None = None,
        limit: int = MOST_PATHS,
    ) -> list[Explanation]:
        """How that ask is answered, for each path. The step through a `regions` is told as `joined`: it goes by the
        labels of the whole. `traced` counts the cells of all tiles that are asked."""
        if direction not in ("back", "forward"):
            raise BadInput(f"{direction!r} is no direction: back or forward")
        output, base = (array, to) if direction == "back" else (to, array)
        paths = [self._one(path, output, base)] if path is not None else self.paths(output, to=base, limit=limit)
        start = indexes_of(cells, self.shape(array))
        told = []
        for one in paths:
            steps, traced = explained_along(self._making, self._along(one), start, forward=direction == "forward")
            told.append(Explanation(one, tuple(steps), traced))
        return told

    def refresh(self, array: Array, cells: New, *, scale: float | None = None) -> TiledChange:
        """Run the flow again on a base array in which cells were set.

        `array` is a base array of the run, or `flow.input(n)`. `cells` says what its cells are to hold, None and masked
        being empty: a mapping from cells to values, a pair of cells and values, or an array, of which those cells are
        set that differ (`subzero.changes.New`). Such an array may be whatever `Mosaic.array` takes, and is read in
        parts. Floats are multiplied by `scale` and rounded.

        Gives a TiledChange: its `run` is a run over tiles of the same flow, with the strategies that this run was
        started with, on the array with these cells, which is the next version of its name. This run stays as it is.
        Tiles that take no changed cell are shared by both runs; of the others those are refreshed in their programs
        that are held there with room for a second one, and the rest is made as in every run. Where this run was not
        waited for, what it keeps whole is made first.

        Raises BadInput for what is no base array, an array that the flow takes under several inputs (`flow.input(n)`
        names one), cells out of range, and values that no array can hold.

        >>> with subzero.tiled(tile=2, programs=1) as mosaic:
        ...     big, flow = mosaic.array("sky", sky.values), mosaic.flow("stars")
        ...     labels = flow.regions(flow.clean(flow.input(0), t=100), t=5)
        ...     change = mosaic.start(flow, [big]).refresh(big, {(0, 2): 9})
        ...     change, change.cells, change.run.values(labels)[0].tolist()
        ...     change.changed(labels, as_cells=True).tolist()
        (<Change of sky 1 in run 1: 1 cell set, in run 2>, 5, [0, 2, 2, 0])
        [[0, 2]]
        """
        return refreshed(self, array, cells, scale)

    def merge(self) -> TiledMerging:
        """Have the programs join cells of one lineage in the stores of the tiles that they hold, beside what they are
        asked. No answer changes.

        Gives a TiledMerging at once; its `wait` gives how many kinds of lineage `full_` stores have, where that can be
        told of the whole array. A tile that is made again later has its stores as they are built.

        >>> with subzero.tiled(tile=2, programs=1) as mosaic:
        ...     big, flow = mosaic.array("sky", sky.values), mosaic.flow("f")
        ...     node = flow.block(flow.input(0), "max", 2, 2, keep=["full_many_b"])
        ...     run = mosaic.start(flow, [big])
        ...     run.merge(), run.merge().wait()[node, "full_many_b"]
        (<Merging of run 1>, 4)
        """
        self._making.merges_held([Merge()], "merging")
        return TiledMerging(self)

    def told(self, path: Path) -> str:
        """A path in words."""
        return told(self.flow, path)

    def places(self, array: Array) -> list[Place]:
        """The places of an array in the flow: a base array may be taken as several inputs."""
        if isinstance(array, (Input, Node)):
            if array.flow is not self.flow:
                raise BadInput(f"{array} is of another flow than the run's")
            return [array]
        places: list[Place] = [self.flow.inputs[number] for number, base in enumerate(self.base) if base is array]
        if not places:
            raise BadInput(f"{array} is no array that the run was started on, and no node of its flow")
        return places

    def _asked(
        self,
        output: Array,
        base: Array,
        cells: Cells,
        *,
        to: Array,
        path: Sequence[Sequence[int | Node]] | None,
        as_cells: bool,
        forward: bool,
        wide: bool = False,
    ) -> NDArray[Any]:
        asked = indexes_of(cells, self.shape(base if forward else output))
        if path is not None:
            found = along(self._making, self._along(self._one(path, output, base)), asked, forward=forward)
        else:
            found = self._over_all(output, base, asked, forward, wide)
        return listed(found, self.shape(to)) if as_cells else mask_of(found, self.shape(to))

    def _over_all(self, output: Array, base: Array, cells: Indexes, forward: bool, wide: bool) -> Indexes:
        """Over all paths, node by node."""
        last, bases = self.places(output)[0], self.places(base)
        chains = chains_between(last, bases, self._making.plan.kept)
        if not chains:
            raise BadInput(f"no path leads from {output} back to {base}")
        start: dict[Place, Indexes] = {place: cells for place in bases} if forward else {last: cells}
        found = follow(self._making, chains, start, forward=forward, wide=wide)
        wanted = [last] if forward else bases
        return union([found[place] for place in wanted if place in found])

    def _along(self, path: Path) -> list[Chain]:
        return chains_along([(self.flow.nodes[node], number) for node, number in path], self._making.plan.kept)

    def _one(self, steps: Sequence[Sequence[int | Node]], output: Array, base: Array) -> Path:
        path, reached = path_of(self.flow, steps)
        if self.flow.nodes[path[0][0]] not in self.places(output) or reached not in self.places(base):
            raise BadInput(
                f"the path leads from {self.flow.nodes[path[0][0]]} to {reached}, not from {output} to {base}"
            )
        return path


def _rect(window: Window, shape: Shape) -> Rect:
    if (
        not isinstance(window, tuple)
        or len(window) != 2
        or not all(isinstance(one, slice) and one.step in (None, 1) for one in window)
    ):
        raise BadInput("a window is two slices without a step, of rows and of columns: numpy.s_[100:200, 50:80]")
    rows, columns = (one.indices(size) for one, size in zip(window, shape[-2:]))
    rect = rect_of(rows[0], rows[1], columns[0], columns[1])
    if rect is None:
        raise BadInput(f"the window has no cell of an array of shape {shape}")
    return rect
