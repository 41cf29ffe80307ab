"""Arrays larger than one session, spread over many programs."""

from __future__ import annotations

import os
from collections.abc import Sequence
from concurrent.futures import ThreadPoolExecutor
from typing import Any

from ..cells import name_of, number_of
from ..faults import BadInput
from ..flow import Flow, Input
from ..session import Session
from .crew import Crew, LocalCrew, processors
from .making import Making
from .remaking import Remaking
from .run import TiledRun
from .sources import SetCells, TiledArray, check_kind, windows_of
from .stages import plan_flow
from .windows import Limits


class Mosaic:
    """Programs that share out the tiles of large arrays; made by `subzero.tiled`, and used as a `Session`.

    It is used in a `with`, or ended by `close`.
    """

    def __init__(self, side: int, crew: Crew, judge: Session, limits: Limits) -> None:
        self.side = side
        self._crew = crew
        self._judge = judge
        self._limits = limits
        self._pool = ThreadPoolExecutor(crew.at_once, thread_name_prefix="subzero tiles")
        self._versions: dict[str, int] = {}
        self._runs = 0

    def __enter__(self) -> Mosaic:
        return self

    def __exit__(self, kind: type[BaseException] | None, *_: object) -> None:
        if kind is not None and issubclass(kind, KeyboardInterrupt):
            self._crew.kill()  # who interrupts does not want to wait for what was begun
        self._pool.shutdown(cancel_futures=True)
        self._crew.close()
        self._judge.close()

    def close(self) -> None:
        """End all programs."""
        self.__exit__(None)

    @property
    def pids(self) -> list[int | None]:
        """The numbers of the programs' processes, None where none runs."""
        return self._crew.pids()

    def array(self, name: str, values: Any, *, scale: float | None = None, nan_is_empty: bool = False) -> TiledArray:
        """Name an array, the next version of this name. Nothing is read yet but its shape.

        `values` is a numpy array, masked or not, a memory map, a Dask array, or the path of a `.npy` or FITS file, of 2
        axes (row, column) or 3 (layer, row, column; at most 16 layers) and any height and width. Values are taken as
        `Session.array` takes them, when tiles are made; with `nan_is_empty` NaN and infinite floats are empty. It must
        not be changed while it is in use. Raises BadInput.
        """
        windows = windows_of(values)
        check_kind(windows, scale)
        version = self._versions[name] = self.next_version(name_of(name))
        return TiledArray(name, version, tuple(windows.shape), windows, scale, nan_is_empty)

    def next_version(self, name: str) -> int:
        """The version that the next array of this name has."""
        return self._versions.get(name, 0) + 1

    def load(self, name: str, path: str | os.PathLike[str], *, scale: float | None = None) -> TiledArray:
        """Name the array of a `.npy` or FITS file, which is read window by window."""
        return self.array(name, path, scale=scale)

    def flow(self, name: str, inputs: int = 1, *, replace: bool = False) -> Flow:
        """A flow to be built over so many base arrays, as of a session: one program judges it."""
        return self._judge.flow(name, number_of(inputs, "inputs", 0, 2**32 - 1), replace=replace)

    def start(self, flow: Flow, base: Sequence[TiledArray]) -> TiledRun:
        """Start a flow on base arrays: cut it into stages and tiles. Tiles are made by `wait`, and by questions.

        Raises Refused where the program refuses the flow, BadInput for another number of arrays than the flow's, and
        CannotTile with the node where shapes do not fit, or where a cell is made of more than a session holds.
        """
        for array in base:
            if not isinstance(array, TiledArray):
                raise BadInput(f"{array!r} is no array of the mosaic: name it by mosaic.array")
        if not isinstance(flow, Flow) or not flow.is_of(self._judge):
            raise BadInput(f"{flow!r} is no flow of the mosaic: build it by mosaic.flow")
        flow.define()
        kept = self._judge.holdings().flows[flow.program_name].lists
        if len(base) != len(flow.inputs):
            raise BadInput(f"the flow {flow.name} takes {len(flow.inputs)} base arrays, and {len(base)} are given")
        plan = plan_flow(flow, [array.shape for array in base], self.side, self._limits)
        self._runs += 1
        making = Making(self._runs, plan, tuple(base), dict(kept), self._crew, self._pool)
        return TiledRun(self._runs, flow, tuple(base), making, self)

    def refreshed(self, run: TiledRun, place: Input, cells: SetCells) -> TiledRun:
        """A run of the flow of another one, on the same arrays, but that these cells were set in the one under
        `place`, which is the next version of its name. `TiledRun.refresh` calls it."""
        before = run.base[place.number]
        version = self._versions[before.name] = self.next_version(before.name)
        base = (*run.base[: place.number], before.with_set(version, cells), *run.base[place.number + 1 :])
        self._runs += 1
        making = Remaking(self._runs, run._making, base, place, cells.indexes)
        return TiledRun(self._runs, run.flow, base, making, self)


def tiled(
    tile: int = 800,
    *,
    programs: int | None = None,
    client: Any = None,
    program: str | os.PathLike[str] | None = None,
    workers: int | None = None,
    limits: Limits = Limits(),
) -> Mosaic:
    """Programs for arrays larger than one session holds, cut into tiles of at most `tile` rows and columns.

    `programs` is how many run at the same time: as many as processors, or with `client`, a `dask.distributed.Client`,
    as many as the cluster has workers, each an actor of one. Together they hold as many tiles as fit; a tile that none
    holds any more is made again when it is asked for, so that more programs than processors make questions faster where
    there is memory for them. `program` is the program's path, here and on the cluster (one more runs here, which judges
    flows), and `workers` its option. `limits` are those of one session, and may be made smaller. Raises ProgramMissing,
    BadInput.

    >>> with subzero.tiled(tile=2, programs=1) as mosaic:
    ...     big, flow = mosaic.array("sky", sky.values), mosaic.flow("stars")
    ...     labels = flow.regions(flow.clean(flow.input(0), t=100), t=5)
    ...     run = mosaic.start(flow, [big])
    ...     run.wait()
    ...     run.values(labels).max(), int(run.back(labels, (0, 1), to=big).sum())
    (11, 3)
    """
    side = number_of(tile, "tile", 1)
    if programs is not None:
        programs = number_of(programs, "programs", 1)
    crew: Crew
    if client is None:
        crew = LocalCrew(programs or processors(), program, limits, workers)
    else:
        from .on_dask import DaskCrew

        crew = DaskCrew(client, programs, program, limits, workers)
    return Mosaic(side, crew, Session(program=program), limits)
