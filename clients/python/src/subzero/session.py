"""A session: the program started, arrays handed in, flows defined and started."""

from __future__ import annotations

import json
import os
import subprocess
import threading
import weakref
from collections import deque
from collections.abc import Callable, Iterator, Mapping, Sequence
from dataclasses import dataclass
from types import TracebackType
from typing import Any, Generic, Literal, TypeVar

from . import files, numerals
from .cells import MOST_CELLS, Shape, Values, given, name_of, number_of, short, whole_numbers
from .faults import BadInput, OutOfStep, ProgramEnded, Refused, SubZeroError
from .flow import MOST_FLOWS, Flow, table
from .later import Pipeline
from .locks import lock_log
from .logs import HeldArray, HeldFlow, HeldVersion, Holdings, frozen, is_unmade, name_of_array, read_log, size_told
from .program import AHEAD, Program, Reply, find
from .run import Run

MOST_ARRAYS, MOST_VERSIONS, MOST_HELD = 4096, 4096, 4 * MOST_CELLS

Hold = Callable[["Session", bytes], None]
"""What a reply makes a session hold; it names no session of its own, so that one that is let go ends at once."""

_HOLD_NOTHING = tuple(
    b'{"%s":' % form for form in (b"ask", b"explain", b"show", b"await", b"plan", b"merge", b"merged")
)
_HOLD_MORE = tuple(
    b'"%s"' % form for form in (b"array", b"layers", b"csv", b"flow", b"strategy", b"start", b"refresh")
)

K = TypeVar("K")
V = TypeVar("V")


class BaseArray:
    """An array that a session holds: its `name`, its `version` from 1, its `shape` and its `values`.

    `values` is what was handed in, a masked array of int64 that cannot be written; of an array that a log held already
    it is read from the log when it is first wanted. `unit` is the unit of what was handed in, of astropy, and `scale`
    that by which floats were multiplied; each is None where there was none, and neither is kept in a log.

    >>> sky
    <BaseArray sky 1: 4 by 4>
    >>> sky.values.max()
    9
    """

    def __init__(self, session: Session, held: HeldArray, unit: Any = None, scale: float | None = None) -> None:
        self._session = weakref.ref(session)
        self._held = held
        self.name = held.name
        self.version = held.version
        self.unit = unit
        self.scale = scale

    @property
    def values(self) -> Values:
        """The values: int64 of the array's shape, empty cells masked. They cannot be written."""
        return self._held.values

    @property
    def shape(self) -> Shape:
        """(height, width), or (layers, height, width)."""
        return self._held.shape

    def is_of(self, session: Session) -> bool:
        """Whether it is an array of this session."""
        return self._session() is session

    def __str__(self) -> str:
        return f"array {self.name} {self.version}"

    def __repr__(self) -> str:
        unit = f", in {self.unit}" if self.unit is not None else ""
        scale = f", times {self.scale}" if self.scale is not None else ""
        return f"<BaseArray {self.name} {self.version}: {size_told(self.values)}{unit}{scale}>"

    def _repr_html_(self) -> str:
        row = (self.name, str(self.version), size_told(self.values), str(self.unit or ""), str(self.scale or ""))
        return table("base array", ("name", "version", "shape", "unit", "scale"), [row])


class Held(Mapping[K, V], Generic[K, V]):
    """What a session holds of one kind, by name or number; each is made when it is taken."""

    def __init__(self, keys: Sequence[K], make: Callable[[K], V]) -> None:
        self._keys = list(keys)
        self._make = make

    def __getitem__(self, key: K) -> V:
        if key not in self._keys:
            raise KeyError(key)
        return self._make(key)

    def __iter__(self) -> Iterator[K]:
        return iter(self._keys)

    def __len__(self) -> int:
        return len(self._keys)

    def __repr__(self) -> str:
        return f"<{len(self._keys)} held: {short(self._keys)}>"


class Arrays(Mapping["str | tuple[str, int]", BaseArray]):
    """The arrays that a session holds: `arrays["sky"]` is the last version of a name, `arrays["sky", 1]` that one."""

    def __init__(self, held: dict[tuple[str, int], BaseArray]) -> None:
        self._held = held

    def __getitem__(self, key: str | tuple[str, int]) -> BaseArray:
        if isinstance(key, str):
            versions = [array for (name, _), array in self._held.items() if name == key]
            if not versions:
                raise KeyError(key)
            return versions[-1]
        return self._held[key]

    def __iter__(self) -> Iterator[str | tuple[str, int]]:
        return iter(self._held)

    def __len__(self) -> int:
        return len(self._held)

    def __repr__(self) -> str:
        return f"<{len(self._held)} held: {', '.join(map(str, self._held.values()))}>"


@dataclass(frozen=True, repr=False)
class Room:
    """How much a session holds, of what it can hold. `cells` are those of all arrays, and of the outputs of all nodes
    of all runs. Nothing can be taken out of a session.

    >>> print(session.room)
    48 of 4,194,304 cells (16 of arrays, 32 of runs), 1 of 4,096 arrays, 1 of 1,024 flows, 1 of 4,096 runs
    """

    cells_of_arrays: int
    cells_of_runs: int
    arrays: int
    flows: int
    runs: int

    @property
    def cells(self) -> int:
        """How many cells are held."""
        return self.cells_of_arrays + self.cells_of_runs

    @property
    def free(self) -> int:
        """How many further cells can be held."""
        return MOST_HELD - self.cells

    def __repr__(self) -> str:
        return f"<Room: {self}>"

    def __str__(self) -> str:
        return (
            f"{self.cells:,} of {MOST_HELD:,} cells ({self.cells_of_arrays:,} of arrays, {self.cells_of_runs:,} of "
            f"runs), {self.arrays:,} of {MOST_ARRAYS:,} arrays, {self.flows:,} of {MOST_FLOWS:,} flows, {self.runs:,} "
            f"of {MOST_VERSIONS:,} runs"
        )


class Session:
    """The program, started and talked to over its standard streams.

    `log` is the file in which arrays, flows and awaited runs are kept; where it is not there, or is empty, it is made.
    What it holds stands in `arrays`, `flows` and `runs`. `workers` and `askers` are the program's options, `program`
    its path (see `subzero.program.find`). Raises ProgramMissing; LogHeld where another session has the log open;
    ProgramEnded where the program does not know such words or cannot read the log.

    The program itself has no locks, and two of them on one log destroy it. So a session locks the log's file from
    opening to close (`flock`), and the lock lasts until its program has ended. That keeps out other sessions of this
    client on the machine, and nothing else: do not run `subzero run LOG` beside a session, nor sessions of several
    machines on one log.

    A session is used in a `with`, or ended by `close`; one that is let go ends its program too. Its lines are sent in
    the order of the calls, from any thread. In a fork of the process it cannot be used.

    >>> session = subzero.Session()
    >>> sky = session.array("sky", [[0, 9], [9, 9]])
    >>> session
    <Session: 1 array, 0 flows, 0 runs>
    >>> session.close()
    """

    def __init__(
        self,
        log: str | os.PathLike[str] | None = None,
        *,
        workers: int | None = None,
        askers: int | None = None,
        program: str | os.PathLike[str] | None = None,
    ) -> None:
        path = find(program)
        words = ["play"] if log is None else ["run", os.fspath(log)]
        for option, number in (("--workers", workers), ("--askers", askers)):
            if number is not None:
                words += [option, str(number_of(number, option))]
        self.log = None if log is None else os.fspath(log)
        self._options = (workers, askers, path)
        self._holdings = Holdings()
        self._arrays: dict[tuple[str, int], BaseArray] = {}
        self._flows: weakref.WeakValueDictionary[str, Flow] = weakref.WeakValueDictionary()
        self._shown: dict[str, str] = {}
        self._runs: weakref.WeakValueDictionary[int, Run] = weakref.WeakValueDictionary()
        self._ordered: deque[tuple[Reply, Hold]] = deque()
        self._settling = threading.RLock()
        locked = () if self.log is None else (lock_log(self.log),)
        try:
            if self.log is not None and is_unmade(self.log):
                _make_log(path, self.log)
            self._program = Program(path, words, locked, max(AHEAD, 2 * (askers or 0)))
        except BaseException:
            for file in locked:
                os.close(file)
            raise
        self._finalizer = weakref.finalize(self, self._program.let_go)
        if len(words) > 1:
            self._open()

    def __enter__(self) -> Session:
        return self

    def __exit__(
        self, kind: type[BaseException] | None, fault: BaseException | None = None, trace: TracebackType | None = None
    ) -> None:
        if kind is not None and issubclass(kind, KeyboardInterrupt):
            self._program.kill()  # who interrupts does not want to wait for what was begun
        self._finalizer.detach()
        ended = self._program.close()
        if ended is not None and kind is None:
            raise ended

    def close(self) -> None:
        """End the session. Raises ProgramEnded where the program did not end well."""
        self.__exit__(None)

    @property
    def closed(self) -> bool:
        """Whether it was closed."""
        return self._program.closed

    @property
    def pid(self) -> int:
        """The number of the program's process."""
        return self._program.pid

    def __repr__(self) -> str:
        held = self._holdings
        counts = ((len(held.arrays), "array"), (len(held.flows), "flow"), (len(held.versions), "run"))
        told = ", ".join(f"{count:,} {what}{'' if count == 1 else 's'}" for count, what in counts)
        log = f", log {os.path.basename(self.log)}" if self.log is not None else ""
        return f"<Session: {told}{log}{', closed' if self.closed else ''}>"

    def _repr_html_(self) -> str:
        rows = [("array", f"{name} {version}", "") for name, version in self._holdings.arrays]
        rows += [
            ("flow", flow.shown or flow.name, ", ".join(str(node["op"]) for node in flow.nodes))
            for flow in self._holdings.flows.values()
        ]
        rows += [("run", str(one.number), _run_told(one)) for one in self._holdings.versions.values()]
        return table(repr(self)[1:-1], ("what", "name", ""), rows)

    @property
    def arrays(self) -> Arrays:
        """The arrays that it holds: `session.arrays["sky"]` the last version, `session.arrays["sky", 1]` that one.

        >>> session.arrays
        <1 held: array sky 1>
        >>> session.arrays["sky"] is sky
        True
        """
        return Arrays({key: self._array_of(key) for key in list(self.holdings().arrays)})

    @property
    def flows(self) -> Held[str, Flow]:
        """The flows that it holds, by their shown names, with their nodes; of a name that was replaced the last.

        >>> session.flows["stars"].nodes
        [<Node 0 of stars: clean (100 and more)>, <Node 1 labels of stars: regions (5 and more)>]
        """
        held = {flow.shown or flow.name: flow.name for flow in self.holdings().flows.values()}
        held.update({name: name for name in self._holdings.flows if name not in held})
        held.update(self._shown)
        return Held(list(held), lambda name: self._flow_of(held[name]))

    @property
    def runs(self) -> Held[int, Run]:
        """The runs that it holds, by number, with their flows and base arrays.

        >>> session.runs[1].values("labels").max()
        11
        """
        return Held(list(self.holdings().versions), self._run_of)

    @property
    def room(self) -> Room:
        """How much it holds, of what it can hold: a Room.

        >>> session.room.free
        4194256
        """
        held = self.holdings()
        arrays = self.arrays
        of_arrays = sum(array.values.size for array in arrays.values())
        of_runs = sum(self._run_of(number).size for number in held.versions)
        return Room(of_arrays, of_runs, len(held.arrays), len(held.flows), len(held.versions))

    def array(self, name: str, values: Any, *, scale: float | None = None) -> BaseArray:
        """Hand in an array, the next version of this name.

        `values` has 2 axes (row, column) or 3 (layer, row, column), and holds whole numbers that are an i64; masked
        cells and None are empty. Floats are multiplied by `scale` and rounded; without it they are refused. Masks of
        numpy's masked arrays and of astropy's containers (`NDData`, `CCDData`, `Masked`) are honoured; units of
        astropy's are kept with the array. A container's description (`wcs`, `meta`) stays with the caller.

        Gives the array. Raises BadInput for what cannot be sent or kept, an uncertainty among it, and Refused: 7 where
        too much is held.

        >>> session.array("flat", np.ma.masked_invalid([[0.25, np.nan]]), scale=100)
        <BaseArray flat 1: 1 by 2, 1 cells empty, times 100>
        """
        name_of(name)
        parts = given(values)
        numbers, empty = whole_numbers(parts, scale)
        held = frozen(numbers, empty)
        layers = numbers if numbers.ndim == 3 else numbers[None]
        holes = empty.reshape(layers.shape) if empty.any() else None
        texts = [numerals.rows_text(layer, None if holes is None else holes[at]) for at, layer in enumerate(layers)]
        if numbers.ndim == 3:
            line = b'{"layers":"%s","cells":[%s]}\n' % (name.encode(), b",".join(texts))
        else:
            line = b'{"array":"%s","cells":%s}\n' % (name.encode(), texts[0])

        def hold(session: Session, text: bytes) -> None:
            array = HeldArray(name, int(text.split()[-1]), known=held)
            session._holdings.add(array)
            session._arrays[name, array.version] = BaseArray(session, array, parts.unit, scale)

        try:
            reply = self.order(line, hold).wait(f"handing in {name}")
        except Refused as fault:
            if fault.number == 7:
                fault.because(self.why_full(numbers.size, "the array has", "arrays"))
            raise
        self.holdings()
        return self._arrays[name, int(reply.split()[-1])]

    def load(
        self,
        name: str,
        path: str | os.PathLike[str],
        *,
        scale: float | None = None,
        ext: files.Extension | None = None,
        empty: Literal["nan"] | None = None,
        squeeze: bool = False,
    ) -> BaseArray:
        """Hand in the array of a file, the next version of this name.

        A `.npy` or FITS file is read here: `array` of `subzero.files.read`, which says what `ext` (which part of a FITS
        file), `empty` ("nan": NaN and BLANK are empty cells) and `squeeze` (axes of length 1 are dropped) do. The text
        of a `.csv` file is handed in as it is, and the program reads it: whole numbers with commas between, a row a
        line, a field of no characters being an empty cell; it takes none of these options. Raises BadInput and Refused
        as `array` does, and for a `.csv` file Refused with number 5 where it is anything else.

        >>> import pathlib, tempfile
        >>> with tempfile.TemporaryDirectory() as folder:
        ...     path = pathlib.Path(folder) / "table.csv"
        ...     _ = path.write_text("1,2\\n3,\\n")
        ...     session.load("table", path).values.tolist()
        [[1, 2], [3, None]]
        """
        if not files.is_csv(path):
            return self.array(name, files.read(path, ext=ext, empty=empty, squeeze=squeeze), scale=scale)
        if scale is not None or ext is not None or empty is not None or squeeze:
            raise BadInput("a .csv file is read by the program as it is: scale, ext, empty and squeeze are for others")
        reply = self.say(files.csv_line(name_of(name), path)).wait(f"handing in {name}")
        return self.arrays[name, int(reply.split()[-1])]

    def held_array(self, name: str, version: int, shape: Shape | None = None) -> BaseArray:
        """An array that the session holds already, as from its log: `session.arrays[name, version]`.

        Raises BadInput where there is none, and where it has another shape than the given one.

        >>> session.held_array("sky", 1, (4, 4))
        <BaseArray sky 1: 4 by 4>
        """
        key = name_of(name), number_of(version, "a version", 1)
        if key not in self.arrays:
            raise BadInput(f"the session holds no array {name} {version}: it holds {self._names_of_arrays()}")
        array = self.arrays[key]
        if shape is not None and tuple(shape) != array.shape:
            raise BadInput(f"{array} has the shape {array.shape}, not {tuple(shape)}")
        return array

    def flow(self, name: str, inputs: int | Sequence[BaseArray | Shape] = 1, *, replace: bool = False) -> Flow:
        """A flow to be built. Nothing is sent before its `define`, which `start` calls.

        `inputs` is over how many base arrays, or the arrays (or shapes) themselves, so that nodes know their `shape`.
        With `replace`, a flow under a name that another flow has takes the next free name in the program and keeps the
        shown one, so that a notebook's cell can be run again.

        Raises BadInput for what is no name, and for an array of another session.

        >>> session.flow("shifted", inputs=[sky]).input(0).shape
        (4, 4)
        """
        if not isinstance(inputs, (list, tuple)):
            inputs = number_of(inputs, "inputs", 0, 2**32 - 1)
        for base in inputs if isinstance(inputs, (list, tuple)) else ():
            if isinstance(base, BaseArray):
                self._check_own(base)
        return Flow(self, name_of(name), inputs, replace)

    def start(self, flow: Flow, base: BaseArray | Sequence[BaseArray]) -> Run:
        """Start a run of a flow on base arrays. It defines the flow where that was not done yet.

        Gives the run, whose values are computed then. Raises BadInput for a flow or an array of another session, and
        Refused: 12 for another number of arrays than the flow's, 13 with the node where shapes do not fit, 14 where too
        much is held.

        >>> session.start(flow, sky)
        <Run 2 of stars on sky 1>
        """
        arrays = self.ready(flow, base)
        shapes = [array.shape for array in arrays]
        named = tuple((array.name, array.version) for array in arrays)
        line = json.dumps({"start": flow.program_name, "base": named}, separators=(",", ":")).encode() + b"\n"

        held = flow.program_name

        def hold(session: Session, text: bytes) -> None:
            number = int(text.split()[-1])
            session._holdings.start(number, held, named)

        try:
            reply = self.order(line, hold).wait(f"starting {flow.name}")
        except Refused as fault:
            if fault.number == 14:
                size = sum(_size(shape) for shape in flow.shapes(shapes))
                fault.because(self.why_full(size, "the outputs of the flow's nodes have", "runs"))
            raise
        self.holdings()
        flow.started_on(shapes)
        return self.run_on(int(reply.split()[-1]), flow)

    def ready(self, flow: Flow, base: BaseArray | Sequence[BaseArray]) -> list[BaseArray]:
        """The base arrays of a flow, which is defined where that was not done yet. Raises BadInput for a flow or an
        array of another session."""
        arrays = [base] if isinstance(base, BaseArray) else list(base)
        if not isinstance(flow, Flow):
            raise BadInput(f"{short(flow)} is no flow: build one by session.flow")
        if not flow.is_of(self):
            raise BadInput(f"{flow!r} is of another session: build it again in this one")
        for array in arrays:
            if not isinstance(array, BaseArray):
                raise BadInput(f"{short(array)} is no array that the session holds: hand it in by session.array")
            self._check_own(array)
        flow.check_start([array.shape for array in arrays])
        flow.define()
        return arrays

    def held_run(self, number: int, flow: Flow | None = None, base: Sequence[BaseArray] | None = None) -> Run:
        """A run that the session holds already, as from its log: `session.runs[number]`.

        Raises BadInput where there is none, and where it is of another flow, or on other arrays, than the given ones.

        >>> session.held_run(1, flow, [sky])
        <Run 1 of stars on sky 1>
        """
        number = number_of(number, "a version", 1)
        if number not in self.runs:
            raise BadInput(f"the session holds no run {number}: it holds {short(list(self.runs)) or 'none'}")
        run = self.runs[number]
        if flow is not None and (not flow.is_of(self) or not flow.held().is_same(run.flow)):
            raise BadInput(f"run {number} is of the flow {run.flow.name}, not of {flow!r}")
        if base is not None and tuple(base) != run.base:
            raise BadInput(f"run {number} was started on {', '.join(map(str, run.base))}")
        return run if flow is None else Run(self, number, flow, run.base)

    def pipeline(self) -> Pipeline:
        """Lines sent ahead, whose replies are taken later: `with session.pipeline() as ahead: ..`. See `Pipeline`.

        >>> with session.pipeline() as ahead:
        ...     answers = [ahead.forward(run, sky, (row, 2), to=labels) for row in range(4)]
        >>> [int(answer.result().sum()) for answer in answers]
        [1, 1, 3, 3]
        """
        return Pipeline(self._program)

    def another(self, log: str | os.PathLike[str] | None = None) -> Session:
        """Another session, of the same program with the same options.

        >>> with session.another() as other:
        ...     other
        <Session: 0 arrays, 0 flows, 0 runs>
        """
        workers, askers, path = self._options
        return Session(log, workers=workers, askers=askers, program=path)

    def record(self, path: str | os.PathLike[str]) -> None:
        """Write all lines of this session to a file that `subzero play` reads: those sent so far, and each further one.

        Of a session on a log, what the log held before is not in the file. Raises OSError where it cannot be written.

        >>> import pathlib, tempfile
        >>> with tempfile.TemporaryDirectory() as folder:
        ...     path = pathlib.Path(folder) / "stars.session"
        ...     session.record(path)
        ...     path.read_text().splitlines()[-2:]
        ['{"start":"stars","base":[["sky",1]]}', '{"await":1}']
        """
        self._program.record(path)

    def say(self, line: bytes) -> Reply:
        """Send one line as it is, for what this client has no call. Gives its reply, to be taken by `wait`.

        The line ends in its one newline, and is not blank. Raises BadInput where it is otherwise, since the program
        would have no reply to it, or several.

        >>> session.say(b'{"show":1,"node":0}\\n').wait("showing").split()[:3]
        [b'values', b'4', b'4']
        """
        if not isinstance(line, (bytes, bytearray)):
            raise BadInput(f"a line is bytes, and this is {short(line)}")
        line = bytes(line)
        if not line.endswith(b"\n"):
            raise BadInput(f"{short(line)} does not end in its newline, so that the program would wait for more")
        if line.count(b"\n") > 1:
            raise BadInput(f"{short(line)} has {line.count(10)} newlines: say one line at a time")
        if line[0] in b" \t\r\n" and not line.strip(b" \t\r\n"):
            raise BadInput("a blank line has no reply")
        if not _may_hold(line):
            return self._program.send(line)
        try:
            name = name_of_array(line)
        except (ValueError, TypeError):  # it is no JSON, which the program refuses
            return self._program.send(line)
        if name is None:
            return self.order(line, lambda session, text: session._holdings.take(line, text))
        with self._settling:  # the line may be large, and is taken again when its values are wanted
            reply = self._send_and_settle(line)
            self._ordered.append((reply, _hold_line_of(name, reply)))
        return reply

    def order(self, line: bytes, hold: Hold) -> Reply:
        """Send a line, and take in what it makes the session hold once its reply has come and is no refusal."""
        with self._settling:
            reply = self._send_and_settle(line)
            self._ordered.append((reply, hold))
        return reply

    def _send_and_settle(self, line: bytes) -> Reply:
        """Send a line, and take in what came meanwhile of those before it."""
        while self._ordered and self._ordered[0][0].done():
            self._settle_first()
        return self._program.send(line)

    def holdings(self) -> Holdings:
        """What the session holds by all lines that were sent."""
        with self._settling:
            while self._ordered:
                self._settle_first()
        return self._holdings

    def _settle_first(self) -> None:
        reply, hold = self._ordered[0]
        try:
            text = reply.wait("settling")
        except SubZeroError:
            text = b""
        self._ordered.popleft()
        if text:
            hold(self, text)

    def hold_refreshed(self, number: int, old: int, place: int, before: BaseArray, values: Values) -> None:
        """Take in what a refresh of the version `old` made: the version of this number, and the array of these values,
        in the place of `before` as its input of the number `place`.
        """
        held = self._holdings.refresh(number, old, place, lambda: (values.data, values.mask))
        held.known = values
        self._arrays[held.name, held.version] = BaseArray(self, held, before.unit, before.scale)

    def run_on(self, number: int, flow: Flow) -> Run:
        """The run of this number, which the session holds, with this flow where nobody has the run yet."""
        held = self._holdings.versions[number]
        run = Run(self, number, flow, tuple(self._array_of(key) for key in held.base))
        return self._runs.setdefault(number, run)

    def hold_flow(self, flow: HeldFlow) -> None:
        """Take in a flow that the program accepted."""
        self._holdings.flows[flow.name] = flow

    def remember(self, flow: Flow) -> None:
        """Give this flow from now on where its name is asked for, as long as somebody has it."""
        self._flows.setdefault(flow.program_name, flow)
        self._shown[flow.name] = flow.program_name

    def set_strategies(self, flow: str, node: int, strategies: list[str]) -> None:
        """Send how a node's lineage is kept."""
        line = json.dumps({"strategy": flow, "node": node, "list": strategies}, separators=(",", ":")).encode() + b"\n"
        self.order(line, lambda session, text: session._holdings.take(line, text)).wait("setting a strategy")
        self.holdings()

    def runs_on(self, program: Program) -> bool:
        """Whether this is the session of that program."""
        return self._program is program

    def _array_of(self, key: tuple[str, int]) -> BaseArray:
        array = self._arrays.get(key)
        if array is None:
            array = self._arrays[key] = BaseArray(self, self._holdings.arrays[key])
        return array

    def _flow_of(self, name: str) -> Flow:
        flow = self._flows.get(name)
        if flow is None:
            flow = Flow.of_held(self, self._holdings.flows[name])
            self._flows[name] = flow
        return flow

    def _run_of(self, number: int) -> Run:
        run = self._runs.get(number)
        if run is None:
            run = self.run_on(number, self._flow_of(self._holdings.versions[number].flow))
        return run

    def _check_own(self, array: BaseArray) -> None:
        if not array.is_of(self):
            raise BadInput(f"{array!r} is of another session: hand its values in by session.array")

    def _names_of_arrays(self) -> str:
        names = [f"{name} {version}" for name, version in self._holdings.arrays]
        return ", ".join(names[:20]) + (" and others" if len(names) > 20 else "") if names else "none"

    def why_full(self, size: int, what: str, kind: Literal["arrays", "runs"]) -> str | None:
        """By which part of its rule a line for so many cells is refused, and what can be done."""
        room, most = self.room, {"arrays": MOST_ARRAYS, "runs": MOST_VERSIONS}[kind]
        do = (
            "nothing can be taken out of a session: begin another one, hand in less (a part of the image, blocks), "
            "or have it cut into tiles by subzero.tiled"
        )
        if getattr(room, kind) >= most:
            return f"{most:,} {kind} are held, which is all that a session can; {do}"
        if size > room.free:
            return (
                f"{what} {size:,} cells, and {room.free:,} of {MOST_HELD:,} are free (arrays hold "
                f"{room.cells_of_arrays:,}, outputs of runs {room.cells_of_runs:,}); {do}"
            )
        return None

    def _open(self) -> None:
        """Wait until the program is ready, or raise how it ended: by a line that it always refuses."""
        try:
            try:
                self._program.send(b'{"await":0}\n').wait("opening the session")
            except Refused:
                pass
            if self.log is not None:
                self._holdings = read_log(self.log)
        except BaseException:
            self._finalizer.detach()
            self._program.close()
            raise


def _make_log(path: str, log: str) -> None:
    """Make a file the empty log."""
    made = subprocess.run([path, "init", log], stdin=subprocess.DEVNULL, capture_output=True)
    if made.returncode != 0:
        raise ProgramEnded(made.returncode, made.stderr.decode(errors="replace").strip())


def _run_told(held: HeldVersion) -> str:
    return f"{held.flow} on {', '.join(f'{name} {version}' for name, version in held.base)}"


def _size(shape: Shape) -> int:
    size = 1
    for length in shape:
        size *= length
    return size


def _hold_line_of(name: str, reply: Reply) -> Hold:
    """What the reply to a raw line of an array makes a session hold."""
    return lambda session, text: session._holdings.add(HeldArray.of_line(name, int(text.split()[-1]), reply.line))


def _may_hold(line: bytes) -> bool:
    """Whether a line may be of a form that makes the session hold more: none that has a field of another form is."""
    if line.startswith(_HOLD_NOTHING):
        return False
    return any(form in line for form in _HOLD_MORE)
