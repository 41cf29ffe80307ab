"""What a plan's stores really take on this machine: bytes, time to build, time of an ask.

All is measured in sessions of its own, which are ended again; the session of the run is not asked anything.
"""

from __future__ import annotations

import os
import tempfile
import time
from collections.abc import Callable, Sequence
from dataclasses import dataclass, replace
from typing import TYPE_CHECKING

import numpy as np

from . import logs, numerals
from .faults import BadInput
from .keeping import chosen_for
from .later import Future
from .spread import ask_line

if TYPE_CHECKING:
    from .flow import Node
    from .plans import Plan
    from .run import Direction, Run
    from .session import Session

TURNS = 3
"""How often each thing is timed; the shortest time is taken."""

_LONG, _MOST_ASKS = 0.05, 1024


@dataclass(frozen=True)
class Measure:
    """What a node took by the strategy that the plan gives it: the bytes of its store in a log of format 1, and the
    microseconds of an ask of one cell back, and forward, over the step of its first input."""

    node: Node
    strategy: str
    bytes: int
    back: float
    forward: float


class Measured:
    """What the stores of a plan took, beside what the plan reckoned; `Plan.measured` says what was measured.

    `rows` has a `Measure` for each node, `bytes` are those of all stores together. `built` is the time in milliseconds
    of a start and its await by the plan, `bare` that where nothing is kept, and `line` the microseconds of a line that
    asks nothing.
    """

    def __init__(self, plan: Plan, rows: Sequence[Measure], built: float, bare: float, line: float) -> None:
        self.plan = plan
        self.rows = tuple(rows)
        self.bytes = sum(row.bytes for row in rows)
        self.built, self.bare, self.line = built, bare, line

    def __repr__(self) -> str:
        return f"<Measured of {self.plan.flow.name}: {self.bytes:,} bytes, built in {self.built:,.1f} ms>"

    def __str__(self) -> str:
        from .plans import laid_out

        return "\n".join(
            [
                laid_out(self._heads(), self._rows(), 2),
                f"start and await: {self.built:,.1f} ms, and {self.bare:,.1f} ms where nothing is kept; a line that "
                f"asks nothing: {self.line:,.1f} us",
            ]
        )

    def _repr_html_(self) -> str:
        from .flow import table

        return table(repr(self)[1:-1], self._heads(), self._rows())

    @staticmethod
    def _heads() -> tuple[str, ...]:
        return ("node", "strategy", "units", "bytes", "us back", "us forward")

    def _rows(self) -> list[tuple[str, ...]]:
        return [
            (
                str(choice.node),
                choice.strategy,
                f"{choice.units:,}",
                f"{row.bytes:,}",
                f"{row.back:,.1f}",
                f"{row.forward:,.1f}",
            )
            for choice, row in zip(self.plan.choices, self.rows)
        ]


def measured(plan: Plan, run: Run) -> Measured:
    """As `Plan.measured`."""
    if not run.flow.is_same(plan.flow):
        raise BadInput(f"{run!r} is not of {plan.flow.name}, the flow of the plan")
    kept = [[choice.strategy] for choice in plan.choices]
    bare = [chosen_for(node.op) for node in plan.flow.nodes]
    with tempfile.TemporaryDirectory() as folder:
        log = os.path.join(folder, "plan.log")
        with run.session.another(log) as session:
            _started(session, run, kept).wait()
        sizes = _sizes(log)
    times = [min(_build(run, lists) for _ in range(TURNS)) for lists in (kept, bare)]
    with run.session.another() as session:
        started = _started(session, run, kept)
        started.wait()
        line = _time_of(session, [b'{"await":%d}\n' % started.number])
        rows = [
            Measure(node, strategy, size, _ask(started, number, "back"), _ask(started, number, "forward"))
            for number, (node, (strategy,), size) in enumerate(zip(plan.flow.nodes, kept, sizes))
        ]
    return Measured(plan, rows, 1e3 * times[0], 1e3 * times[1], 1e6 * line)


def _started(session: Session, run: Run, lists: Sequence[Sequence[str]]) -> Run:
    """The run's flow started in another session, on the same values, its nodes kept by these strategies."""
    return _ready(session, run, lists)()


def _ready(session: Session, run: Run, lists: Sequence[Sequence[str]]) -> Callable[[], Run]:
    """Hand in all that a start in another session stands on; gives what starts it."""
    arrays = {base: session.array(base.name, base.values) for base in dict.fromkeys(run.base)}
    held = replace(run.session.holdings().flows[run.flow.program_name], lists={})
    session.order(held.line(), lambda holder, _: holder.hold_flow(held)).wait("defining a flow")
    flow = session.flows[held.shown or held.name]
    for node, names in zip(flow.nodes, lists):
        flow.keep(node, names)
    return lambda: session.start(flow, [arrays[base] for base in run.base])


def _build(run: Run, lists: Sequence[Sequence[str]]) -> float:
    """The seconds of a start and its await, in a session that has nothing else to do."""
    with run.session.another() as session:
        start = _ready(session, run, lists)
        begun = time.perf_counter()
        start().wait()
        return time.perf_counter() - begun


def _sizes(log: str) -> list[int]:
    """How many bytes the stores of each node take in a log of one version."""
    held = logs.read_log(log)
    with open(log, "rb") as file:
        group = [group for group in logs.groups(file) if group.is_version][0]
    return [sum(size for _, size in node) for node in logs.stores_of(held, held.versions[1], log, group)]


def _ask(run: Run, number: int, direction: Direction) -> float:
    """The microseconds of an ask of one cell over the step from a node to its first input, or the other way."""
    node = run.flow.nodes[number]
    shape = run.shape(node if direction == "back" else node.sources[0])
    count = int(np.prod(shape))
    drawn = np.unique(np.linspace(0, count - 1, _MOST_ASKS).astype(np.int64))
    cells = np.stack(np.unravel_index(np.random.default_rng(1).permutation(drawn), shape), axis=1)
    path = ((number, 0),)
    told = [numerals.cells_text(cells[at : at + 1]) for at in range(len(cells))]
    return 1e6 * _time_of(run.session, [ask_line(b"ask", run.number, direction, path, text) for text in told])


def _time_of(session: Session, lines: Sequence[bytes]) -> float:
    """The seconds of a line, of as many sent ahead as take long enough to be timed, and at most `_MOST_ASKS`."""
    count = 1
    while count < _MOST_ASKS and _turn(session, lines, count) < _LONG:
        count *= 4
    return min(_turn(session, lines, count) for _ in range(TURNS)) / count


def _turn(session: Session, lines: Sequence[bytes], count: int) -> float:
    """The seconds of so many of these lines, sent ahead, until all their replies have come."""
    begun = time.perf_counter()
    replies = [session.say(lines[at % len(lines)]) for at in range(count)]
    Future(replies, "measuring asks", lambda texts: None).result()
    return time.perf_counter() - begun
