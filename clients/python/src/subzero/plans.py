"""Plans: which strategies the nodes of a flow are best given, for so many asks and so much room.

docs/FORMATS.md ("Plans") has the rules of thumb by which the program reckons: bytes of a store, and the cells that an
ask goes through. They say nothing of real sizes and times.
"""

from __future__ import annotations

import json
from collections.abc import Callable, Sequence
from dataclasses import dataclass
from math import prod
from typing import TYPE_CHECKING

from .cells import Shape, number_of
from .faults import OutOfStep, Refused

if TYPE_CHECKING:
    from .flow import Flow, Node
    from .measures import Measured
    from .run import Run
    from .session import BaseArray

BYTES = 4096
"""The bytes of a unit."""

MOST_UNITS = 65536

_GREATEST = 2**32 - 1

_Rule = tuple[Callable[[int, int], int], Callable[[int, int], int], Callable[[int, int], int]]

# bytes of the store, an ask backward, an ask forward, of the output's cells n and the operator's degree d
_RULES: dict[str, _Rule] = {
    "map": (lambda n, d: 0, lambda n, d: d, lambda n, d: d),
    "full_one_b": (lambda n, d: 16 * n * d, lambda n, d: 1, lambda n, d: n),
    "full_one_f": (lambda n, d: 16 * n * d, lambda n, d: n, lambda n, d: 1),
    "full_many_b": (lambda n, d: 8 * n * d, lambda n, d: 2, lambda n, d: n),
    "full_many_f": (lambda n, d: 8 * n * d, lambda n, d: n, lambda n, d: 2),
    "pay_one": (lambda n, d: 16 * n, lambda n, d: d, lambda n, d: n),
    "pay_many": (lambda n, d: 8 * n, lambda n, d: 2 * d, lambda n, d: n),
    "comp_one": (lambda n, d: 4 * n, lambda n, d: d, lambda n, d: n),
    "comp_many": (lambda n, d: 2 * n, lambda n, d: 2 * d, lambda n, d: n),
    "blackbox": (lambda n, d: 0, lambda n, d: 4 * n, lambda n, d: 4 * n),
}


@dataclass(frozen=True)
class Choice:
    """What a plan gives a node: the strategy, the units that its store is reckoned to take, and what all the asks
    through the node are reckoned to cost."""

    node: Node
    strategy: str
    units: int
    cost: int


class Plan:
    """The strategies that cost least for so many asks in each direction, within so many units of 4,096 bytes.

    `choices` has a `Choice` for each node, in their order. `cost` and `units` are those of all nodes together; `back`,
    `forward` and `budget` are what the plan was made for. `flow.keep_all(plan)` sets it.

    >>> plan = flow.plan(sky, back=100, forward=0, budget=16)
    >>> print(plan)
    node                               strategy    units  cost
    node 0, clean (100 and more)       full_one_b      1   100
    node 1 labels, regions (5 and more)  full_one_b      4   100
    >>> plan.choices[1].strategy, plan.units, plan.cost
    ('full_one_b', 5, 200)
    """

    def __init__(self, flow: Flow, choices: Sequence[Choice], back: int, forward: int, budget: int) -> None:
        self.flow = flow
        self.choices = tuple(choices)
        self.back, self.forward, self.budget = back, forward, budget
        self.cost = sum(choice.cost for choice in choices)
        self.units = sum(choice.units for choice in choices)

    def __repr__(self) -> str:
        return f"<Plan of {self.flow.name}: {_counted(self.units, 'unit')} of {self.budget:,}, cost {self.cost:,}>"

    def __str__(self) -> str:
        return laid_out(("node", "strategy", "units", "cost"), self._rows(), 2)

    def measured(self, run: Run) -> Measured:
        """What the plan's stores really take here, for a run of its flow: bytes, time to build, time of an ask.

        It is measured in sessions of their own of the same program, with the values of the run's base arrays, and
        neither the run nor its session is asked anything:

        - `bytes`, node by node: the length of the node's store in the log of one of them, which is made for this and
          removed. It says how the store is written, and not what memory it takes
        - `built` and `bare`: the milliseconds from a start to the end of its await, in a session without a log that
          does nothing else, by the plan's strategies, and where each node is kept by "nothing"; each the shortest of
          three. Both have the computing of the values in them, so the stores took what `built` is more
        - `back` and `forward`, node by node: the microseconds of an ask of one cell, from the node's output over its
          first input, and the other way: the mean of up to 1,024 lines sent ahead, of different cells, after the await,
          and the shortest of three such turns. The way through this client and the pipes is in it: `line` is that of a
          line that asks nothing, in the same way

        They are times of one moment on this machine. Raises BadInput for a run of another flow.

        >>> told = flow.plan(sky, back=100, forward=0, budget=16).measured(run)
        >>> [(row.strategy, row.bytes > 0, row.back > 0, row.forward > 0) for row in told.rows]
        [('full_one_b', True, True, True), ('full_one_b', True, True, True)]
        >>> told.bytes == sum(row.bytes for row in told.rows), told.built > 0, told.bare > 0, told.line > 0
        (True, True, True, True)
        """
        from .measures import measured

        return measured(self, run)

    def _repr_html_(self) -> str:
        from .flow import table

        return table(repr(self)[1:-1], ["node", "strategy", "units", "cost"], self._rows())

    def _rows(self) -> list[tuple[str, str, str, str]]:
        return [(str(one.node), one.strategy, f"{one.units:,}", f"{one.cost:,}") for one in self.choices]


def laid_out(heads: tuple[str, ...], rows: Sequence[tuple[str, ...]], left: int) -> str:
    """Rows as text below their heads, the first `left` columns to the left and the others to the right."""
    every = [heads, *rows]
    widths = [max(len(row[at]) for row in every) for at in range(len(heads))]
    return "\n".join(
        "  ".join(f"{word:{'<' if at < left else '>'}{widths[at]}}" for at, word in enumerate(row)) for row in every
    )


def plan_of(flow: Flow, base: BaseArray | Sequence[BaseArray], back: int, forward: int, budget: int) -> Plan:
    """What the program answers to a plan of a flow on base arrays."""
    back, forward, budget = (
        number_of(number, name, 0, _GREATEST) for number, name in ((back, "back"), (forward, "forward"), (budget, "a budget"))
    )
    arrays = flow.session.ready(flow, base)
    named = [[array.name, array.version] for array in arrays]
    fields = {"plan": flow.program_name, "base": named, "units": budget, "back": back, "forward": forward}
    try:
        line = json.dumps(fields, separators=(",", ":")).encode() + b"\n"
        reply = flow.session.say(line).wait(f"planning {flow.name}")
    except Refused as fault:
        if fault.number == 24:
            fault.because(f"a budget of {budget:,} units is above {MOST_UNITS:,}, which are {MOST_UNITS * BYTES:,} bytes")
        raise
    shapes = [array.shape for array in arrays]
    return _read(flow, shapes, reply.decode().split(), back, forward, budget)


def _read(flow: Flow, base: Sequence[Shape], words: Sequence[str], back: int, forward: int, budget: int) -> Plan:
    """The plan of a reply. Raises OutOfStep where its sums are not those of the documents' rules."""
    outputs = flow.shapes(base)
    choices = []
    for node, strategy in zip(flow.nodes, words[3:]):
        stored, backward, onward = _RULES[strategy]
        cells, degree = prod(outputs[node.number]), _degree(node, base, outputs)
        units = -(-stored(cells, degree) // BYTES)
        choices.append(
            Choice(node, strategy, units, back * backward(cells, degree) + forward * onward(cells, degree))
        )
    plan = Plan(flow, choices, back, forward, budget)
    if words[:3] != ["plan", str(plan.cost), str(plan.units)] or len(words) != 3 + len(flow.nodes):
        raise OutOfStep(f"the reply to a plan of {flow.name} was {' '.join(words)}, and its choices come to {plan!r}")
    return plan


def _degree(node: Node, base: Sequence[Shape], outputs: Sequence[Shape]) -> int:
    """How many cells of an input a cell of the output is reckoned to depend on."""
    from .flow import Input

    first = node.sources[0]
    shape = base[first.number] if isinstance(first, Input) else outputs[first.number]
    if node.op in ("add", "sub", "mul", "min", "max", "lookup"):
        return 2
    if node.op == "convolve":
        return max(1, sum(1 for row in node.parameters["kernel"] for weight in row if weight != 0))
    if node.op == "block":
        high, wide = int(node.parameters["h"]), int(node.parameters["w"])
        return min(high, shape[-2]) * min(wide, shape[-1])
    if node.op == "fold_layers":
        return shape[0] if len(shape) == 3 else 1
    return {"clean": 9, "regions": 64}.get(node.op, 1)


def _counted(number: int, what: str) -> str:
    return f"{number:,} {what}{'' if number == 1 else 's'}"
