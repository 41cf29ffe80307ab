"""Flows: operators over base arrays, built node by node. Nothing is sent before `Flow.define`."""

from __future__ import annotations

import html
import weakref
from collections.abc import Callable, Sequence
from dataclasses import dataclass, field
from typing import TYPE_CHECKING, Any, ClassVar, TypeAlias, TypeGuard

import numpy as np
from numpy.typing import ArrayLike

from .cells import Shape, number_of, short
from .faults import BadInput, OutOfStep, Refused, SubZeroError
from .keeping import OPERATORS, WITHOUT_MAPPING, Keep, chosen_for, names_of
from .logs import HeldFlow
from .plans import Plan, plan_of

if TYPE_CHECKING:
    from .session import BaseArray, Session

MOST_FLOWS = 1024

_GREATEST_NUMBER = 2**32 - 1

_LABELS = {
    "add_k": "plus {k}",
    "mul_k": "times {k}",
    "clip": "{lo} to {hi}",
    "slice": "{h} by {w} from {r0},{c0}",
    "block": "{fold} of {h} by {w}",
    "fold_layers": "{fold}",
    "regions": "{t} and more",
    "clean": "{t} and more",
}


class Operand:
    """An array of a flow, to be written in formulas: each gives the node that the flow's method of the same meaning
    gives.

    `a + b`, `a - b` and `a * b` take arrays of one flow, or a whole number on one side; `-a` and `abs(a)`; `a.T` is the
    transpose. `a[2:5, :]` is a slice of rows and columns, of an array with layers `a[:, 2:5, :]` or `a[..., 2:5, :]`;
    bounds that are left out, or count from the end, need a known `shape`. `3 - a` is `-a + 3`, two nodes.

    >>> flow = session.flow("formula", inputs=[sky])
    >>> x = flow.input(0)
    >>> contrast = (x * 9 - flow.convolve(x, np.ones((3, 3), dtype=int)))[1:-1, 1:-1]
    >>> contrast
    <Node 3 of formula: slice (2 by 2 from 1,1)>
    >>> contrast.shape
    (2, 2)
    """

    flow: Flow
    __array_ufunc__: ClassVar[None] = None  # so that numpy leaves formulas with numbers of its own to these methods
    __iter__: ClassVar[None] = None

    @property
    def shape(self) -> Shape | None:
        """The shape, where it is known: of a flow over arrays or shapes, and of one that was started."""
        return self.flow.shape_of(self)

    @property
    def T(self) -> Node:
        """Rows as columns, in each layer."""
        return self.flow.transpose(_place(self))

    def __add__(self, other: Place | int) -> Node:
        if _is_number(other):
            return self.flow.add_k(_place(self), other)
        if isinstance(other, (Input, Node)):
            return self.flow.add(_place(self), other)
        return NotImplemented

    def __radd__(self, other: int) -> Node:
        return self + other if _is_number(other) else NotImplemented  # type: ignore[return-value]

    def __sub__(self, other: Place | int) -> Node:
        if _is_number(other):
            return self.flow.add_k(_place(self), -int(other))
        if isinstance(other, (Input, Node)):
            return self.flow.sub(_place(self), other)
        return NotImplemented

    def __rsub__(self, other: int) -> Node:
        return -self + other if _is_number(other) else NotImplemented  # type: ignore[return-value]

    def __mul__(self, other: Place | int) -> Node:
        if _is_number(other):
            return self.flow.mul_k(_place(self), other)
        if isinstance(other, (Input, Node)):
            return self.flow.mul(_place(self), other)
        return NotImplemented

    def __rmul__(self, other: int) -> Node:
        return self * other if _is_number(other) else NotImplemented  # type: ignore[return-value]

    def __neg__(self) -> Node:
        return self.flow.neg(_place(self))

    def __abs__(self) -> Node:
        return self.flow.abs(_place(self))

    def __getitem__(self, index: Any) -> Node:
        return self.flow.sliced(_place(self), index)


@dataclass(frozen=True, eq=False, repr=False)
class Input(Operand):
    """A base array of a flow, by its number from 0."""

    flow: Flow
    number: int

    def __str__(self) -> str:
        return f"input {self.number}"

    def __repr__(self) -> str:
        return f"<Input {self.number} of {self.flow.name}>"


@dataclass(frozen=True, eq=False, repr=False)
class Node(Operand):
    """A node of a flow, and its output: its number from 0, its operator, its parameters, what it takes, and the name
    that it was given, or None.
    """

    flow: Flow
    number: int
    op: str
    parameters: dict[str, Any]
    sources: tuple[Place, ...]
    shape_from: Callable[[Shape], Shape]
    name: str | None = None

    def __str__(self) -> str:
        return f"node {self.number}{f' {self.name}' if self.name else ''}, {self.label}"

    def __repr__(self) -> str:
        return f"<Node {self.number}{f' {self.name}' if self.name else ''} of {self.flow.name}: {self.label}>"

    @property
    def label(self) -> str:
        """The operator and its parameters in few words, as a picture shows them.

        >>> labels.label
        'regions (5 and more)'
        """
        told = _LABELS[self.op].format(**self.parameters) if self.op in _LABELS else ""
        if self.op == "convolve":
            told = f"{len(self.parameters['kernel'])} by {len(self.parameters['kernel'][0])}"
        return f"{self.op} ({told})" if told else self.op

    @property
    def kept(self) -> list[str]:
        """The names of the strategies by which its lineage is kept, in runs that are started from now on.

        >>> labels.kept
        ['blackbox']
        >>> flow.keep(labels, "small")
        >>> labels.kept
        ['comp_many']
        """
        return self.flow.kept_of(self)


Place: TypeAlias = Input | Node
"""An array of a flow: a base array that it takes, or the output of a node."""


class Flow:
    """A flow that is being built. Each operator's method gives the new node.

    `x`, `a`, `b` are arrays of this flow: `flow.input(0)`, or an earlier node. `name` is a name for people, by which
    `flow[name]` and `run[name]` give the node; it is kept in a log. Every method raises BadInput for what could not be
    sent; rules on values (a kernel of even sides, a limit above the other) are the program's, and `define` tells them.
    Nodes can be written as formulas too: see `subzero.flow.Operand`.

    `keep` is how the node's lineage is kept, which changes no answer but what runs and asks cost: a word, "asked
    backward", "asked forward", "both", "small" or "nothing" (`subzero.strategies` says what each stands for), or a list
    of one to three names of strategies, as in docs/FORMATS.md; None is the program's own choice, "nothing". `keep_all`
    says it of all nodes, and `node.kept` tells it.

    `flow.name` is the name that is shown, `flow.program_name` that by which the program knows the flow, which is
    another one where `replace` took it.

    >>> flow = session.flow("example")
    >>> clean = flow.clean(flow.input(0), t=9)
    >>> labels = flow.regions(clean, t=5, name="labels")
    >>> flow
    <Flow example: 2 nodes on 1 base array, not defined>
    >>> flow["labels"] is labels
    True
    """

    def __init__(
        self, session: Session, name: str, inputs: int | Sequence[BaseArray | Shape], replace: bool = False
    ) -> None:
        self._session = weakref.ref(session)
        self.name = name
        self.program_name = name
        count = inputs if isinstance(inputs, int) else len(inputs)
        self.inputs = tuple(Input(self, number) for number in range(count))
        self.nodes: list[Node] = []
        self._base = None if isinstance(inputs, int) else tuple(_shape(one) for one in inputs)
        self._of_two_axes: list[Node] = []
        self._kept: list[tuple[Node, list[str]]] = []
        self._replace = replace
        self._defined = False

    @property
    def session(self) -> Session:
        """The session in which it is defined. Raises SubZeroError where that was let go."""
        session = self._session()
        if session is None:
            raise SubZeroError(f"the session of the flow {self.name} was let go: keep it as long as its flows are used")
        return session

    @property
    def defined(self) -> bool:
        """Whether the program holds it, so that it takes no further node."""
        return self._defined

    def is_of(self, session: Session) -> bool:
        """Whether it is a flow of this session."""
        return self._session() is session

    def is_same(self, other: Flow) -> bool:
        """Whether the program knows both as one flow of one session."""
        both = self._defined and other._defined and self.program_name == other.program_name
        return self is other or (both and self._session() is other._session() is not None)

    def __repr__(self) -> str:
        nodes, inputs = _count(len(self.nodes), "node"), _count(len(self.inputs), "base array")
        return f"<Flow {self.name}: {nodes} on {inputs}, {'defined' if self._defined else 'not defined'}>"

    def _repr_html_(self) -> str:
        rows = [
            (
                str(node.number),
                node.name or "",
                node.label,
                ", ".join(_short_place(source) for source in node.sources),
                " by ".join(map(str, node.shape)) if node.shape else "",
            )
            for node in self.nodes
        ]
        return table(f"flow {self.name}", ("node", "name", "operator", "of", "shape"), rows)

    def __getitem__(self, name: str) -> Node:
        """The node of this name. Raises BadInput where there is none."""
        for node in self.nodes:
            if node.name is not None and node.name == name:
                return node
        named = ", ".join(node.name for node in self.nodes if node.name) or "none"
        raise BadInput(f"the flow {self.name} has no node named {short(name)}; its named nodes: {named}")

    def _ipython_key_completions_(self) -> list[str]:
        return [node.name for node in self.nodes if node.name]

    def input(self, number: int) -> Input:
        """The base array of this number, from 0. Raises BadInput where the flow takes fewer.

        >>> session.flow("both", inputs=2).input(1)
        <Input 1 of both>
        """
        return self.inputs[number_of(number, "the number of an input", 0, len(self.inputs) - 1)]

    def shape_of(self, place: Operand) -> Shape | None:
        """The shape of an array of this flow, None where the shapes of its base arrays are not known yet.

        >>> flow = session.flow("shifted", inputs=[sky])
        >>> flow.shape_of(flow.block(flow.input(0), "max", 2, 2))
        (2, 2)
        """
        if self._base is None:
            return None
        number = _place(place).number
        return self._base[number] if isinstance(place, Input) else self.shapes(self._base)[number]

    def neg(self, x: Place, *, keep: Keep | None = None, name: str | None = None) -> Node:
        """Each value negated. Empty cells stay empty, and what is no whole number of 64 bits becomes empty: so in all
        arithmetic.

        Gives a node of the shape of `x`.

        >>> flow = session.flow("f")
        >>> node = flow.neg(flow.input(0))
        >>> run = session.start(flow, session.array("a", [[1, -2, None]]))
        >>> run.values(node).tolist()
        [[-1, 2, None]]
        """
        return self._node("neg", (x,), keep, name)

    def abs(self, x: Place, *, keep: Keep | None = None, name: str | None = None) -> Node:
        """Each value's distance from 0. Gives a node of the shape of `x`.

        >>> flow = session.flow("f")
        >>> node = flow.abs(flow.input(0))
        >>> run = session.start(flow, session.array("a", [[1, -2, None]]))
        >>> run.values(node).tolist()
        [[1, 2, None]]
        """
        return self._node("abs", (x,), keep, name)

    def add_k(self, x: Place, k: int, *, keep: Keep | None = None, name: str | None = None) -> Node:
        """Each value plus the whole number `k`. Gives a node of the shape of `x`.

        >>> flow = session.flow("f")
        >>> node = flow.add_k(flow.input(0), 10)
        >>> run = session.start(flow, session.array("a", [[1, -2, None]]))
        >>> run.values(node).tolist()
        [[11, 8, None]]
        """
        return self._node("add_k", (x,), keep, name, k=number_of(k, "k"))

    def mul_k(self, x: Place, k: int, *, keep: Keep | None = None, name: str | None = None) -> Node:
        """Each value times the whole number `k`. Gives a node of the shape of `x`.

        >>> flow = session.flow("f")
        >>> node = flow.mul_k(flow.input(0), 3)
        >>> run = session.start(flow, session.array("a", [[1, -2, None]]))
        >>> run.values(node).tolist()
        [[3, -6, None]]
        """
        return self._node("mul_k", (x,), keep, name, k=number_of(k, "k"))

    def clip(self, x: Place, lo: int, hi: int, *, keep: Keep | None = None, name: str | None = None) -> Node:
        """Each value, or `lo` where it is below, `hi` where it is above. Gives a node of the shape of `x`.

        `lo` above `hi` is refused when the flow is defined.

        >>> flow = session.flow("f")
        >>> node = flow.clip(flow.input(0), 0, 9)
        >>> run = session.start(flow, session.array("a", [[-5, 4, 12, None]]))
        >>> run.values(node).tolist()
        [[0, 4, 9, None]]
        """
        return self._node("clip", (x,), keep, name, lo=number_of(lo, "lo"), hi=number_of(hi, "hi"))

    def add(self, a: Place, b: Place, *, keep: Keep | None = None, name: str | None = None) -> Node:
        """The sum of two arrays of one shape, cell by cell; empty where one of them is. Gives a node of that shape.

        Another shape of `b` is refused at the start, as for `sub`, `mul`, `min` and `max`.

        >>> flow = session.flow("f")
        >>> node = flow.add(flow.input(0), flow.neg(flow.input(0)))
        >>> run = session.start(flow, session.array("a", [[3, 2, None]]))
        >>> run.values(node).tolist()
        [[0, 0, None]]
        """
        return self._node("add", (a, b), keep, name)

    def sub(self, a: Place, b: Place, *, keep: Keep | None = None, name: str | None = None) -> Node:
        """The first of two arrays of one shape less the second, cell by cell. Gives a node of that shape.

        >>> flow = session.flow("f")
        >>> node = flow.sub(flow.input(0), flow.mul_k(flow.input(0), 3))
        >>> run = session.start(flow, session.array("a", [[3, 2, None]]))
        >>> run.values(node).tolist()
        [[-6, -4, None]]
        """
        return self._node("sub", (a, b), keep, name)

    def mul(self, a: Place, b: Place, *, keep: Keep | None = None, name: str | None = None) -> Node:
        """The product of two arrays of one shape, cell by cell. Gives a node of that shape.

        >>> flow = session.flow("f")
        >>> node = flow.mul(flow.input(0), flow.input(0))
        >>> run = session.start(flow, session.array("a", [[3, -2, None]]))
        >>> run.values(node).tolist()
        [[9, 4, None]]
        """
        return self._node("mul", (a, b), keep, name)

    def min(self, a: Place, b: Place, *, keep: Keep | None = None, name: str | None = None) -> Node:
        """The lesser of two arrays of one shape, cell by cell. Gives a node of that shape.

        >>> flow = session.flow("f")
        >>> node = flow.min(flow.input(0), flow.neg(flow.input(0)))
        >>> run = session.start(flow, session.array("a", [[3, -2, None]]))
        >>> run.values(node).tolist()
        [[-3, -2, None]]
        """
        return self._node("min", (a, b), keep, name)

    def max(self, a: Place, b: Place, *, keep: Keep | None = None, name: str | None = None) -> Node:
        """The greater of two arrays of one shape, cell by cell. Gives a node of that shape.

        >>> flow = session.flow("f")
        >>> node = flow.max(flow.input(0), flow.neg(flow.input(0)))
        >>> run = session.start(flow, session.array("a", [[3, -2, None]]))
        >>> run.values(node).tolist()
        [[3, 2, None]]
        """
        return self._node("max", (a, b), keep, name)

    def transpose(self, x: Place, *, keep: Keep | None = None, name: str | None = None) -> Node:
        """Rows as columns, in each layer. Gives a node of shape (width, height), or (layers, width, height).

        >>> flow = session.flow("f")
        >>> node = flow.transpose(flow.input(0))
        >>> run = session.start(flow, session.array("a", [[1, 2, 3], [4, 5, 6]]))
        >>> run.values(node).tolist()
        [[1, 4], [2, 5], [3, 6]]
        """
        return self._node("transpose", (x,), keep, name, shape_from=lambda shape: (*shape[:-2], shape[-1], shape[-2]))

    def slice(
        self, x: Place, r0: int, c0: int, h: int, w: int, *, keep: Keep | None = None, name: str | None = None
    ) -> Node:
        """The `h` by `w` cells from row `r0` and column `c0` on, in each layer. Gives a node of shape (h, w), or
        (layers, h, w).

        `flow.sliced`, and `x[2:5, 1:4]`, take a slice as numpy writes it. One that leaves the array is refused at the
        start.

        >>> flow = session.flow("f")
        >>> node = flow.slice(flow.input(0), 0, 1, 2, 2)
        >>> run = session.start(flow, session.array("a", [[1, 2, 3], [4, 5, 6]]))
        >>> run.values(node).tolist()
        [[2, 3], [5, 6]]
        """
        sizes = {"r0": r0, "c0": c0, "h": h, "w": w}
        sizes = {what: number_of(size, what, 0, _GREATEST_NUMBER) for what, size in sizes.items()}
        return self._node(
            "slice", (x,), keep, name, shape_from=lambda shape: (*shape[:-2], sizes["h"], sizes["w"]), **sizes
        )

    def convolve(
        self, x: Place, kernel: ArrayLike, *, keep: Keep | None = None, name: str | None = None
    ) -> Node:
        """The sum of the cells round each cell, weighted by `kernel`: whole numbers, odd by odd, at most 9 by 9.

        Gives a node of the shape of `x`.

        The kernel is laid on the image as it is, not turned round: as `scipy.ndimage.correlate` does with
        `mode="constant"`. The sum is empty where one of its cells is, of those in range whose weight is not 0.

        >>> flow = session.flow("f")
        >>> node = flow.convolve(flow.input(0), [[1, 2, 3], [4, 5, 6], [7, 8, 9]])
        >>> run = session.start(flow, session.array("a", [[0, 0, 0], [0, 1, 0], [0, 0, 0]]))
        >>> run.values(node).tolist()
        [[9, 8, 7], [6, 5, 4], [3, 2, 1]]
        """
        weights = np.asarray(kernel)
        if weights.ndim == 2 and weights.dtype.kind == "f":
            raise BadInput("a kernel has whole numbers, and this one floats: multiply and round them, as .astype(int) does")
        if weights.ndim != 2 or weights.size == 0 or weights.dtype.kind not in "iu":
            raise BadInput("a kernel is an array of whole numbers with 2 axes")
        return self._node("convolve", (x,), keep, name, kernel=weights.tolist())

    def block(
        self, x: Place, fold: str, h: int, w: int, *, keep: Keep | None = None, name: str | None = None
    ) -> Node:
        """Each `h` by `w` block of a layer folded into one cell by `fold`: "sum", "min", "max" or "count", of the cells
        that are not empty.

        Gives a node of shape (height / h, width / w), rounded up, or of as many layers of it: the last blocks may be
        shorter.

        >>> flow = session.flow("f")
        >>> node = flow.block(flow.input(0), "sum", 2, 2)
        >>> run = session.start(flow, session.array("a", [[1, 2, 3], [4, 5, 6], [7, 8, 9]]))
        >>> run.values(node).tolist()
        [[12, 9], [15, 9]]
        """
        high, wide = (number_of(size, name, 0, _GREATEST_NUMBER) for name, size in (("h", h), ("w", w)))
        return self._node(
            "block",
            (x,),
            keep,
            name,
            shape_from=lambda shape: (*shape[:-2], -(-shape[-2] // high), -(-shape[-1] // wide)),
            fold=_fold(fold),
            h=high,
            w=wide,
        )

    def fold_layers(self, x: Place, fold: str, *, keep: Keep | None = None, name: str | None = None) -> Node:
        """All layers folded into one, cell by cell, by `fold`: "sum", "min", "max" or "count". Gives a node of shape
        (height, width).

        >>> flow = session.flow("f")
        >>> node = flow.fold_layers(flow.input(0), "max")
        >>> run = session.start(flow, session.array("a", [[[1, 2]], [[3, None]]]))
        >>> run.values(node).tolist()
        [[3, 2]]
        """
        return self._node("fold_layers", (x,), keep, name, shape_from=lambda shape: shape[-2:], fold=_fold(fold))

    def lookup(self, a: Place, table: Place, *, keep: Keep | None = None, name: str | None = None) -> Node:
        """For each value of `a` that is a column of `table`, an array of one row, the table's value there; else empty.
        Gives a node of the shape of `a`.

        A table of more rows is refused at the start.

        >>> flow = session.flow("f", inputs=2)
        >>> node = flow.lookup(flow.input(0), flow.input(1))
        >>> run = session.start(flow, [session.array("a", [[0, 2, 7, None]]), session.array("t", [[10, 20, 30]])])
        >>> run.values(node).tolist()
        [[10, 30, None, None]]
        """
        return self._node("lookup", (a, table), keep, name)

    def regions(self, x: Place, t: int, *, keep: Keep | None = None, name: str | None = None) -> Node:
        """Labels of the regions of cells of `t` and more, joined by their four neighbours; 0 elsewhere. Gives a node of
        the shape of `x`.

        A label is 1 plus the least row-major index of the cells of its region, counted through the layers.

        >>> flow = session.flow("f")
        >>> node = flow.regions(flow.input(0), t=5)
        >>> run = session.start(flow, session.array("a", [[9, 9, 0], [0, 9, 0], [9, 0, 0]]))
        >>> run.values(node).tolist()
        [[1, 1, 0], [0, 1, 0], [7, 0, 0]]
        """
        return self._node("regions", (x,), keep, name, t=number_of(t, "t"))

    def clean(self, x: Place, t: int, *, keep: Keep | None = None, name: str | None = None) -> Node:
        """Each cell of `t` and more replaced by the least of its up to eight neighbours below `t`; other cells as they
        are. Gives a node of the shape of `x`.

        Where there is no such neighbour the cell becomes empty.

        >>> flow = session.flow("f")
        >>> node = flow.clean(flow.input(0), t=100)
        >>> run = session.start(flow, session.array("a", [[1, 2], [300, 4]]))
        >>> run.values(node).tolist()
        [[1, 2], [1, 4]]
        """
        return self._node("clean", (x,), keep, name, t=number_of(t, "t"))

    def sliced(self, x: Place, index: Any) -> Node:
        """The cells of a slice as numpy writes it, in each layer: `flow.sliced(x, np.s_[2:5, :])` is `x[2:5, :]`.

        Gives a node of the shape of the slice. Raises BadInput for what is no slice of rows and columns, and for bounds
        that need a shape that is not known.

        >>> flow = session.flow("corner", inputs=[sky])
        >>> flow.sliced(flow.input(0), np.s_[2:, 2:]).shape
        (2, 2)
        """
        parts = index if isinstance(index, tuple) else (index,)
        shape = self.shape_of(x)
        bare = Ellipsis not in parts and len(parts) < 3
        if Ellipsis in parts:
            parts = tuple(part for part in parts if part is not Ellipsis)
            parts = (slice(None),) * (2 - len(parts)) + parts
        if len(parts) == 3 and parts[0] == slice(None) and (shape is None or len(shape) == 3):
            parts = parts[1:]
        elif bare and shape is not None and len(shape) == 3:
            raise BadInput("an array with layers is sliced in each of them: x[:, 2:5, 1:4], or x[..., 2:5, 1:4]")
        if len(parts) > 2 or not all(isinstance(part, slice) and part.step in (None, 1) for part in parts):
            raise BadInput(
                f"{short(index)} is no slice of rows and columns: write x[2:5, 1:4], and x[3:4, :] for one row"
            )
        bounds = [
            _bounds(part, None if shape is None else shape[at - 2]) for at, part in enumerate((*parts, slice(None))[:2])
        ]
        (r0, h), (c0, w) = bounds
        node = self.slice(x, r0, c0, h, w)
        if bare:
            self._of_two_axes.append(node)
        return node

    def keep(self, node: Node, strategies: Keep) -> None:
        """Set how a node's lineage is kept, for runs started later: a word, or one to three names of strategies.

        It is sent with the flow, and at once where that is defined. Raises BadInput for what is no word and no
        strategy, and Refused with number 18, which says why, for one that the node cannot have.

        >>> flow.keep(labels, ["comp_one"])
        >>> run = session.start(flow, sky)
        >>> run.wait()
        >>> print(run.explain(labels, (0, 1), to=sky)[0])
        regions by comp_one, clean by blackbox: 16 cells traced
        """
        if not isinstance(node, Node) or node.flow is not self:
            raise BadInput(f"{short(node)} is no node of the flow {self.name}")
        self._kept.append((node, names_of(strategies, node.op)))
        if self._defined:
            self._send_kept()

    def keep_all(self, strategies: Keep | Plan) -> None:
        """Set how the lineage of each node is kept that the flow has so far, as `keep` does: by a word, each by its own
        operator, or by a plan, each as the plan has it.

        Raises BadInput for a plan of another flow.

        >>> flow.keep_all("both")
        >>> labels.kept
        ['full_one_b', 'full_one_f']
        >>> flow.keep_all(flow.plan(sky, back=100, forward=0, budget=3))
        >>> labels.kept
        ['full_many_b']
        """
        if isinstance(strategies, Plan):
            if strategies.flow is not self:
                raise BadInput(f"{strategies!r} is a plan of another flow: make one by {self.name}'s own plan")
            self._kept += [(choice.node, [choice.strategy]) for choice in strategies.choices]
        else:
            self._kept += [(node, names_of(strategies, node.op)) for node in self.nodes]
        if self._defined:
            self._send_kept()

    def plan(
        self, base: BaseArray | Sequence[BaseArray], *, back: int = 0, forward: int = 0, budget: int
    ) -> Plan:
        """The strategies that cost least where so many asks come backward and forward through the flow on these base
        arrays, and their stores take at most `budget` units of 4,096 bytes. It defines the flow where that was not done
        yet, and changes nothing else: `keep_all` sets the plan.

        It is reckoned by rules of thumb (docs/FORMATS.md, "Plans"), which say nothing of real sizes and times. Raises
        BadInput and Refused as a start does, without 14, and Refused with 24 for more than 65,536 units.

        >>> flow.plan(sky, back=100, forward=100, budget=16)
        <Plan of stars: 5 units of 16, cost 3,400>
        """
        return plan_of(self, base, back, forward, budget)

    def kept_of(self, node: Node) -> list[str]:
        """The strategies by which a node's lineage is kept in runs that are started from now on."""
        said = [names for other, names in self._kept if other is node]
        if said or not self._defined:
            return list(said[-1] if said else chosen_for(node.op))
        return list(self.session.holdings().flows[self.program_name].list_of(node.number))

    def define(self) -> Flow:
        """Send the flow, and how its nodes are kept; gives itself. A second call sends what is not yet accepted.

        Where the session holds the same flow under this name, it is taken as that one and not sent again, and neither
        are strategies that are set already. With `replace=True` of `session.flow` another flow under the name stays
        where it is, and this one is sent under the next free name, as `stars_2`.

        Raises Refused: with number 8 and the fault and the node of a flow against the rules; with number 9 for a name
        under which another flow is held, and says what differs; with 18 for a strategy that a node cannot have.

        >>> again = session.flow("stars", replace=True)
        >>> labels = again.regions(again.input(0), t=8, name="labels")
        >>> again.define().program_name
        'stars_2'
        """
        if not self._defined:
            held = self.session.holdings().flows
            self.program_name = self._next_name(held) if self._replace else self.name
            if (known := held.get(self.program_name)) is None or known.difference(self._told()) is not None:
                self._send(self._told())
            self._defined = True
            self.session.remember(self)
        self._send_kept()
        return self

    def held(self) -> Flow:
        """Take the flow as one that the session holds already, as from its log; gives itself.

        `session.flows[name]` gives it with its nodes, so that it need not be told again. Raises BadInput where the
        session holds no flow of this name, or another one.

        >>> again = session.flow("stars")
        >>> again.regions(again.clean(again.input(0), t=100), t=5, name="labels")
        <Node 1 labels of stars: regions (5 and more)>
        >>> run.values(again.held()["labels"]).max()
        11
        """
        held = self.session.holdings().flows
        known = held.get(self.name)
        if known is None:
            raise BadInput(f"the session holds no flow {self.name}: it holds {', '.join(held) or 'none'}")
        if (difference := known.difference(self._told())) is not None:
            raise BadInput(f"the session holds another flow {self.name}: {difference}")
        self._defined = True
        return self

    def shapes(self, base: Sequence[Shape]) -> list[Shape]:
        """The shapes of all nodes' outputs over base arrays of these shapes, for a start that the program accepted."""
        shapes: list[Shape] = []
        for node in self.nodes:
            first = node.sources[0]
            shapes.append(node.shape_from(base[first.number] if isinstance(first, Input) else shapes[first.number]))
        return shapes

    def check_start(self, base: Sequence[Shape]) -> None:
        """Raises BadInput where base arrays of these shapes would be read otherwise than the flow's slices say."""
        if len(base) == len(self.inputs):
            shapes = self.shapes(base)
            for node in self._of_two_axes:
                source = node.sources[0]
                if len(base[source.number] if isinstance(source, Input) else shapes[source.number]) == 3:
                    raise BadInput(f"{node} slices an array with layers: write x[:, 2:5, 1:4], or x[..., 2:5, 1:4]")

    def started_on(self, base: Sequence[Shape]) -> None:
        """Its shapes are known from now on, from a start that the program accepted."""
        self._base = tuple(base)

    @classmethod
    def of_held(cls, session: Session, held: HeldFlow) -> Flow:
        """A flow that the session holds, with its nodes. Raises OutOfStep for an operator that is not known here."""
        flow = cls(session, held.shown or held.name, held.inputs)
        for node, name in zip(held.nodes, held.names):
            parameters = {key: value for key, value in node.items() if key not in ("op", "from")}
            if node["op"] not in OPERATORS:
                raise OutOfStep(f"the flow {held.name} has the operator {node['op']}, which this client does not know")
            sources = [flow.inputs[at["i"]] if "i" in at else flow.nodes[at["n"]] for at in node["from"]]
            getattr(flow, node["op"])(*sources, **parameters, name=name)
        flow.program_name = held.name
        flow._defined = True
        return flow

    def _told(self) -> HeldFlow:
        """The flow as its line tells it."""
        nodes = [
            {"op": node.op, **node.parameters, "from": [_source(place) for place in node.sources]}
            for node in self.nodes
        ]
        names = [node.name for node in self.nodes]
        return HeldFlow(self.program_name, len(self.inputs), nodes, self.name, names)

    def _next_name(self, held: dict[str, HeldFlow]) -> str:
        """The name under which the flow is held already, or the first that is free: its own, or that with a number."""
        name, number = self.name, 1
        while name in held and held[name].difference(self._told()) is not None:
            number += 1
            name = f"{self.name[: 31 - len(str(number))]}_{number}"
        return name

    def _send(self, told: HeldFlow) -> None:
        session = self.session
        name = told.name
        try:
            session.order(told.line(), lambda holder, _: holder.hold_flow(told)).wait("defining a flow")
        except Refused as fault:
            held = session.holdings().flows
            if fault.number == 9 and name in held:
                difference = held[name].difference(told)
                if difference is None:
                    return  # another thread defined the same flow at the same time
                fault.because(
                    f"another flow {name} is held: {difference}; take another name, or session.flow({name!r}, .., "
                    "replace=True)"
                )
            elif fault.number == 9 and len(held) >= MOST_FLOWS:
                fault.because(f"{len(held):,} flows are held, which is all that a session can: begin another session")
            raise

    def _send_kept(self) -> None:
        session = self.session
        while self._kept:
            node, strategies = self._kept.pop(0)  # one that is refused is not sent again
            known = session.holdings().flows.get(self.program_name)
            if known is not None and known.list_of(node.number) == strategies:
                continue
            try:
                session.set_strategies(self.program_name, node.number, strategies)
            except Refused as fault:
                if fault.number == 18:
                    fault.because(_why_unfit(node, strategies))
                raise

    def _node(
        self,
        op: str,
        sources: tuple[Place, ...],
        keep: Keep | None,
        name: str | None,
        *,
        shape_from: Callable[[Shape], Shape] = lambda shape: shape,
        **parameters: Any,
    ) -> Node:
        if self._defined:
            raise BadInput(
                f"the flow {self.name} is defined, and takes no further node: begin another one by session.flow"
            )
        for place in sources:
            if not isinstance(place, (Input, Node)) or place.flow is not self:
                other = isinstance(place, Operand) and place.flow.name == self.name
                raise BadInput(
                    f"{short(place)} is no array of the flow {self.name}"
                    f"{', but of another of that name' if other else ''}: take flow.input(0), or a node of it"
                )
        if name is not None and (not isinstance(name, str) or not 1 <= len(name) <= 64 or not name.isprintable()):
            raise BadInput(f"{short(name)} is no name of a node: a text of 1 to 64 characters that can be shown")
        if name is not None and any(node.name == name for node in self.nodes):
            raise BadInput(f"the flow {self.name} has a node named {name!r} already")
        strategies = None if keep is None else names_of(keep, op)
        node = Node(self, len(self.nodes), op, parameters, sources, shape_from, name)
        self.nodes.append(node)
        if strategies is not None:
            self._kept.append((node, strategies))
        return node


def table(title: str, heads: Sequence[str], rows: Sequence[Sequence[str]]) -> str:
    """A small table in HTML, as a notebook shows it."""

    def row(cells: Sequence[str], tag: str) -> str:
        return "<tr>" + "".join(f"<{tag}>{html.escape(cell)}</{tag}>" for cell in cells) + "</tr>"

    return (
        f"<table><caption>{html.escape(title)}</caption><thead>{row(heads, 'th')}</thead>"
        f"<tbody>{''.join(row(cells, 'td') for cells in rows)}</tbody></table>"
    )


def _count(number: int, what: str) -> str:
    return f"{number:,} {what}{'' if number == 1 else 's'}"


def _place(operand: Operand) -> Place:
    assert isinstance(operand, (Input, Node))
    return operand


def _short_place(place: Place) -> str:
    return str(place) if isinstance(place, Input) else place.name or f"node {place.number}"


def _shape(base: BaseArray | Shape) -> Shape:
    shape = base if isinstance(base, (tuple, list)) else getattr(base, "shape", None)
    if not isinstance(shape, (tuple, list)) or len(shape) not in (2, 3):
        raise BadInput(f"{short(base)} is no base array, and no shape of 2 or 3 axes")
    return tuple(number_of(size, "a size", 1) for size in shape)


def _is_number(value: object) -> TypeGuard[int]:
    return isinstance(value, (int, np.integer)) and not isinstance(value, (bool, np.bool_))


def _bounds(part: slice, size: int | None) -> tuple[int, int]:
    """From where on a slice reaches, and how far. Raises BadInput where that cannot be said, and for no cell."""
    first, last = 0 if part.start is None else part.start, part.stop
    if size is not None:
        first, last, _ = slice(first, last).indices(size)
    elif last is None or first < 0 or last < 0:
        raise BadInput(
            "the shape is not known yet, so a slice needs both bounds, from the beginning: x[0:5, 1:4]; a flow over "
            "arrays knows it: session.flow(name, inputs=[sky])"
        )
    if last <= first:
        raise BadInput(f"the slice from {first} to {last} has no cells")
    return number_of(first, "a bound", 0), number_of(last - first, "a size", 1)


def _why_unfit(node: Node, strategies: list[str]) -> str | None:
    """By which part of the rule a list of strategies is refused."""
    if not strategies:
        return f"{node} got no strategy: one to three of them"
    if len(strategies) > 3:
        return f"{node} got {len(strategies)} strategies: one to three of them"
    for name in strategies:
        if strategies.count(name) > 1:
            return f"{node} got the strategy {name} twice"
        if name == "map" and node.op in WITHOUT_MAPPING:
            return f"{node} cannot be kept by map, which is for all operators but lookup, regions and clean"
        if name.startswith(("pay_", "comp_")) and node.op not in WITHOUT_MAPPING:
            return f"{node} cannot be kept by {name}, which is for lookup, regions and clean alone"
    return None


def _fold(fold: str) -> str:
    if fold not in ("sum", "min", "max", "count"):
        raise BadInput(f"{short(fold)} is no fold: sum, min, max or count")
    return fold


def _source(place: Place) -> dict[str, int]:
    return {"i" if isinstance(place, Input) else "n": place.number}
