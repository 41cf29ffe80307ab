"""The steps between two arrays of a flow, gathered into chains that one tile answers at once.

A question goes node by node: the cells found in an array are gathered over all the ways that lead there before it is
left again. So a flow of many paths costs what its nodes cost. Where an array lies on one way alone, its step and the
next are asked in one line.
"""

from __future__ import annotations

from collections.abc import Collection, Sequence
from dataclasses import dataclass

from ..flow import Flow, Node, Place
from ..geometry import CUT


@dataclass(frozen=True)
class Chain:
    """Steps, from `output` back to `base`: each a node and the number of one of its inputs."""

    output: Node
    base: Place
    steps: tuple[tuple[Node, int], ...]


def chains_between(output: Place, targets: Collection[Place], kept: frozenset[int]) -> list[Chain]:
    """The chains of all paths from `output` back to one of `targets`, the last made nodes first."""
    edges = _edges(output, targets)
    into: dict[Place, list[tuple[Node, int]]] = {}
    out: dict[Place, list[tuple[Node, int]]] = {}
    for node, number in edges:
        into.setdefault(node.sources[number], []).append((node, number))
        out.setdefault(node, []).append((node, number))
    chains = []
    for node, number in edges:
        if not _passes(node, output, targets, kept, into, out):
            steps = [(node, number)]
            while _passes(_end(steps), output, targets, kept, into, out):
                steps.append(out[_end(steps)][0])
            chains.append(_chain(steps))
    return sorted(chains, key=lambda chain: -chain.output.number)


def chains_along(path: Sequence[tuple[Node, int]], kept: frozenset[int]) -> list[Chain]:
    """One path, from its output back, cut into chains."""
    chains: list[Chain] = []
    steps: list[tuple[Node, int]] = []
    for node, number in path:
        if steps and (node.number in kept or steps[-1][0].op == CUT):
            chains.append(_chain(steps))
            steps = []
        steps.append((node, number))
    return [*chains, _chain(steps)]


def _chain(steps: list[tuple[Node, int]]) -> Chain:
    return Chain(steps[0][0], _end(steps), tuple(steps))


def _end(steps: list[tuple[Node, int]]) -> Place:
    node, number = steps[-1]
    return node.sources[number]


def _edges(output: Place, targets: Collection[Place]) -> list[tuple[Node, int]]:
    """The steps that lie on a path from `output` back to a target."""
    if not isinstance(output, Node):
        return []
    flow: Flow = output.flow
    leads: set[Place] = set(targets)
    for node in flow.nodes:
        if any(source in leads for source in node.sources):
            leads.add(node)
    reached: set[Place] = {output}
    edges = []
    for node in reversed(flow.nodes[: output.number + 1]):
        if node in reached and (node is output or node not in targets):
            for number, source in enumerate(node.sources):
                if source in leads:
                    reached.add(source)
                    edges.append((node, number))
    return edges


def _passes(
    place: Place,
    output: Place,
    targets: Collection[Place],
    kept: frozenset[int],
    into: dict[Place, list[tuple[Node, int]]],
    out: dict[Place, list[tuple[Node, int]]],
) -> bool:
    """Whether an array lies on one way alone, and within a stage."""
    return (
        isinstance(place, Node)
        and place.number not in kept
        and place is not output
        and place not in targets
        and len(into.get(place, ())) == 1
        and into[place][0][0].op != CUT
        and len(out.get(place, ())) == 1
    )
