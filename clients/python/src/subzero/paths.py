"""The paths of a flow between two of its arrays."""

from __future__ import annotations

from collections.abc import Collection, Sequence
from typing import TypeAlias

from .faults import BadInput, TooManyPaths
from .flow import Flow, Input, Node, Place

Path: TypeAlias = tuple[tuple[int, int], ...]
"""Steps from an output back to what it was made of: each a node's number and the number of one of its inputs."""


def paths_between(output: Place, targets: Collection[Place], limit: int) -> list[Path]:
    """All paths from `output` back to one of `targets`, arrays of its flow, shorter steps first taken by input number.

    Raises TooManyPaths where there are more than `limit`, without making them.
    """
    counts = _counts(output, targets)
    if counts[output] > limit:
        raise TooManyPaths(counts[output], limit)
    paths: list[Path] = []

    def follow(place: Place, steps: Path) -> None:
        if place in targets and steps:
            paths.append(steps)
        if isinstance(place, Node):
            for number, source in enumerate(place.sources):
                if counts[source]:
                    follow(source, (*steps, (place.number, number)))

    follow(output, ())
    return paths


def _counts(output: Place, targets: Collection[Place]) -> dict[Place, int]:
    """For each array of the flow how many paths lead from it to a target; a target itself counts one, the output its
    steps alone.
    """
    counts: dict[Place, int] = {place: int(place in targets) for place in output.flow.inputs}
    for node in output.flow.nodes:
        counts[node] = int(node in targets and node is not output) + sum(counts[source] for source in node.sources)
    return counts


def places_between(flow: Flow, outputs: Collection[Place], bases: Collection[Place]) -> list[Place]:
    """The arrays on the paths of at least one step from `outputs` back to `bases`, with both their ends, in the order
    of the flow; none where there is no path.
    """
    order: list[Place] = [*flow.inputs, *flow.nodes]
    above: set[Place] = set()
    for place in order:
        if place in bases or any(source in above for source in sources_of(place)):
            above.add(place)
    below: set[Place] = set(outputs)
    for node in reversed(flow.nodes):
        if node in below:
            below.update(node.sources)
    chain = [place for place in order if place in above and place in below]
    return chain if any(source in chain for place in chain for source in sources_of(place)) else []


def sources_of(place: Place) -> tuple[Place, ...]:
    """What an array of a flow is made of: nothing for a base array."""
    return place.sources if isinstance(place, Node) else ()


def path_of(flow: Flow, steps: Sequence[Sequence[int | Node]]) -> tuple[Path, Place]:
    """The path that the caller names, nodes given by themselves or by number, and the array to which it leads back.

    Raises BadInput where it is empty or not joined.
    """
    path: list[tuple[int, int]] = []
    reached: Place | None = None
    for step in steps:
        node, number = step
        at = flow.nodes[node] if isinstance(node, int) and 0 <= node < len(flow.nodes) else node
        if not isinstance(at, Node) or at.flow is not flow:
            raise BadInput(f"{node} is no node of the flow {flow.name}")
        if reached is not None and reached is not at:
            raise BadInput(f"the path is not joined: it leads to {reached}, and goes on at {at}")
        if not isinstance(number, int) or not 0 <= number < len(at.sources):
            raise BadInput(f"{at} has no input {number}")
        path.append((at.number, number))
        reached = at.sources[number]
    if reached is None:
        raise BadInput("the path has no step")
    return tuple(path), reached


def told(flow: Flow, path: Path) -> str:
    """A path in words: the operators from the output back, and where it ends."""
    last = flow.nodes[path[-1][0]].sources[path[-1][1]]
    end = f"input {last.number}" if isinstance(last, Input) else last.op
    return " < ".join([*(flow.nodes[node].op for node, _ in path), end])
