"""What tiles refuse that one session would take."""

from __future__ import annotations

from ..faults import BadInput
from ..flow import Node


class CannotTile(BadInput):
    """A flow that tiles cannot answer exactly; `node` is the node at which that is so."""

    def __init__(self, node: Node, why: str) -> None:
        super().__init__(f"{node}: {why}")
        self.node = node
