"""The page: click a cell, see its lineage in every array.

    page = subzero.view(run)      # a local web page; in a notebook it is shown in place
    print(page.url)               # its link, for a browser on this machine
    page.select(sky, bad)         # select cells from Python
    page.selected                 # what was selected last, a boolean array
    page = subzero.view(change)   # the run that a refresh made, and what changed in it

`python -m subzero view SESSION_OR_LOG` shows a recorded session, or a log.
"""

from __future__ import annotations

import sys
from types import ModuleType
from typing import TYPE_CHECKING, Literal

from ..changes import Change
from .command import command
from .page import Page

if TYPE_CHECKING:
    from ..run import Run

__all__ = ["Page", "command", "show"]


def show(run: Run | Change, *, origin: Literal["upper", "lower"] = "upper", port: int = 0) -> Page:
    """Serve a page over a run, which is waited for; `subzero.view(run)` is the same call. Of a refresh's `Change` it is
    the page over the new run, where the set cells are selected, with buttons for the cells of each node whose values
    changed, and for those that were computed again.

    `origin` says whether row 0 is drawn at the top, or at the bottom; the page can change it. `port` is the port on the
    loopback address, a free one where it is 0. Raises OSError where the port is taken, and BadInput for another origin.

    >>> with subzero.view(run) as page:
    ...     page.select("labels", (0, 1))
    ...     page.url.startswith("http://127.0.0.1:"), page.selected_in, int(page.selected.sum())
    (True, <Node 1 labels of stars: regions (5 and more)>, 1)
    >>> with subzero.view(run.refresh(sky, {(0, 2): 9})) as page:
    ...     page.run, np.argwhere(page.selected).tolist()
    ...     [one["name"] for one in page.state()["offered"]]
    (<Run 2 of stars on sky 2>, [[0, 2]])
    ['changed in clean', 'computed again in clean', 'changed in labels', 'computed again in labels', 'set cells']
    """
    if not isinstance(run, Change):
        return Page(run, origin=origin, port=port)
    page = Page(run.run, origin=origin, port=port)
    for node in run.run.flow.nodes:
        for what, cells in (("changed", run.changed(node)), ("computed again", run.reached(node))):
            if cells.any():
                page.select(node, cells, name=f"{what} in {node.name or node.op}")
    page.select(run.input, run.reached(run.input), name="set cells")
    return page


class _Callable(ModuleType):
    """This module, which is called as `subzero.view(run)`."""

    def __call__(self, run: Run | Change, *, origin: Literal["upper", "lower"] = "upper", port: int = 0) -> Page:
        return show(run, origin=origin, port=port)


sys.modules[__name__].__class__ = _Callable
