"""The tutorial's pictures of its star field."""

from __future__ import annotations

from collections.abc import Iterator

import numpy as np
from matplotlib.figure import Figure
from matplotlib.patches import Patch

from . import plot
from .catalogue import suspects_table
from .demo import Field
from .flow import Node
from .run import Array, Run
from .session import BaseArray

_TRUSTED, _BESIDE, _RESTING, _BAD = "#3fa34d", "#f2d024", "#ff8c1a", "#e63946"


def all_of(
    seen: Field, run: Run, sky: BaseArray, clean: Node, smooth: Node, labels: Node, bins: Node
) -> Iterator[tuple[str, Figure]]:
    """Each picture's file name and figure."""
    yield "field.png", field(seen)
    yield "steps.png", steps(run, sky, clean, smooth, labels, bins)
    yield "suspects.png", suspects(seen, run, sky, labels)
    title = "Which raw pixels stand behind one cell of the binned image?"
    yield "back.png", plot.lineage(run, bins, (4, 6), to=sky, zoom=True, title=title)
    hot, title = np.argwhere(seen.hot)[:1], "What did one hot pixel touch?"
    yield "touched.png", plot.lineage(run, sky, hot, to=bins, direction="forward", zoom=True, title=title)
    dead, title = np.argwhere(seen.dead)[31:32], "What could one dead pixel change?"
    yield "changed.png", plot.lineage(
        run, sky, dead, to=labels, direction="forward", supports=True, zoom=True, title=title
    )


def field(seen: Field) -> Figure:
    """The raw image, with what is wrong in it pointed out."""
    drawn = plot.figure(6.4, 6.2)
    axes = drawn.subplots()
    drawn.subplots_adjust(left=0.09, right=0.98, top=0.95, bottom=0.08)
    plot.image(axes, seen.image, title="The raw image, 64 by 64 pixels")
    plot.mark(axes, seen.bad, _BAD, filled=False)
    for text, at, where in (
        ("hot pixel", (25, 18), (33.5, 24)),
        ("hot pixel", (20, 36), (3, 37)),
        ("track of a cosmic ray", (41, 50), (44, 47)),
        ("track of a cosmic ray", (50, 8), (34, 4)),
        ("dead column: no values", (31, 61), (34, 62)),
        ("a star", (9, 8), (14, 8)),
    ):
        axes.annotate(
            text,
            at,
            where,
            color="white",
            fontsize=10,
            va="center",
            arrowprops={"arrowstyle": "->", "color": "white", "lw": 1.2},
        )
    axes.set_xlabel("column")
    axes.set_ylabel("row")
    return drawn


def steps(run: Run, sky: BaseArray, clean: Node, smooth: Node, labels: Node, bins: Node) -> Figure:
    """The values of each array of the flow."""
    drawn = plot.figure(13.2, 3.2)
    panels = drawn.subplots(1, 5)
    drawn.subplots_adjust(left=0.025, right=0.99, top=0.9, bottom=0.14, wspace=0.15)
    told = (
        "1. sky: as it was taken",
        "2. clean: hot cells replaced",
        "3. convolve: smoothed",
        "4. regions: one colour a star",
        "5. block: binned 4 by 4",
    )
    arrays: list[Array] = [sky, clean, smooth, labels, bins]
    for axes, array, title in zip(panels, arrays, told):
        plot.image(axes, run.values(array), title=title, labels=array in (labels, bins))
    drawn.legend(handles=[Patch(color=plot.EMPTY, label="empty cells")], loc="lower center", fontsize=9, frameon=False)
    return drawn


def suspects(seen: Field, run: Run, sky: BaseArray, labels: Node) -> Figure:
    """The stars: those that rest on a bad pixel, and those that could be others for what is beside them, in colours."""
    found = run.values(labels).filled(0)
    table = suspects_table(run, labels, seen.bad, sky)
    resting = np.isin(found, table["label"][table["bad_behind"] > 0])
    beside = np.isin(found, table["label"][(table["bad_behind"] == 0) & (table["bad_could_change"] > 0)])
    drawn = plot.figure(6.4, 7.2)
    axes = drawn.subplots()
    drawn.subplots_adjust(left=0.09, right=0.97, top=0.95, bottom=0.19)
    plot.image(axes, seen.image, title="Which stars could be others, had the bad pixels other values?")
    plot.mark(axes, (found > 0) & ~resting & ~beside, _TRUSTED)
    plot.mark(axes, beside, _BESIDE)
    plot.mark(axes, resting, _RESTING)
    plot.mark(axes, seen.bad, _BAD, filled=False)
    keys = (
        (_TRUSTED, "stars that no bad pixel can change"),
        (_BESIDE, "stars beside a bad pixel, that it could change"),
        (_RESTING, "stars that rest on a bad pixel"),
        (_BAD, "bad pixels: hot ones, tracks, a dead column"),
    )
    patches = [Patch(color=colour, label=text) for colour, text in keys]
    drawn.legend(handles=patches, loc="lower center", ncol=1, fontsize=10, frameon=False)
    axes.set_xlabel("column")
    axes.set_ylabel("row")
    return drawn
