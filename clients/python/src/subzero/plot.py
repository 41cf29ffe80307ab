"""Pictures of arrays and of lineage, by matplotlib."""

from __future__ import annotations

import textwrap
from collections.abc import Sequence
from typing import TYPE_CHECKING, Any, Literal, TypeAlias

import matplotlib.pyplot as plt
import numpy as np
from matplotlib.axes import Axes
from matplotlib.backends.backend_agg import FigureCanvasAgg
from matplotlib.collections import LineCollection
from matplotlib.colors import ListedColormap, to_rgba
from matplotlib.figure import Figure
from matplotlib.patches import ConnectionPatch, FancyArrowPatch, Patch, Rectangle
from numpy.typing import NDArray

from . import layout
from .cells import Cells, Mask, Shape, cells_of
from .flow import Input, Node, Place
from .spread import masks_between

if TYPE_CHECKING:
    from .run import Array, Direction, Run

Origin: TypeAlias = Literal["upper", "lower"]

ASKED, FOUND, EMPTY, NEAR = "#00b4d8", "#ff8c1a", "#c9b8e8", "#d4b106"
_LABELS = plt.get_cmap("tab20").colors
_GROUND = (0.13, 0.13, 0.16)
_SILENT = frozenset("agg cairo pdf pgf ps svg template".split())
_WIDE, _LEAST, _GAP = 2.3, 0.12, 0.36
"""Inches: the greatest width and height of a panel, the least ones, and what is left between two of them."""


def figure(width: float, height: float) -> Figure:
    """A new figure of these inches.

    Where matplotlib shows figures in windows, `plt.show()` shows it, and `plt.close` closes it. Elsewhere (in scripts
    that write files, and in notebooks) pyplot does not hold it: it goes when nobody has it any more.
    """
    backend = plt.get_backend().lower()
    if backend not in _SILENT and "inline" not in backend:
        return plt.figure(figsize=(width, height))
    made = Figure(figsize=(width, height))
    FigureCanvasAgg(made)
    return made


def image(
    axes: Axes,
    values: NDArray[Any],
    *,
    title: str = "",
    labels: bool = False,
    marked: Mask | None = None,
    colour: str = FOUND,
    layer: int | None = None,
    origin: Origin = "upper",
) -> None:
    """Draw an array's values, of 2 axes or one layer of 3: grey from low to high, empty cells violet.

    Where `labels`, each value above 0 has a colour of its own, or a grey of its own where something is marked.
    `marked`, boolean of the same shape, is drawn over it in `colour`. Of an array of 3 axes the `layer` is drawn, else
    the first that has marks, else layer 0; the title says which. With `origin` "lower" row 0 is at the bottom, as is
    usual of images of the sky.
    """
    if values.ndim == 3:
        layer = (_layers_of(marked) if marked is not None else [0])[0] if layer is None else layer
        title = "\n".join(filter(None, [title, _layer_told(layer, values.shape)]))
        marked = None if marked is None else marked[layer]
        values = values[layer]
    flat = np.ma.asarray(values)
    shown, table, low, high = _coloured(flat, marked is None) if labels else _grey(flat)
    table.set_bad(EMPTY)
    axes.imshow(shown, cmap=table, vmin=low, vmax=high, interpolation="nearest", origin=origin)
    axes.set_title(title, fontsize=10)
    axes.tick_params(labelsize=7)
    axes.locator_params(integer=True)
    if marked is not None:
        mark(axes, marked, colour, origin=origin)


def mark(axes: Axes, mask: Mask, colour: str, *, filled: bool = True, origin: Origin = "upper") -> None:
    """Draw the cells of a boolean array of 2 axes over a picture: each filled half through, and an edge round all.

    `origin` is that of the picture.
    """
    if filled:
        paint = np.zeros((*mask.shape, 4))
        paint[mask] = to_rgba(colour, 0.5)
        axes.imshow(paint, interpolation="nearest", origin=origin)
    axes.add_collection(LineCollection(_edges(mask), colors=colour, linewidths=1.4))


def lineage(
    run: Run,
    array: Array,
    cells: Cells,
    *,
    to: Array | None = None,
    direction: Direction = "back",
    supports: bool = False,
    zoom: bool = False,
    title: str | None = None,
    origin: Origin = "upper",
    most_layers: int = 3,
) -> Figure:
    """The chain of arrays from these cells of `array` to `to`, each with the cells that the lineage has in it.

    `direction` is "back", towards what the cells were made of (to all base arrays where no `to` is given), or
    "forward", to what they touched (to the last node). With `supports` it is what fixes the cells' values, or what the
    cells could change, as `Run.support` and `Run.suspects` give it. The arrays stand in columns, each right of what it
    takes, with an arrow for each step; the asked cells are blue, those that are found orange. An array of 3 axes shows
    the layers that have such cells, at most `most_layers`, and says which. With `zoom`, the cells' surroundings are
    shown once more below each array. With `origin` "lower" row 0 is at the bottom.
    """
    if to is None:
        ends: list[Array] = list(run.flow.inputs) if direction == "back" else [run.flow.nodes[-1]]
    else:
        ends = [to]
    asked = cells_of(cells, run.shape(array))
    masks = masks_between(run, direction, array, asked, ends, supports=supports)
    starts = run.places(array)
    groups = {
        place: _Group(run, place, mask, ASKED if place in starts else FOUND, zoom, most_layers)
        for place, mask in masks.items()
    }
    page = layout.columns(
        {place: (_WIDE, group.height) for place, group in groups.items()},
        [(source, place) for place in groups for source in _sources(place) if source in groups],
    )
    drawn = figure(max(page.width + 0.75, 6.4), page.height + 1.25)
    for place, (left, top) in page.corners.items():
        groups[place].draw(drawn, left + 0.5, drawn.get_figheight() - 0.7 - top, origin)
    for line in page.lines:
        _arrow(drawn, [(left + 0.5, drawn.get_figheight() - 0.7 - top) for left, top in line])
    drawn.suptitle(title or f"Lineage: {_told(direction, supports)}", fontsize=12, y=1 - 0.1 / drawn.get_figheight())
    _legend(drawn, any(group.labels for group in groups.values()))
    return drawn


class _Group:
    """An array in a picture of lineage: its title, and a panel for each layer that is shown."""

    def __init__(self, run: Run, place: Place, mask: Mask, colour: str, zoom: bool, most_layers: int) -> None:
        self.values, self.mask, self.colour = run.values(place), mask, colour
        self.labels = isinstance(place, Node) and _is_labelled(place)
        name = run.base[place.number].name if isinstance(place, Input) else place.label
        if isinstance(place, Node) and place.name:
            name = f"{place.name}: {name}"
        self.title = [*textwrap.wrap(name, 30), f"{mask.sum():,} of {mask.size:,} cells"]
        found: list[int | None] = [*_layers_of(mask)] if mask.ndim == 3 else [None]
        self.layers, left_out = found[:most_layers], found[most_layers:]
        if left_out:
            self.title.append(
                textwrap.shorten(f"also in layers {', '.join(map(str, left_out))}", 34, placeholder=" ..")
            )
        self.parts: list[tuple[int | None, list[tuple[float, float]] | None, float, float]] = []
        for layer in self.layers:
            flat = mask if layer is None else mask[layer]
            self.parts.append((layer, None, *_fit(flat.shape)))
            if zoom and (spans := _surroundings(flat)) is not None:
                self.parts.append((layer, spans, *_fit((spans[0][1] - spans[0][0], spans[1][1] - spans[1][0]))))
        self.heading = 0.17 * len(self.title) + 0.06
        told = 0.17 * len([part for part in self.parts if part[0] is not None and part[1] is None])
        self.height = self.heading + told + sum(part[3] for part in self.parts) + _GAP * len(self.parts)

    def draw(self, drawn: Figure, left: float, top: float, origin: Origin) -> None:
        """Draw it with its upper left corner there, inches from the lower left one of the figure."""
        wide, high = drawn.get_size_inches()
        drawn.text((left + _WIDE / 2) / wide, top / high, "\n".join(self.title), ha="center", va="top", fontsize=9.5)
        top -= self.heading
        whole: Axes | None = None
        for layer, spans, width, height in self.parts:
            if layer is not None and spans is None:
                top -= 0.17
            place = ((left + (_WIDE - width) / 2) / wide, (top - height) / high, width / wide, height / high)
            axes = drawn.add_axes(place)
            image(
                axes, self.values, labels=self.labels, marked=self.mask, colour=self.colour, layer=layer, origin=origin
            )
            axes.set_aspect("auto")
            axes.set_title(
                "" if layer is None or spans is not None else _layer_told(layer, self.mask.shape), fontsize=8.5, pad=3
            )
            if spans is None:
                whole = axes
            elif whole is not None:
                _zoom(axes, whole, spans, origin)
            top -= height + _GAP


def _fit(shape: Sequence[float]) -> tuple[float, float]:
    """The width and height, in inches, of a panel of so many rows and columns."""
    scale = min(_WIDE / shape[1], _WIDE / shape[0])
    return max(_LEAST, scale * shape[1]), max(_LEAST, scale * shape[0])


def _layers_of(mask: Mask) -> list[int]:
    """The layers that have marks, else layer 0."""
    return np.flatnonzero(mask.any(axis=(1, 2))).tolist() or [0]


def _layer_told(layer: int, shape: Shape) -> str:
    return f"layer {layer} of 0 to {shape[0] - 1}"


def _grey(flat: np.ma.MaskedArray[Any, Any]) -> tuple[Any, Any, float, float]:
    """What is shown of values, and by which colours, from where to where: grey, but for the lowest and highest."""
    table = plt.get_cmap("gray").copy()
    there = flat.compressed()
    low, high = (np.percentile(there, 1), np.percentile(there, 99)) if there.size else (0, 1)
    if high <= low:
        low, high = (int(there.min()), int(there.max()) + 1) if there.size else (0, 1)
    return flat, table, low, high


def _coloured(flat: np.ma.MaskedArray[Any, Any], bright: bool) -> tuple[Any, Any, float, float]:
    """The same of labels: each in the order of their numbers, in colours, or in greys where they are not `bright`."""
    _, order = np.unique(flat.filled(0), return_inverse=True)
    shown: Any = np.ma.MaskedArray(order.reshape(flat.shape), np.ma.getmaskarray(flat))
    greys = [(0.42 + 0.05 * (number * 3 % 7),) * 3 for number in range(20)]
    colours = [_GROUND, *((_LABELS if bright else greys)[number % 20] for number in range(int(order.max())))]
    return shown, ListedColormap(colours), -0.5, len(colours) - 0.5


def _told(direction: Direction, supports: bool) -> str:
    if direction == "back":
        return "what fixes the blue cells' values" if supports else "what the blue cells were made of"
    return "what the blue cells could change" if supports else "what the blue cells touched"


def _legend(drawn: Figure, labels: bool) -> None:
    keys = [(ASKED, "asked cells"), (FOUND, "found"), (EMPTY, "empty cells")]
    if labels:
        keys.append(("#909090", "regions, a grey each"))
    patches = [Patch(color=colour, label=text) for colour, text in keys]
    drawn.legend(handles=patches, loc="lower center", ncol=len(keys), fontsize=9, frameon=False)


def _arrow(drawn: Figure, points: list[tuple[float, float]]) -> None:
    """An arrow through these points of the figure, in inches, level at each of them."""
    drawn.add_artist(
        FancyArrowPatch(
            path=layout.curve(points),
            transform=drawn.dpi_scale_trans,
            arrowstyle="-|>",
            mutation_scale=11,
            lw=1.3,
            color="#303030",
        )
    )


def _sources(place: Place) -> tuple[Place, ...]:
    return tuple(dict.fromkeys(place.sources)) if isinstance(place, Node) else ()


def _is_labelled(node: Node) -> bool:
    """Whether a node's values are labels of regions, which a slice, a transpose or the greatest of blocks keep so."""
    if node.op in ("slice", "transpose") or (node.op == "block" and node.parameters["fold"] in ("min", "max")):
        source = node.sources[0]
        return isinstance(source, Node) and _is_labelled(source)
    return node.op == "regions"


def _surroundings(flat: Mask) -> list[tuple[float, float]] | None:
    """From where to where the surroundings of a mask's cells reach, in rows and in columns; None for no cell, and for
    the whole.
    """
    if not flat.any():
        return None
    spans = []
    for axis, size in ((1, flat.shape[0]), (0, flat.shape[1])):
        found = np.flatnonzero(flat.any(axis=axis))
        wide = min(size, max(found[-1] - found[0] + 1, 9) + 4)
        first = min(max(0, (found[0] + found[-1] + 1 - wide) // 2), size - wide)
        spans.append((first - 0.5, first + wide - 0.5))
    return None if spans == [(-0.5, size - 0.5) for size in flat.shape] else spans


def _zoom(near: Axes, whole: Axes, spans: list[tuple[float, float]], origin: Origin) -> None:
    """Show these rows and columns alone in `near`, and in `whole` where they lie."""
    (top, bottom), (left, right) = spans
    near.set_xlim(left, right)
    near.set_ylim(*((bottom, top) if origin == "upper" else (top, bottom)))
    near.locator_params(integer=True, nbins=6)
    whole.add_patch(Rectangle((left, top), right - left, bottom - top, fill=False, edgecolor=NEAR, linewidth=1.2))
    low = bottom if origin == "upper" else top
    for corner, end in (((left, low), (0, 1)), ((right, low), (1, 1))):
        line = ConnectionPatch(corner, end, "data", "axes fraction", axesA=whole, axesB=near, color=NEAR, lw=0.8)
        whole.figure.add_artist(line)
    for spine in near.spines.values():
        spine.set_edgecolor(NEAR)


def _edges(mask: Mask) -> NDArray[np.float64]:
    """The line pieces round the cells of a mask: of shape (N, 2, 2), each two points (column, row)."""
    wide = np.pad(mask, 1)
    rows, cols = np.nonzero(wide[1:, 1:-1] != wide[:-1, 1:-1])
    flat = np.stack([np.stack([cols, cols + 1], axis=1), np.stack([rows, rows], axis=1)], axis=2)
    rows, cols = np.nonzero(wide[1:-1, 1:] != wide[1:-1, :-1])
    steep = np.stack([np.stack([cols, cols], axis=1), np.stack([rows, rows + 1], axis=1)], axis=2)
    pieces: NDArray[np.float64] = np.concatenate([flat, steep]) - 0.5
    return pieces
