"""Pictures, and the demo that makes the tutorial's."""

from __future__ import annotations

import io
import os
import re
import subprocess
import sys
import tempfile
import unittest
from pathlib import Path
from typing import Any
from unittest import mock

import numpy as np
from numpy.typing import NDArray

import subzero

try:
    import matplotlib

    matplotlib.use("Agg")
    import matplotlib.pyplot as plt
    from matplotlib.axes import Axes
    from matplotlib.figure import Figure
    from matplotlib.patches import FancyArrowPatch
    from matplotlib.transforms import Bbox
    from subzero import layout, plot
except ImportError:
    matplotlib = None

ROOT = Path(__file__).resolve().parents[3]
TUTORIAL = ROOT / "docs" / "TUTORIAL.md"
PICTURES = ROOT / "docs" / "pictures"


def titles(figure: Figure) -> list[str]:
    """The titles of the arrays in a picture of lineage, sorted."""
    return sorted(text.get_text() for text in figure.texts if text is not figure._suptitle)


def arrows(figure: Figure) -> list[NDArray[Any]]:
    """The points of each arrow, in pixels, many on each curve."""
    figure.canvas.draw()
    found = [artist for artist in figure.artists if type(artist) is FancyArrowPatch]
    paths = [arrow.get_transform().transform_path(arrow._path_original) for arrow in found]
    return [path.interpolated(1).to_polygons(closed_only=False)[0] for path in paths]


def boxes(figure: Figure) -> tuple[list[Bbox], list[Bbox]]:
    """Where the texts above panels, and the panels with their numbers, stand in pixels."""
    figure.canvas.draw()
    texts = [text.get_window_extent() for text in figure.texts]
    return texts, [axes.get_window_extent() for axes in figure.axes]


@unittest.skipIf(matplotlib is None, "matplotlib is not here")
class Demo(unittest.TestCase):
    def test_it_makes_the_pictures_of_the_tutorial(self) -> None:
        with tempfile.TemporaryDirectory() as folder:
            environment = {**os.environ, "PYTHONPATH": str(Path(subzero.__file__).parents[1])}
            words = [sys.executable, "-m", "subzero.demo", folder]
            subprocess.run(words, check=True, capture_output=True, env=environment)
            made = sorted(os.listdir(folder))
            shown = set(re.findall(r"\(pictures/(.*?)\)", TUTORIAL.read_text())) | {*os.listdir(PICTURES)}
            self.assertEqual(made, sorted(name for name in shown if not name.startswith("page-")))  # a browser's
            for name in made:
                with self.subTest(name=name):
                    new, kept = plt.imread(Path(folder) / name), plt.imread(PICTURES / name)
                    self.assertEqual(new.shape, kept.shape)
                    self.assertLess((PICTURES / name).stat().st_size, 150_000)
                    # fonts differ between machines, and the pictures do not
                    self.assertLess(np.mean(np.abs(new - kept).max(axis=2) > 0.2), 0.05)


@unittest.skipIf(matplotlib is None, "matplotlib is not here")
class Lineage(unittest.TestCase):
    def setUp(self) -> None:
        self.session = subzero.Session()
        self.addCleanup(self.session.close)

    def branched(self) -> tuple[subzero.Run, subzero.BaseArray, subzero.Node]:
        """A run of a flow in which an array is taken three columns further on."""
        sky = self.session.array("sky", np.arange(48).reshape(6, 8))
        limit = self.session.array("limit", np.full((6, 8), 20))
        flow = self.session.flow("f", inputs=2)
        left = flow.convolve(flow.input(0), [[1, 0, 0]])
        right = flow.convolve(flow.input(0), [[0, 0, 1]])
        flow.neg(left)
        total = flow.sub(flow.add(flow.mul_k(left, 3), right), flow.input(0))
        last = flow.block(flow.min(flow.add(total, left), flow.input(1)), "sum", 2, 2)
        return self.session.start(flow, [sky, limit]), sky, last

    def test_it_shows_the_arrays_between_with_their_cells(self) -> None:
        run, sky, last = self.branched()
        self.assertEqual(
            titles(plot.lineage(run, last, (0, 1))),
            sorted(
                [
                    "sky\n8 of 48 cells",
                    "limit\n4 of 48 cells",
                    "convolve (1 by 3)\n4 of 48 cells",
                    "convolve (1 by 3)\n4 of 48 cells",
                    "mul_k (times 3)\n4 of 48 cells",
                    "add\n4 of 48 cells",
                    "sub\n4 of 48 cells",
                    "add\n4 of 48 cells",
                    "min\n4 of 48 cells",
                    "block (sum of 2 by 2)\n1 of 12 cells",
                ]
            ),
        )
        left = run.flow.nodes[0]
        drawn = plot.lineage(run, sky, [(0, 1), (5, 7)], to=left, direction="forward")
        self.assertEqual(titles(drawn), ["convolve (1 by 3)\n1 of 48 cells", "sky\n2 of 48 cells"])

    def test_texts_and_panels_do_not_overlap(self) -> None:
        run, _, last = self.branched()
        for zoom in (False, True):
            texts, panels = boxes(plot.lineage(run, last, [(0, 0), (2, 3)], zoom=zoom))
            for box in texts:
                others = [other for other in [*texts, *panels] if other is not box]
                self.assertFalse(any(box.overlaps(other) for other in others))
            for box in panels:
                self.assertFalse(any(box.overlaps(other) for other in panels if other is not box))

    def test_arrows_run_beside_panels_and_texts(self) -> None:
        run, sky, last = self.branched()
        drawn = plot.lineage(run, last, (0, 1))
        lines = arrows(drawn)
        self.assertEqual(len(lines), 12)
        texts, panels = boxes(drawn)
        for points in lines:
            for box in [*texts, *panels]:
                inside = (points > box.min).all(axis=1) & (points < box.max).all(axis=1)
                self.assertFalse(inside.any(), box)

    def test_suspects_and_supports_are_drawn(self) -> None:
        sky = self.session.array("sky", [[9, 0, 9]])
        flow = self.session.flow("f")
        labels = flow.regions(flow.input(0), t=5)
        run = self.session.start(flow, [sky])
        drawn = plot.lineage(run, sky, (0, 1), to=labels, direction="forward", supports=True)
        self.assertEqual(titles(drawn), ["regions (5 and more)\n3 of 3 cells", "sky\n1 of 3 cells"])
        self.assertEqual(drawn._suptitle.get_text(), "Lineage: what the blue cells could change")
        drawn = plot.lineage(run, labels, (0, 0), supports=True)
        self.assertEqual(titles(drawn), ["regions (5 and more)\n1 of 3 cells", "sky\n2 of 3 cells"])

    def test_a_cube_shows_the_layers_that_have_cells_and_says_which(self) -> None:
        image: Any = np.ma.MaskedArray(np.arange(8000).reshape(5, 40, 40), False)
        image[0, 3] = np.ma.masked
        cube = self.session.array("cube", image)
        flow = self.session.flow("f")
        labels = flow.regions(flow.input(0), t=3000)
        flat = flow.fold_layers(labels, "max")
        run = self.session.start(flow, [cube])
        drawn = plot.lineage(run, cube, [(1, 0, 0), (3, 7, 7)], to=labels, direction="forward")
        shown = [axes.get_title() for axes in drawn.axes]
        self.assertEqual(shown, ["layer 1 of 0 to 4", "layer 3 of 0 to 4"] * 2)
        drawn = plot.lineage(run, flat, (1, 1), zoom=True)
        self.assertEqual(titles(drawn)[0], "cube\n4,802 of 8,000 cells\nalso in layers 3, 4")
        self.assertEqual([axes.get_title() for axes in drawn.axes][:3:2], ["layer 0 of 0 to 4", "layer 1 of 0 to 4"])
        drawn = plot.lineage(run, flat, (1, 1), most_layers=5)
        self.assertEqual(len(drawn.axes), 11)
        drawn.savefig(io.BytesIO())

    def test_row_0_is_at_the_bottom_where_asked_for(self) -> None:
        run, sky, last = self.branched()
        origins: list[tuple[plot.Origin, bool]] = [("upper", False), ("lower", True)]
        for origin, lower in origins:
            drawn = plot.lineage(run, last, (0, 1), to=sky, zoom=True, origin=origin)
            self.assertEqual({axes.get_ylim()[0] < axes.get_ylim()[1] for axes in drawn.axes}, {lower})

    def test_arrays_of_one_row_or_column_are_drawn(self) -> None:
        table = self.session.array("table", np.arange(300).reshape(1, 300))
        flow = self.session.flow("f")
        last = flow.transpose(flow.input(0))
        run = self.session.start(flow, [table])
        drawn = plot.lineage(run, last, (7, 0), zoom=True)
        sizes = [axes.get_window_extent().size / drawn.dpi for axes in drawn.axes]
        self.assertTrue(all((size >= 0.119).all() and (size <= 2.31).all() for size in sizes))

    def test_figures_that_are_not_shown_are_not_held(self) -> None:
        plt.close("all")
        run, _, last = self.branched()
        for _ in range(3):
            plot.lineage(run, last, (0, 1)).savefig(io.BytesIO())
        self.assertEqual(plt.get_fignums(), [])
        with mock.patch.object(plt, "get_backend", return_value="TkAgg"):  # where windows are
            plot.lineage(run, last, (0, 1))
        self.assertEqual(len(plt.get_fignums()), 1)
        plt.close("all")


@unittest.skipIf(matplotlib is None, "matplotlib is not here")
class Images(unittest.TestCase):
    def axes(self) -> Axes:
        return plot.figure(3, 3).subplots()

    def test_empty_arrays_and_labels_are_drawn(self) -> None:
        plot.image(self.axes(), np.ma.masked_all((2, 2), dtype=int))
        axes = self.axes()
        plot.image(axes, np.array([[0, 5], [9, 5]]), labels=True)
        self.assertEqual(axes.images[0].get_array().tolist(), [[0, 1], [2, 1]])
        axes.figure.savefig(io.BytesIO())

    def test_of_a_cube_one_layer_is_drawn_and_named(self) -> None:
        cube = np.arange(24).reshape(2, 3, 4)
        marked = np.zeros(cube.shape, dtype=bool)
        marked[1, 2, 3] = True
        cases: list[tuple[dict[str, Any], int]] = [({}, 0), ({"layer": 1}, 1)]
        cases += [({"marked": marked}, 1), ({"marked": marked, "layer": 0}, 0)]
        for given, layer in cases:
            axes = self.axes()
            plot.image(axes, cube, title="cube", **given)
            self.assertEqual(axes.get_title(), f"cube\nlayer {layer} of 0 to 1")
            self.assertEqual(axes.images[0].get_array().tolist(), cube[layer].tolist())
            edges = len(axes.collections[0].get_segments()) if axes.collections else 0
            self.assertEqual(edges, 4 if "marked" in given and layer == 1 else 0)

    def test_origin(self) -> None:
        origins: list[tuple[plot.Origin, tuple[float, float]]] = [("upper", (1.5, -0.5)), ("lower", (-0.5, 1.5))]
        for origin, limits in origins:
            axes = self.axes()
            plot.image(axes, np.array([[1, 2], [3, 4]]), marked=np.eye(2, dtype=bool), origin=origin)
            self.assertEqual(axes.get_ylim(), limits)

    def test_edges_go_round_the_cells(self) -> None:
        mask = np.array([[True, True], [False, True]])
        self.assertEqual(len(plot._edges(mask)), 8)


@unittest.skipIf(matplotlib is None, "matplotlib is not here")
class Layout(unittest.TestCase):
    def test_a_chain_stands_in_a_row(self) -> None:
        page = layout.columns({"a": (2, 3), "b": (2, 1)}, [("a", "b")])
        self.assertEqual(page.corners, {"a": (0, 0), "b": (2 + layout.BETWEEN, 0)})
        self.assertEqual((page.width, page.height), (4 + layout.BETWEEN, 3))

    def test_a_line_that_passes_a_column_has_a_strip_of_it(self) -> None:
        page = layout.columns({"a": (2, 2), "b": (2, 2), "c": (2, 2)}, [("a", "b"), ("b", "c"), ("a", "c")])
        self.assertEqual(page.height, 2 + layout.STRIP)
        top = page.corners["b"][1]
        (_, entered), (_, left) = page.lines[2][1:3]
        self.assertEqual(entered, left)
        self.assertTrue(left < top or left > top + 2)

    def test_what_takes_nothing_stands_beside_what_takes_it(self) -> None:
        page = layout.columns(
            {"a": (1, 1), "b": (1, 1), "t": (1, 1), "c": (1, 1)}, [("a", "b"), ("b", "c"), ("t", "c")]
        )
        self.assertEqual(page.corners["t"][0], page.corners["b"][0])


if __name__ == "__main__":
    unittest.main()
