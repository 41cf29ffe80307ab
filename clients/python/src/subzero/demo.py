"""The tutorial's star field and pictures: `python -m subzero.demo [FOLDER]` writes them, into `pictures` where none is
named.
"""

from __future__ import annotations

import argparse
from dataclasses import dataclass
from pathlib import Path

import numpy as np

from .cells import Mask, Values
from .flow import Flow, Node
from .run import Run
from .session import BaseArray, Session

SIDE = 64
KERNEL = [[1, 2, 1], [2, 4, 2], [1, 2, 1]]
HOT = 1500
BRIGHT = 16 * 45


@dataclass(frozen=True)
class Field:
    """A synthetic image of stars, and what is wrong with it.

    `image` is a masked array of whole numbers, of shape (64, 64), with the dead column masked. `hot` is True in the two
    hot pixels, `tracks` in the pixels of the tracks of two cosmic rays, `dead` in the dead column: boolean arrays of
    the same shape.
    """

    image: Values
    hot: Mask
    tracks: Mask
    dead: Mask

    @property
    def bad(self) -> Mask:
        """The pixels that cannot be trusted: the hot ones, the tracks, and the dead ones, which have no value."""
        return self.hot | self.tracks | self.dead


def field() -> Field:
    """The star field, always the same."""
    draw = np.random.RandomState(7)  # whose numbers never change
    rows, cols = np.mgrid[:SIDE, :SIDE]
    light = draw.normal(20, 2, (SIDE, SIDE))
    stars = [
        (8, 9),
        (10, 40),
        (17, 24),
        (20, 56),
        (30, 10),
        (31, 37),
        (38, 52),
        (44, 22),
        (50, 41),
        (55, 8),
        (56, 57),
        (59, 28),
    ]
    for row, col in stars:
        height, width = draw.uniform(250, 900), draw.uniform(1.1, 1.8)
        light += height * np.exp(-((rows - row) ** 2 + (cols - col) ** 2) / (2 * width**2))
    hot, tracks = np.zeros((SIDE, SIDE), dtype=bool), np.zeros((SIDE, SIDE), dtype=bool)
    hot[18, 25] = hot[36, 20] = True
    for row, col, down, right, length in ((45, 36, 1, 1, 9), (6, 52, 1, -1, 6)):
        steps = np.arange(length)
        tracks[row + down * steps, col + right * steps] = True
    light[hot] = 5000
    light[tracks] = draw.uniform(2000, 4000, tracks.sum())
    dead = np.zeros((SIDE, SIDE), dtype=bool)
    dead[:, 31] = True
    image: Values = np.ma.MaskedArray(light.astype(np.int64), dead)
    image[dead] = np.ma.masked
    return Field(image, hot, tracks, dead)


def stars(session: Session) -> tuple[Flow, Node, Node, Node, Node]:
    """The tutorial's flow: cleaned, smoothed, labelled, and binned 4 by 4."""
    flow = session.flow("stars")
    clean = flow.clean(flow.input(0), t=HOT)
    smooth = flow.convolve(clean, KERNEL)
    labels = flow.regions(smooth, t=BRIGHT)
    bins = flow.block(labels, "max", 4, 4)
    return flow, clean, smooth, labels, bins


def main() -> None:
    """Write the pictures."""
    words = argparse.ArgumentParser(prog="python -m subzero.demo", description="Writes the tutorial's pictures.")
    words.add_argument("folder", nargs="?", default="pictures", help="where they are written (pictures)")
    folder = Path(words.parse_args().folder)
    folder.mkdir(parents=True, exist_ok=True)

    import matplotlib

    matplotlib.use("Agg")
    from . import drawings

    seen = field()
    with Session() as session:
        sky = session.array("sky", seen.image)
        flow, clean, smooth, labels, bins = stars(session)
        run = session.start(flow, [sky])
        run.wait()
        for name, figure in drawings.all_of(seen, run, sky, clean, smooth, labels, bins):
            figure.savefig(folder / name, dpi=90)
            print(folder / name)


if __name__ == "__main__":
    main()
