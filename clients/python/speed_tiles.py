"""How long a large image takes in tiles, beside scipy on the whole; by hand, no test.

    python3 clients/python/speed_tiles.py SIDE PROGRAMS [TILE]

makes a star field of SIDE by SIDE, cleans it, smooths it, numbers its stars and folds the labels, over so many
programs, asks some questions, and says times and memory; then does the same values with scipy and compares them.
"""

from __future__ import annotations

import os
import resource
import sys
import threading
import time
from collections.abc import Iterator
from contextlib import contextmanager

import numpy as np
from scipy import ndimage

import subzero

KERNEL = [[1, 2, 1], [2, 4, 2], [1, 2, 1]]
HOT, BRIGHT = 4000, 2000


def star_field(side: int) -> tuple[np.ndarray, np.ndarray]:
    """Stars on noise, and which pixels are hot."""
    draw = np.random.RandomState(1)
    image = draw.randint(0, 60, (side, side)).astype(np.int64)
    rows, columns = np.mgrid[-6:7, -6:7]
    star = (800 * np.exp(-(rows**2 + columns**2) / 8)).astype(np.int64)
    for _ in range(side * side // 4000):
        row, column = draw.randint(6, side - 6, 2)
        image[row - 6 : row + 7, column - 6 : column + 7] += star
    bad = draw.rand(side, side) < 0.0005
    image[bad] = 5000
    return image, bad


def by_scipy(image: np.ndarray) -> tuple[np.ndarray, np.ndarray]:
    """The labels of the stars, and the greatest of each 4 by 4 block."""
    hot = image >= HOT
    least = ndimage.minimum_filter(np.where(hot, 2**62, image), size=3)
    smooth = ndimage.correlate(np.where(hot, least, image), np.array(KERNEL), mode="constant")
    parts, count = ndimage.label(smooth >= BRIGHT)
    index = np.arange(image.size).reshape(image.shape)
    first = ndimage.minimum(index, parts, np.arange(1, count + 1)).astype(np.int64)
    labels = np.concatenate([[0], 1 + first])[parts]
    side = image.shape[0]
    return labels, labels.reshape(side // 4, 4, side // 4, 4).max(axis=(1, 3))


@contextmanager
def timed(doing: str) -> Iterator[None]:
    """Say how long it took, by the clock and in this process's own time."""
    begun, own = time.monotonic(), time.process_time()
    yield
    print(f"{doing}: {time.monotonic() - begun:.2f} s, this process {time.process_time() - own:.2f} s", flush=True)


def peak(pid: int | str) -> int:
    """The most memory that a process had, in MiB."""
    try:
        with open(f"/proc/{pid}/status") as told:
            return int(next(line for line in told if line.startswith("VmHWM")).split()[1]) // 1024
    except OSError:
        return 0


def main(side: int, programs: int, tile: int) -> None:
    image, bad = star_field(side)
    print(f"{side} by {side}, {programs} programs, tiles of {tile}, load {os.getloadavg()[0]:.1f}")
    print(f"memory before: {peak('self')} MiB")
    peaks: dict[int, int] = {}
    with subzero.tiled(tile=tile, programs=programs) as mosaic:

        def watch() -> None:
            while True:
                for pid in mosaic.pids:
                    if pid is not None:
                        peaks[pid] = max(peaks.get(pid, 0), peak(pid))
                time.sleep(0.2)

        threading.Thread(target=watch, daemon=True).start()
        sky = mosaic.array("sky", image)
        flow = mosaic.flow("stars")
        labels = flow.regions(flow.convolve(flow.clean(flow.input(0), HOT), KERNEL), BRIGHT)
        bins = flow.block(labels, "max", 4, 4)
        run = mosaic.start(flow, [sky])
        print(run.layout)
        with timed("made up to the joined labels"):
            run.wait()
        with timed("values of the folded labels"):
            folded = run.values(bins)
        with timed("values of the labels"):
            found = run.values(labels)
        star = tuple(np.argwhere(folded.data > 0)[-1])
        for turn in ("first", "again"):
            with timed(f"what stands behind one star, {turn}"):
                behind = run.back(bins, star, to=sky, as_cells=True)
        print(len(behind), "pixels")
        with timed(f"what {bad.sum()} hot pixels touched"):
            touched = run.forward(sky, bad, to=bins)
        print(touched.sum(), "cells")
        with timed("one hot pixel refreshed, up to the joined labels"):
            change = run.refresh(sky, {tuple(np.argwhere(bad)[0].tolist()): 0})
            change.run.wait()
        with timed("what was computed again, and what changed"):
            again, changed = change.cells, change.changed(labels).sum()
        print(again, "cells and", changed, "labels")
        print(f"memory: this process {peak('self')} MiB, programs {sorted(peaks.values())[-programs:]} MiB")
    used = resource.getrusage(resource.RUSAGE_CHILDREN)
    print(f"time of the programs: {used.ru_utime + used.ru_stime:.1f} s")
    with timed("scipy on the whole"):
        whole = by_scipy(image)
    equal = [np.array_equal(one.filled(0), other) for one, other in zip((found, folded), whole)]
    print(f"equal to scipy: {equal}; memory then {peak('self')} MiB")


if __name__ == "__main__":
    main(int(sys.argv[1]), int(sys.argv[2]), int(sys.argv[3]) if len(sys.argv) > 3 else 800)
