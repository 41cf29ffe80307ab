"""Images larger than one session: one flow spread over many programs, with the answers of one.

    with subzero.tiled(tile=800) as mosaic:
        sky = mosaic.array("sky", big)
        flow = mosaic.flow("stars")
        labels = flow.regions(flow.clean(flow.input(0), t=1000), t=200)
        run = mosaic.start(flow, [sky])
        run.wait()
        behind = run.back(labels, (3000, 200), to=sky, as_cells=True)

From the user down: `mosaic` (arrays, flows, starts), `run` (values and lineage), `changes` (refreshes) and `merges`,
`asks` (a question and its tiles) and `chains` (the steps of a question), `making` (tiles made and kept) and `remaking`
(those of a run that a refresh made), `seams` (components joined), `stages` (where a flow is cut), `windows` (what a
tile holds), `grids` and `subzero.geometry` (which cells those are), `orders` (what a program is told), `holder` (one
program), `crew` and `on_dask` (many), `sources` (arrays of any size), `cellsets` (sets of cells).
"""

from .changes import TiledChange
from .faults import CannotTile
from .merges import TiledMerging
from .mosaic import Mosaic, tiled
from .run import Layout, TiledRun
from .sources import TiledArray
from .windows import Limits

__all__ = [
    "CannotTile",
    "Layout",
    "Limits",
    "Mosaic",
    "TiledArray",
    "TiledChange",
    "TiledMerging",
    "TiledRun",
    "tiled",
]
