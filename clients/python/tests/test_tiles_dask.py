"""Images in tiles on a Dask cluster of two worker processes on this machine. Skipped where Dask is not there."""

from __future__ import annotations

import os
import signal
import threading
import time
import unittest
import warnings
from importlib import import_module
from typing import Any, ClassVar
from unittest import mock

import numpy as np

import subzero
from subzero.tiles import Mosaic
from test_tiles import Both, draw_flow, some

distributed: Any = None
dask_array: Any = None
try:
    distributed, dask_array = import_module("dask.distributed"), import_module("dask.array")
except ImportError:
    print("test_tiles_dask: SKIPPED, since Dask is not there: apt-get install python3-dask python3-distributed")


@unittest.skipIf(distributed is None, "Dask is not there: apt-get install python3-dask python3-distributed")
class OnDask(unittest.TestCase):
    cluster: ClassVar[Any]
    client: ClassVar[Any]

    @classmethod
    def setUpClass(cls) -> None:
        with warnings.catch_warnings():
            warnings.simplefilter("ignore", DeprecationWarning)
            cls.cluster = distributed.LocalCluster(
                n_workers=2, threads_per_worker=1, host="127.0.0.1", dashboard_address=None, silence_logs=50
            )
            cls.client = distributed.Client(cls.cluster)

    @classmethod
    def tearDownClass(cls) -> None:
        cls.client.close()
        cls.cluster.close()

    def setUp(self) -> None:
        self.client.wait_for_workers(2, timeout=300)  # one that a test killed is made anew by its cluster

    def test_flows_of_all_operators(self) -> None:
        cases = 0
        with subzero.Session() as session, subzero.tiled(tile=7, client=self.client) as mosaic:
            for seed in range(8):
                draw = np.random.RandomState(3000 + seed)
                shape = tuple(int(size) for size in draw.randint(1, 24, 2))
                arrays = [some(draw, shape), some(draw, shape), some(draw, (1, 20))]
                state = draw.get_state()

                def build(flow: subzero.Flow) -> None:
                    draw.set_state(state)
                    draw_flow(flow, [shape, shape, (1, 20)], draw)

                with self.subTest(seed=seed):
                    both = Both(session, mosaic, arrays, build, f"f{seed}")
                    both.check(self, draw)
                    cases += both.cases
            self.assertEqual(len([pid for pid in mosaic.pids if pid is not None]), 2)
        print(f"OnDask: {cases} comparisons of values and lineage")

    def test_a_refresh_and_a_merge(self) -> None:
        draw = np.random.RandomState(8)
        image = draw.randint(0, 100, (40, 50))

        def build(flow: subzero.Flow) -> None:
            clean = flow.clean(flow.input(0), 90, keep=["full_one_b"])
            flow.block(flow.regions(clean, 60), "max", 4, 5, keep=["full_many_b"])

        with subzero.Session() as session, subzero.tiled(tile=20, client=self.client) as mosaic:
            both = Both(session, mosaic, [image], build)
            both.whole.wait()
            both.tiled.wait()
            new = {(19, 20): 80, (0, 3): None, (39, 49): 95}
            change, told = both.whole.refresh(both.whole.base[0], new), both.tiled.refresh(both.tiled.base[0], new)
            self.assertEqual(told.cells, change.cells)
            for node, twin in zip(both.whole_flow.nodes, both.tiled_flow.nodes):
                self.assertEqual(told.changed(twin).tolist(), change.changed(node).tolist())
            both.whole, both.tiled = change.run, told.run
            merging = both.tiled.merge()
            both.check(self, draw)
            self.assertEqual(merging.wait(), {(both.tiled_flow.nodes[2], "full_many_b"): 100})

    def test_a_worker_that_is_killed_in_the_middle(self) -> None:
        draw = np.random.RandomState(5)
        image = draw.randint(0, 100, (80, 70))

        def build(flow: subzero.Flow) -> None:
            smooth = flow.convolve(flow.clean(flow.input(0), 90), np.ones((3, 3), dtype=int))
            flow.block(flow.regions(smooth, 420), "max", 4, 5)

        with subzero.Session() as session, subzero.tiled(tile=9, client=self.client) as mosaic:
            both = Both(session, mosaic, [image], build)
            lost = threading.Event()
            killer = threading.Thread(target=self.kill_one, args=(mosaic, lost))
            killer.start()
            with mock.patch("subzero.tiles.making._BATCH", 1):  # one tile a turn
                both.tiled.wait()
            killer.join()
            self.assertTrue(lost.is_set())
            both.check(self, draw, pairs=12)

    def kill_one(self, mosaic: Mosaic, lost: threading.Event) -> None:
        """Kill a worker process once its program runs."""
        until = time.monotonic() + 300
        while not any(mosaic.pids) and time.monotonic() < until:
            time.sleep(0.01)
        victim = next(iter(self.client.run(os.getpid).values()))
        os.kill(victim, signal.SIGKILL)
        lost.set()

    def test_a_dask_array_is_read_window_by_window(self) -> None:
        read: list[Any] = []

        def chunk(block: np.ndarray[Any, Any]) -> np.ndarray[Any, Any]:
            read.append(block.shape)
            return block * 2

        image = np.arange(40 * 30).reshape(40, 30)
        lazy = dask_array.from_array(image, chunks=(10, 10)).map_blocks(chunk, dtype=image.dtype)
        read.clear()
        with subzero.tiled(tile=10, client=self.client) as mosaic:
            flow = mosaic.flow("f")
            node = flow.neg(flow.input(0))
            run = mosaic.start(flow, [mosaic.array("a", lazy)])
            self.assertEqual(run.values(node, np.s_[3:8, 12:25]).tolist(), (-2 * image[3:8, 12:25]).tolist())
            self.assertEqual(run.values(node).tolist(), (-2 * image).tolist())

    def test_an_asynchronous_client_is_refused(self) -> None:
        class Asynchronous:
            asynchronous = True

        with self.assertRaisesRegex(subzero.BadInput, "asynchronous"):
            subzero.tiled(client=Asynchronous())


if __name__ == "__main__":
    unittest.main()
