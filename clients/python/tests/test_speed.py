"""What a large image costs through the client, beside the program alone.

Processor time is compared, since other work on the machine would change the clock's.
"""

import os
import resource
import subprocess
import tempfile
import time
import unittest
from pathlib import Path
from typing import Any

import numpy as np

import subzero
from subzero.program import find


def children() -> float:
    """The processor seconds of the processes that have ended."""
    used = resource.getrusage(resource.RUSAGE_CHILDREN)
    return used.ru_utime + used.ru_stime


class Speed(unittest.TestCase):
    def through_client(self, image: np.ndarray[Any, Any], answer: str, record: str) -> float:
        """The processor seconds, on both sides, of one session that takes a million cells back."""
        begun = time.process_time() + children()
        with subzero.Session() as session:
            base = session.array("image", image)
            flow = session.flow("f")
            node = flow.neg(flow.input(0))
            run = session.start(flow, [base])
            run.wait()
            if answer == "values":
                self.assertTrue(np.array_equal(run.values(node), -image))
            else:
                self.assertTrue(run.back(node, np.ones(image.shape, dtype=bool), to=base).all())
            if not os.path.exists(record):
                session.record(record)
                begun = 0.0
        return time.process_time() + children() - begun

    def test_a_million_cells_cost_at_most_three_times_the_program(self) -> None:
        image = np.random.RandomState(1).randint(0, 60_000, (1024, 1024), dtype=np.int64)
        for answer in ("values", "cells"):
            with self.subTest(answer=answer), tempfile.TemporaryDirectory() as folder:
                record = str(Path(folder) / "lines.session")
                self.through_client(image, answer, record)
                client, program = [], []
                for _ in range(5):  # the first that is within the bound will do
                    client.append(self.through_client(image, answer, record))
                    begun = children()
                    with open(record, "rb") as lines:
                        subprocess.run([find(), "play"], stdin=lines, stdout=subprocess.DEVNULL, check=True)
                    program.append(children() - begun)
                    if min(client) <= 3 * min(program):
                        break
                self.assertLessEqual(min(client), 3 * min(program))


if __name__ == "__main__":
    unittest.main()
