"""Times the client beside the program alone: an image of 1,024 by 1,024 handed in, and one answer of a million cells taken.

    PYTHONPATH=clients/python/src python3 clients/python/speed.py

Each line gives the best of seven runs through the client, from the start of the program to the answer as an array; the
best of seven of the program alone, fed the very lines that the client sent, run in turns; and how many times the one is
the other. It is no test.
"""

import subprocess
import tempfile
import time
from collections.abc import Callable
from pathlib import Path

import numpy as np

import subzero
from subzero.program import find

SIDE, RUNS = 1024, 7


def through_client(image: np.ndarray, answer: str, record: Path | None = None) -> None:
    """One session: the image handed in, negated, and its values or the lineage of all its cells taken."""
    with subzero.Session() as session:
        if record is not None:
            session.record(record)
        base = session.array("image", image)
        flow = session.flow("f")
        node = flow.neg(flow.input(0))
        run = session.start(flow, [base])
        run.wait()
        if answer == "values":
            assert run.values(node)[-1, -1] == -image[-1, -1]
        else:
            assert run.back(node, np.ones(image.shape, dtype=bool), to=base).all()


def alone(record: Path) -> None:
    """The program alone on the same lines."""
    with record.open("rb") as lines:
        subprocess.run([find(), "play"], stdin=lines, stdout=subprocess.DEVNULL, check=True)


def timed(call: Callable[[], None]) -> float:
    """The milliseconds of one run."""
    begun = time.perf_counter()
    call()
    return (time.perf_counter() - begun) * 1000


def main() -> None:
    """Print a line for each kind of answer and size of numbers."""
    draw = np.random.RandomState(1)
    with tempfile.TemporaryDirectory() as folder:
        record = Path(folder) / "lines.session"
        for bound in (1000, 60_000, 2**62):
            image = draw.randint(-bound, bound, (SIDE, SIDE), dtype=np.int64)
            for answer in ("values", "cells"):
                through_client(image, answer, record)
                runs = [
                    (timed(lambda: through_client(image, answer)), timed(lambda: alone(record))) for _ in range(RUNS)
                ]
                client, program = (min(times) for times in zip(*runs))
                told = f"numbers below {bound:,}, {answer} back"
                print(f"{told}: client {client:.0f} ms, program {program:.0f} ms, {client / program:.2f} times")


if __name__ == "__main__":
    main()
