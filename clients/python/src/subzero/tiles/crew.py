"""The programs of a mosaic, and work handed out to them side by side."""

from __future__ import annotations

import os
from collections.abc import Callable, Sequence
from concurrent.futures import FIRST_COMPLETED, Future, ThreadPoolExecutor, wait
from typing import Protocol

from .. import progress
from ..faults import SubZeroError
from ..program import find
from .holder import Answer, Holder
from .orders import Request
from .windows import Limits


class Crew(Protocol):
    """So many programs, counted from 0, and how many of them are to work at the same time."""

    count: int
    at_once: int

    def tiles(self, number: int, requests: list[Request]) -> list[Answer]:
        """`Holder.tiles` of a program. A program that is gone is replaced, and holds no tile then."""

    def pids(self) -> list[int | None]:
        """The numbers of the programs' processes, None where none runs."""

    def close(self) -> None:
        """End all programs."""

    def kill(self) -> None:
        """Stop all programs at once."""


class LocalCrew:
    """Programs on this machine."""

    def __init__(self, count: int, program: str | os.PathLike[str] | None, limits: Limits, workers: int | None) -> None:
        path = find(program)
        self.count = count
        self.at_once = min(count, processors())
        self._holders = [Holder(path, limits.cells, workers) for _ in range(count)]

    def tiles(self, number: int, requests: list[Request]) -> list[Answer]:
        """`Holder.tiles` of a program."""
        return self._holders[number].tiles(requests)

    def pids(self) -> list[int | None]:
        """The numbers of the programs' processes."""
        return [holder.pid()[1] for holder in self._holders]

    def close(self) -> None:
        """End all programs."""
        for holder in self._holders:
            holder.close()

    def kill(self) -> None:
        """Stop all programs at once."""
        for holder in self._holders:
            holder.kill()


def processors() -> int:
    """How many processors this process may use."""
    return len(os.sched_getaffinity(0)) if hasattr(os, "sched_getaffinity") else os.cpu_count() or 1


def side_by_side(pool: ThreadPoolExecutor, jobs: Sequence[Callable[[], None]], doing: str) -> None:
    """Do all jobs, some at the same time; `doing` is shown on a terminal.

    What a job raises is raised at once, and an interrupt too; jobs that are not begun are not begun then, and those
    that are end by themselves.
    """
    try:
        futures: list[Future[None]] = [pool.submit(job) for job in jobs]
    except RuntimeError:
        raise SubZeroError("the mosaic is closed") from None
    try:
        with progress.shown(doing) as step:
            left = set(futures)
            while left:
                done, left = wait(left, timeout=step.seconds, return_when=FIRST_COMPLETED)
                for future in done:
                    future.result()
                if not done:
                    step.doing = f"{doing}, {len(futures) - len(left)} of {len(futures)}"
                    step.show()
    except BaseException:
        for future in futures:
            future.cancel()
        raise
