"""The program run once over a log, in a mode that reads no session: what it says, and how it ends."""

from __future__ import annotations

import contextlib
import os
import signal
import subprocess
import threading
from collections.abc import Iterator

from . import progress
from .faults import ProgramEnded


def said(program: str, mode: str, log: str, lock: int, doing: str) -> str:
    """What the program says in this mode of a log. It has the lock too, an open file, and so keeps it where this
    process is killed. `doing` is shown while it takes long.

    Raises ProgramEnded where its status is not 0. An interrupt (Ctrl-C) ends it.
    """
    try:
        with _interrupt_held():
            running = subprocess.Popen(
                [program, mode, log],
                stdin=subprocess.DEVNULL,
                stdout=subprocess.PIPE,
                stderr=subprocess.PIPE,
                pass_fds=(lock,),
                text=True,
                errors="replace",
            )
        with running, progress.shown(f"{doing} {os.path.basename(log)}") as step:
            try:
                while True:
                    try:
                        told, wrote = running.communicate(timeout=step.seconds)
                        break
                    except subprocess.TimeoutExpired:
                        step.show()
            except BaseException:
                running.kill()
                running.wait()
                raise
    except KeyboardInterrupt:  # also one that came before the loop did
        with running:
            running.kill()
        raise
    if running.returncode != 0:
        raise ProgramEnded(running.returncode, wrote.strip())
    return told


@contextlib.contextmanager
def _interrupt_held() -> Iterator[None]:
    """An interrupt that comes meanwhile is raised behind it, so that a program that was begun within is known."""
    came: list[int] = []
    before = signal.getsignal(signal.SIGINT)
    holds = threading.current_thread() is threading.main_thread() and callable(before)
    if holds:
        signal.signal(signal.SIGINT, lambda number, _: came.append(number))
    try:
        yield
    finally:
        if holds:
            signal.signal(signal.SIGINT, before)
    if came:
        raise KeyboardInterrupt
