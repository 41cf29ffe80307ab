"""`python -m subzero view SESSION_OR_LOG`: the page over a recorded session, or over a log."""

from __future__ import annotations

import argparse
import os
import sys
import threading
from collections.abc import Mapping, Sequence

from ..faults import BadInput, SubZeroError
from ..run import Run
from ..session import Session
from .page import Page
from .replay import replay

_LOG = b"\x01SubZero log 1\r\n"


def command(arguments: Sequence[str]) -> int:
    """Serve the page that the words name, until it is interrupted.

    Gives the exit status: 0 once it was interrupted, 1 with a line on standard error where there is nothing to show.
    Raises SystemExit for wrong words.
    """
    words = argparse.ArgumentParser(
        prog="python -m subzero view", description="Shows a run on a local web page: click a cell, see its lineage."
    )
    words.add_argument("place", metavar="SESSION_OR_LOG", help="a file of lines for `subzero play`, or a log")
    words.add_argument("--version", type=int, metavar="N", help="the version that is shown (the last one)")
    words.add_argument("--origin", choices=("upper", "lower"), default="upper", help="where row 0 is drawn (upper)")
    words.add_argument("--port", type=int, default=0, help="the port on the loopback address (a free one)")
    words.add_argument("--open", action="store_true", help="open the page in a browser")
    told = words.parse_args(arguments)
    try:
        with _opened(told.place) as session:
            if not _is_log(told.place):
                replay(session, told.place)
            run = _chosen(session.runs, told.version, told.place)
            with Page(run, origin=told.origin, port=told.port) as page:
                print(f"{page.url}\nCtrl-C ends it", flush=True)
                if told.open:
                    page.open()
                _wait()
    except (SubZeroError, OSError) as fault:
        print(f"python -m subzero view: {fault}", file=sys.stderr)
        return 1
    return 0


def _opened(place: str) -> Session:
    """The session in which the place is shown: on the log, or a fresh one for recorded lines."""
    return Session(log=place) if _is_log(place) else Session()


def _is_log(place: str | os.PathLike[str]) -> bool:
    with open(place, "rb") as file:
        return file.read(len(_LOG)) == _LOG


def _chosen(runs: Mapping[int, Run], version: int | None, place: str) -> Run:
    """The run of this version, or the last one."""
    if not runs:
        raise BadInput(f"{place} has no version of a flow to show")
    if version is None:
        return runs[max(runs)]
    if version not in runs:
        raise BadInput(f"{place} has no version {version}, but {', '.join(map(str, sorted(runs)))}")
    return runs[version]


def _wait() -> None:
    """Wait until it is interrupted."""
    try:
        threading.Event().wait()
    except KeyboardInterrupt:
        pass
