"""The format of a log raised, which the program does."""

from __future__ import annotations

import os

from .faults import OutOfStep
from .locks import lock_log
from .modes import said
from .program import find


def upgrade(log: str | os.PathLike[str], *, program: str | os.PathLike[str] | None = None) -> int:
    """Raise a log to format 2, in place, which the program does; gives the log's format, which is 2 then.

    The log holds what it held, and answers as it did. Runs that are awaited from then on take fewer bytes in it, since
    the sets of cells in their stores are short; those that it has stay as they are written. A program from before
    format 2 takes the log for a bad one. A log of format 2 stays as it is, so that it can be called again.

    A stop at any moment leaves the log whole, in one format or the other. The file is locked meanwhile as by a session.
    `program` is the program's path (see `subzero.program.find`).

    Raises LogHeld where a session, or a check, has the log open; ProgramEnded with status 5 where the file is no log,
    with 7 where it is a bad one, `place` being the byte at which that shows, and with 4 where its file failed; and with
    1 where the program is one from before format 2. OSError where the file cannot be opened; ProgramMissing.

    >>> import pathlib, tempfile
    >>> with tempfile.TemporaryDirectory() as folder:
    ...     log = pathlib.Path(folder) / "survey.log"
    ...     with subzero.Session(log=log) as kept:
    ...         image = kept.array("sky", [[0, 9, 200], [9, 9, 0]])
    ...     subzero.upgrade(log)
    2
    """
    found, path = find(program), os.fspath(log)
    lock = lock_log(path, make=False)
    try:
        told = said(found, "upgrade", path, lock, "raising")
    finally:
        os.close(lock)
    if told != "log 2\n":
        raise OutOfStep(f"the program that raised a log said {told[:80]!r}")
    return 2
