"""The program's check of a log: whether what the log keeps of lineage is what the operators relate."""

from __future__ import annotations

import os
import re
from dataclasses import dataclass
from typing import Literal

from .faults import OutOfStep
from .locks import lock_log
from .modes import said
from .program import find


@dataclass(frozen=True)
class Sound:
    """What `check` gives where all that a log keeps is right: how many versions it holds, which are the runs that were
    awaited. It is true.

    >>> print(subzero.Sound(versions=3))
    sound: what the log keeps of the lineage of 3 versions is right
    """

    versions: int

    def __bool__(self) -> Literal[True]:
        return True

    def __str__(self) -> str:
        if self.versions == 0:
            return "sound: the log holds no version, so that it keeps no lineage"
        versions = f"{self.versions:,} version{'' if self.versions == 1 else 's'}"
        return f"sound: what the log keeps of the lineage of {versions} is right"


@dataclass(frozen=True)
class Unsound:
    """What `check` gives for the first store of a log that is wrong: of which version (the number of a run), of which
    node of its flow, and by which strategy it is kept. It is false.

    >>> print(subzero.Unsound(version=1, node=2, strategy="full_one_b"))
    unsound: what version 1 keeps of the lineage of node 2, by full_one_b, is wrong: asks may be answered wrongly
    """

    version: int
    node: int
    strategy: str

    def __bool__(self) -> Literal[False]:
        return False

    def __str__(self) -> str:
        return (
            f"unsound: what version {self.version} keeps of the lineage of node {self.node}, by {self.strategy}, "
            "is wrong: asks may be answered wrongly"
        )


def check(log: str | os.PathLike[str], *, program: str | os.PathLike[str] | None = None) -> Sound | Unsound:
    """Whether what a log keeps of its runs' lineage is right, which the program finds out: it computes the values of
    each run again, and compares each store with what the node's operator relates over them.

    Gives Sound(versions), which is true, or Unsound(version, node, strategy) of the first store that is wrong, which is
    false. The file is locked meanwhile as by a session, but that several can check it, and stays as it is. `program`
    is the program's path (see `subzero.program.find`).

    Raises LogHeld where a session has the log open; ProgramEnded with status 5 where the file is no log, and with 7
    where it is a bad one, `place` being the byte at which that shows; OSError where the file cannot be opened;
    ProgramMissing.

    >>> import pathlib, tempfile
    >>> with tempfile.TemporaryDirectory() as folder:
    ...     log = pathlib.Path(folder) / "survey.log"
    ...     with subzero.Session(log=log) as kept:
    ...         image = kept.array("sky", [[0, 9, 200], [9, 9, 0]])
    ...         flow = kept.flow("stars")
    ...         clean = flow.clean(flow.input(0), t=100, keep="small")
    ...         kept.start(flow, image).wait()
    ...     subzero.check(log)
    Sound(versions=1)
    """
    found, path = find(program), os.fspath(log)
    lock = lock_log(path, alone=False)
    try:
        return _read(said(found, "check", path, lock, "checking"))
    finally:
        os.close(lock)


def _read(told: str) -> Sound | Unsound:
    sound = re.fullmatch(r"sound (\d+)\n", told)
    unsound = re.fullmatch(r"unsound version (\d+) node (\d+) ([a-z_]+)\n", told)
    if sound is not None:
        return Sound(int(sound[1]))
    if unsound is not None:
        return Unsound(int(unsound[1]), int(unsound[2]), unsound[3])
    raise OutOfStep(f"the program's check of a log said {told[:80]!r}")
