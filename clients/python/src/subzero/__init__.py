"""SubZero from Python: numpy arrays in, lineage out.

    import subzero

    with subzero.Session() as session:
        sky = session.array("sky", image)
        flow = session.flow("stars")
        clean = flow.clean(flow.input(0), t=1000)
        labels = flow.regions(clean, t=200)
        run = session.start(flow, [sky])
        run.wait()
        behind = run.back(labels, [(3, 3)], to=sky)

`Session` starts the program; `Flow` builds a flow; `Run` gives values and answers lineage. `subzero.plot` draws (with
matplotlib), `python -m subzero` tells what can be done from a shell.
"""

from typing import TYPE_CHECKING

from .catalogue import suspects_table
from .changes import Change
from .checking import Sound, Unsound, check
from .faults import (
    BadInput,
    Cancelled,
    LogHeld,
    OutOfStep,
    ProgramEnded,
    ProgramMissing,
    Refused,
    SubZeroError,
    TooManyPaths,
)
from .flow import Flow, Input, Node
from .keeping import strategies
from .later import Future, Later, Pipeline
from .measures import Measure, Measured
from .merges import Merging
from .paths import Path
from .plans import Choice, Plan
from .run import Explanation, Run
from .session import BaseArray, Room, Session
from .upgrading import upgrade

__version__ = "0.1.0"

if TYPE_CHECKING:
    from .tiles import tiled as tiled

__all__ = [
    "BadInput",
    "BaseArray",
    "Cancelled",
    "Change",
    "Choice",
    "Explanation",
    "Flow",
    "Future",
    "Input",
    "Later",
    "LogHeld",
    "Measure",
    "Measured",
    "Merging",
    "Node",
    "OutOfStep",
    "Path",
    "Pipeline",
    "Plan",
    "ProgramEnded",
    "ProgramMissing",
    "Refused",
    "Room",
    "Run",
    "Session",
    "Sound",
    "SubZeroError",
    "TooManyPaths",
    "Unsound",
    "check",
    "strategies",
    "suspects_table",
    "upgrade",
]


def __getattr__(name: str) -> object:
    """`subzero.plot` and `subzero.view` are loaded when they are first used: they are slow to load, and need more."""
    if name in ("plot", "view"):
        import importlib

        return importlib.import_module(f"subzero.{name}")
    if name == "tiled":
        from .tiles import tiled

        return tiled
    raise AttributeError(f"module 'subzero' has no attribute {name!r}")
