"""`python -m subzero`: what can be done from a shell."""

from __future__ import annotations

import argparse
import importlib
import sys
from collections.abc import Callable, Sequence

from . import __version__, checking, upgrading
from .faults import ProgramEnded, SubZeroError
from .logs import told


def info(words: Sequence[str]) -> int:
    """Tell what a log holds."""
    print(told(_log("info", "Tells what a log holds: its format, its arrays, flows and versions.", words)))
    return 0


def check(words: Sequence[str]) -> int:
    """Run the program's check of a log, which no session has open meanwhile."""
    log = _log("check", "Compares the stores of a log with what their operators relate.", words)

    def line() -> str:
        found = checking.check(log)
        if isinstance(found, checking.Sound):
            return f"sound {found.versions}"
        return f"unsound version {found.version} node {found.node} {found.strategy}"

    return _say(line)


def upgrade(words: Sequence[str]) -> int:
    """Have the program raise a log to format 2, which no session has open meanwhile."""
    log = _log("upgrade", "Raises a log to format 2, in place.", words)
    return _say(lambda: f"log {upgrading.upgrade(log)}")


def demo(words: Sequence[str]) -> int:
    """Write the tutorial's pictures."""
    sys.argv = ["python -m subzero demo", *words]
    importlib.import_module("subzero.demo").main()
    return 0


def view(words: Sequence[str]) -> int:
    """Show a recorded session, or a log, in the browser."""
    return int(importlib.import_module("subzero.view").command(list(words)))


COMMANDS = {
    "info": (info, "LOG", "tell what a log holds"),
    "check": (check, "LOG", "compare the stores of a log with what their operators relate, by the program"),
    "upgrade": (upgrade, "LOG", "raise a log to format 2, in which runs take less room, by the program"),
    "demo": (demo, "[FOLDER]", "write the tutorial's pictures"),
    "view": (view, "LOG", "look at the arrays of a log, or of a recorded session, and their lineage in the browser"),
}


def usage() -> str:
    """What can be done, in lines."""
    rows = [f"    python -m subzero {name + ' ' + takes:<20} {what}" for name, (_, takes, what) in COMMANDS.items()]
    return "\n".join(
        [f"subzero {__version__}: lineage of array workflows, from Python", "", *rows, "", "In Python: help(subzero)"]
    )


def main(words: Sequence[str] | None = None) -> int:
    """Do what the words say; gives the exit status."""
    given = list(sys.argv[1:] if words is None else words)
    if given[:1] in ([], ["help"], ["-h"], ["--help"]):
        print(usage())
        return 0
    if given[0] in ("-V", "--version"):
        print(__version__)
        return 0
    if given[0] not in COMMANDS:
        print(f"subzero: {given[0]!r} is none of {', '.join(COMMANDS)}\n\n{usage()}", file=sys.stderr)
        return 2
    try:
        return COMMANDS[given[0]][0](given[1:])
    except (SubZeroError, OSError, ImportError) as fault:
        print(f"subzero: {fault}", file=sys.stderr)
        return 1


def _say(line: Callable[[], str]) -> int:
    """Print the line that the program said, or how it ended, as it tells that itself; gives its status."""
    try:
        print(line())
    except ProgramEnded as fault:
        print(fault.text or fault, file=sys.stderr)
        return fault.status
    return 0


def _log(command: str, what: str, words: Sequence[str]) -> str:
    parser = argparse.ArgumentParser(prog=f"python -m subzero {command}", description=what)
    parser.add_argument("log", help="the log's file")
    return str(parser.parse_args(words).log)


if __name__ == "__main__":
    sys.exit(main())
