"""A recorded session played again, so that its runs can be looked at."""

from __future__ import annotations

import os

from ..faults import Refused
from ..session import Session

_ASKS = (b'{"ask"', b'{"explain"', b'{"show"', b'{"plan"', b'{"merge"', b'{"merged"')


def replay(session: Session, path: str | os.PathLike[str]) -> None:
    """Play the lines of a file in a session, which then holds what they hand in, define and start.

    The lines are those that `Session.record` writes and `subzero play` reads. Those that only ask are left out, an
    await among them where no refresh is behind it, and a line that is refused changes nothing, as in the program.
    Raises OSError where the file cannot be read.
    """
    awaits: list[bytes] = []
    with open(path, "rb") as lines:
        for line in lines:
            if line.startswith(b'{"await"'):
                awaits.append(line)
            elif line.strip(b" \t\r\n") and not line.startswith(_ASKS):
                if b'"refresh"' in line:
                    while awaits:
                        _play(session, awaits.pop(0))
                _play(session, line)


def _play(session: Session, line: bytes) -> None:
    try:
        session.say(line.removesuffix(b"\n") + b"\n").wait("playing the session")
    except Refused:
        pass
