"""The lock on a log's file, which the program itself does not have.

A session locks the file by `flock` and hands the open file on to its program, so that the lock lasts until both have
let go of it: one that is killed leaves the log locked until its program has read to its end.
"""

from __future__ import annotations

import os
import warnings
from pathlib import Path

from .faults import LogHeld

try:
    import fcntl
except ImportError:  # a system without it has no such lock
    fcntl = None  # type: ignore[assignment]


def lock_log(path: str, *, alone: bool = True, make: bool = True) -> int:
    """Open the file, which is made where it is not there, and lock it: gives the open file, which holds the lock.

    Where not `alone`, others may read beside it. Where not `alone`, or not to `make`, the file has to be there. Raises
    LogHeld where another one has it, and OSError where it cannot be opened; warns where the file system has no locks.
    """
    file = os.open(path, os.O_RDWR | (os.O_CREAT if make else 0) if alone else os.O_RDONLY, 0o666)
    if fcntl is None:
        return file
    try:
        fcntl.flock(file, (fcntl.LOCK_EX if alone else fcntl.LOCK_SH) | fcntl.LOCK_NB)
    except BlockingIOError:
        by = holder(file)
        os.close(file)
        raise LogHeld(
            f"{path} is open in another session{f', of {by}' if by else ''}: close that one first, since two at a time "
            "would destroy the log"
        ) from None
    except OSError as fault:
        warnings.warn(f"{path} cannot be locked ({fault.strerror}): keep other sessions away from it", stacklevel=3)
    return file


def holder(file: int) -> str | None:
    """Who holds a lock on an open file, in words; None where the system does not tell."""
    state = os.fstat(file)
    device = f"{os.major(state.st_dev):02x}:{os.minor(state.st_dev):02x}:{state.st_ino}"
    try:
        rows = Path("/proc/locks").read_text().splitlines()
    except OSError:
        return None
    for row in rows:
        words = row.split()
        if len(words) > 5 and words[1] == "FLOCK" and words[5] == device and words[4].isdigit() and words[4] != "0":
            return _told(int(words[4]))
    return None


def _told(process: int) -> str:
    if process == os.getpid():
        return "this process"
    try:
        words = Path(f"/proc/{process}/cmdline").read_bytes().rstrip(b"\0").replace(b"\0", b" ")
    except OSError:
        return f"process {process}, which has ended while its program is still at work"
    return f"process {process} ({words.decode(errors='replace')[:120]})"
