"""What is shown while something takes long: on a terminal a line that is taken off again, in a notebook a text below
the cell. Where standard error is neither, nothing is.
"""

from __future__ import annotations

import html
import importlib
import sys
import time
from collections.abc import Iterator
from contextlib import contextmanager
from typing import Any

_FIRST = 0.5
_NEXT = 0.2


class Step:
    """Something that is waited for, with what is shown of it."""

    def __init__(self, doing: str) -> None:
        self.doing = doing
        self._begun = time.monotonic()
        self._next = self._begun + _FIRST
        self._wide = 0
        self._display: Any = None
        self.seconds = _FIRST

    def show_in_turn(self, doing: str) -> None:
        """Go on to another thing, and show that where it is time to: for many things of which each is short."""
        self.doing = doing
        if time.monotonic() >= self._next:
            self.show()

    def show(self) -> None:
        """Show what is done, and for how long now."""
        self.seconds = _NEXT
        self._next = time.monotonic() + _NEXT
        text = f"subzero: {self.doing}, {time.monotonic() - self._begun:.1f} s"
        if in_notebook():
            self._show_below(text)
        elif sys.stderr is not None and sys.stderr.isatty():
            sys.stderr.write("\r" + text.ljust(self._wide))
            sys.stderr.flush()
            self._wide = max(self._wide, len(text))

    def clear(self) -> None:
        """Take off what was shown."""
        if self._display is not None:
            self._show_below("")
        if self._wide:
            sys.stderr.write("\r" + " " * self._wide + "\r")
            sys.stderr.flush()

    def _show_below(self, text: str) -> None:
        data = {"text/plain": text, "text/html": f"<small>{html.escape(text)}</small>"}
        if self._display is None:
            display = importlib.import_module("IPython.display").display
            self._display = display(data, raw=True, display_id=True)
        else:
            self._display.update(data, raw=True)


def in_notebook() -> bool:
    """Whether this is the process behind a notebook."""
    loaded = sys.modules.get("IPython")
    shell = loaded.get_ipython() if loaded is not None and hasattr(loaded, "get_ipython") else None
    return getattr(shell, "kernel", None) is not None


@contextmanager
def shown(doing: str) -> Iterator[Step]:
    """A step that is taken off when it is over."""
    step = Step(doing)
    try:
        yield step
    finally:
        step.clear()
