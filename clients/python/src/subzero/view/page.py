"""The page of a run: what is selected on it, and what it answers."""

from __future__ import annotations

import html
import json
import struct
import threading
import time
import webbrowser
from dataclasses import dataclass
from typing import TYPE_CHECKING, Any, Literal

import numpy as np
import numpy.typing as npt

from ..cells import Cells, Mask, cells_of, mask_of
from ..faults import BadInput
from . import marks
from .board import Board, Panel
from .lineage import Lineage, Step
from .selection import Question
from .server import Server

if TYPE_CHECKING:
    from ..later import Future
    from ..run import Array, Direction, Explanation, Run

DIRECTIONS: tuple[Direction, Direction] = ("back", "forward")
MOST_UNNAMED = 64


@dataclass(frozen=True)
class Kept:
    """A set of cells that came from Python: its number on the page, the name under which it is offered, its cells and
    how many they are. Of those without a name the last `MOST_UNNAMED` are kept.
    """

    number: int
    name: str | None
    panel: Panel
    mask: Mask
    count: int


class Page:
    """A local web page over a run, for as long as the session lasts: click a cell, see its lineage in every array.

    `url` is its link, for browsers on this machine. The page is served by threads of this process, and ends with it or
    by `close`. In a notebook it is shown in place.
    """

    def __init__(self, run: Run, *, origin: Literal["upper", "lower"] = "upper", port: int = 0) -> None:
        if origin not in ("upper", "lower"):
            raise BadInput(f"{origin!r} is no origin: upper or lower")
        run.wait()
        self.run = run
        self.origin = origin
        self._board = Board(run)
        self._lineage = Lineage(run)
        self._turn = threading.Lock()  # one ask at a time
        self._desk = threading.Lock()  # what is kept
        self._ways = self._explained()
        self._kept: dict[int, Kept] = {}
        self._told = 0
        self._selected: tuple[Panel, Mask] | None = None
        self._server = Server(self, port)
        self.url = self._server.url

    def __enter__(self) -> Page:
        return self

    def __exit__(self, *_: object) -> None:
        self.close()

    def __repr__(self) -> str:
        return f"<page of run {self.run.number} at {self.url}>"

    def _repr_html_(self) -> str:
        """The page itself, in a notebook."""
        link = html.escape(self.url, quote=True)
        return f'<iframe src="{link}" style="width:100%;height:640px;border:0;border-radius:6px"></iframe>'

    def open(self) -> None:
        """Open the page in a browser."""
        webbrowser.open(self.url)

    def close(self) -> None:
        """End the page: its link leads nowhere from then on. The session goes on."""
        self._server.close()

    @property
    def selected(self) -> Mask | None:
        """The cells that were selected last, by a viewer or by `select`: a boolean array of the shape of their array.

        None where nothing is selected.
        """
        return None if self._selected is None else self._selected[1].copy()

    @property
    def selected_in(self) -> Array | None:
        """The array in which the cells were selected last: a base array of the run, or a node; None for none."""
        if self._selected is None:
            return None
        return self._board.array(self._selected[0])

    def select(self, array: Array, cells: Cells, *, name: str | None = None) -> None:
        """Select these cells of an array on the page, for all who look at it.

        With a `name`, they stay on the page as a button that selects them again. Raises BadInput for cells out of range
        and for an array that is not the run's.
        """
        panel = self._board.panel(array)
        mask = mask_of(cells_of(cells, panel.shape), panel.shape)
        with self._desk:
            number = self._told + 1
            unnamed = [kept.number for kept in self._kept.values() if kept.name is None]
            for old in unnamed[: len(unnamed) - MOST_UNNAMED + 1]:
                del self._kept[old]
            self._kept[number] = Kept(number, name, panel, mask, int(mask.sum()))
            self._selected = (panel, mask)
            self._told = number

    def told(self) -> dict[str, Any]:
        """What the page's script is to know of the run at first."""
        with self._turn:
            return {**self._board.told(), "origin": self.origin, "ways": self._ways_told()}

    def state(self) -> dict[str, Any]:
        """What may have changed: what was selected from Python, what is offered, and whether the program runs."""
        with self._desk:
            held, last = list(self._kept.values()), self._kept.get(self._told)
        offered = [
            {"kept": kept.number, "name": kept.name, "array": kept.panel.number, "count": kept.count}
            for kept in held
            if kept.name is not None
        ]
        told = None if last is None else {"kept": last.number, "array": last.panel.number, "name": last.name}
        return {"told": told, "offered": offered, "fault": self._fault()}

    def values(self, number: int) -> bytes:
        """The values of an array, as the page's script reads them. Raises BadInput where there are none."""
        with self._turn:
            if not 0 <= number < len(self._board.panels):
                raise BadInput(f"there is no array {number}")
            values = self._board.values(number)
            return marks.bytes_of(values, marks.kind_of(np.ma.getdata(values)))

    def clear(self) -> None:
        """Nothing is selected any more."""
        self._selected = None

    def answer(self, question: Question) -> bytes:
        """The lineage of the selected cells in all arrays, as the page's script reads it.

        First the length of a text in 4 bytes, little-endian, then the text, JSON filled up with blanks to whole words,
        then words of 4 bytes: the runs of all marks, one behind the other. Raises BadInput, Refused, ProgramEnded.
        """
        if question.array >= len(self._board.panels):
            raise BadInput(f"there is no array {question.array}")
        panel = self._board.panels[question.array]
        array = self._board.array(panel)
        mask = question.mask(panel.shape)
        if question.kept is not None:
            kept = self._kept.get(question.kept)
            if kept is None or kept.panel is not panel:
                raise BadInput("this selection from Python is not held any more")
            mask |= kept.mask
        with self._turn:
            begun = time.perf_counter()
            found: list[tuple[Panel, str, Mask]] = [(panel, "asked", mask)]
            steps: list[Step] = []
            for direction in DIRECTIONS:
                masks = self._lineage.masks(array, mask, direction, question.sense)
                steps += self._lineage.steps(masks, direction)
                for place, one in masks.items():
                    if place not in panel.places:
                        found.append((self._board.panel_of(place), direction, one))
            seconds = time.perf_counter() - begun
            self._selected = (panel, mask)
        return _packed(self._merged(found), self._steps_told(steps), seconds)

    def _merged(self, found: list[tuple[Panel, str, Mask]]) -> list[tuple[Panel, str, Mask]]:
        """The cells of each panel once: a base array may have been reached in several places."""
        merged: dict[int, tuple[Panel, str, Mask]] = {}
        for panel, direction, mask in found:
            held = merged.get(panel.number)
            merged[panel.number] = (panel, direction, mask if held is None else held[2] | mask)
        return list(merged.values())

    def _explained(self) -> dict[Step, Future[list[Explanation]]]:
        """How each step is answered, asked ahead: it is the same for all cells."""
        ways: dict[Step, Future[list[Explanation]]] = {}
        for node in self.run.flow.nodes:
            for number, source in enumerate(node.sources):
                for direction in DIRECTIONS:
                    begin, end = (node, source) if direction == "back" else (source, node)
                    ways[Step(node, number, direction)] = self.run.explained_later(
                        begin, [], to=end, direction=direction, path=[(node.number, number)]
                    )
        return ways

    def _ways_told(self) -> list[list[Any]]:
        """For each step its node's panel, its input, its direction, the strategy, and how many cells are traced."""
        return [self._step_told(step) for step in self._ways]

    def _steps_told(self, steps: list[Step]) -> list[list[Any]]:
        return [self._step_told(step) for step in steps]

    def _step_told(self, step: Step) -> list[Any]:
        explanation = self._ways[step].result()[0]
        panel = self._board.panel_of(step.node)
        return [panel.number, step.input, step.direction, explanation.steps[0][1], explanation.traced]

    def _fault(self) -> str | None:
        """In words that the session is closed, or how the program ended, where it has."""
        session = self.run.session
        if session.closed:
            return "the session is closed"
        return None if session._program.reads() else str(session._program.ended())


def _packed(found: list[tuple[Panel, str, Mask]], steps: list[list[Any]], seconds: float) -> bytes:
    """An answer as bytes."""
    told, runs, at = [], [], 0
    for panel, direction, mask in found:
        pairs = marks.runs_of(mask)
        count = int(pairs[:, 1].sum(dtype=np.int64))
        told.append({"array": panel.number, "as": direction, "count": count, "at": at, "runs": len(pairs)})
        runs.append(pairs)
        at += pairs.size
    text = json.dumps({"marks": told, "steps": steps, "milliseconds": round(seconds * 1000, 2)}).encode()
    text += b" " * (-len(text) % 4)
    words: npt.NDArray[np.uint32] = np.concatenate(runs).astype("<u4")
    return struct.pack("<I", len(text)) + text + words.tobytes()
