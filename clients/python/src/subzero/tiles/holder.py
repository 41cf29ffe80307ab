"""One program that makes tiles and answers for them: on this machine, or as an actor of a Dask worker.

A session cannot give back what it holds. When the next tile would not fit, the program is ended and a new one started;
the tiles of the old one are missing then, and whoever asks for one of them has it made again. So is it when the program
is killed.
"""

from __future__ import annotations

import threading
from dataclasses import dataclass
from typing import Any, Literal, TypeAlias

import numpy as np
from numpy.typing import NDArray

from ..faults import ProgramEnded, SubZeroError
from ..numerals import read_cells, read_values
from ..program import Reply
from ..session import Session
from .orders import Ask, Key, Merge, Order, Renewal, Request, Show
from .windows import Limits

Answer: TypeAlias = "tuple[Literal['ok', 'missing', 'ended', 'fault'], Any]"
"""What became of a call: its result; the tile is not held; the program ended, and its text; a fault, and its text."""

_MOST_ARRAYS, _MOST_FLOWS, _MOST_VERSIONS = 4096, 1024, 4096


@dataclass
class _Held:
    """What the running program holds."""

    session: Session
    arrays: dict[tuple[Any, ...], int]
    flows: dict[Any, str]
    versions: dict[Key, int]
    started: int = 0
    sent: int = 0
    cells: int = 0


@dataclass
class _Sent:
    """A request whose lines are sent: the replies to those that make the tile, None where it is missing; to its shows;
    and to its asks."""

    request: Request
    made: list[Reply] | None
    shown: list[Reply]
    asked: list[Reply]

    def taken(self) -> Answer:
        """The answer, once all replies have come."""
        if self.made is None:
            return "missing", None
        for reply in self.made:
            reply.wait("making a tile")
        parts = [_part(reply.wait("taking a tile"), show) for reply, show in zip(self.shown, self.request.shows)]
        return "ok", (parts, [_answer(reply.wait("asking"), ask) for reply, ask in zip(self.asked, self.request.asks)])


class Holder:
    """A program for tiles. Its calls give an `Answer`, and raise nothing that another process could not take."""

    def __init__(self, program: str | None = None, most: int = Limits.cells, workers: int | None = None) -> None:
        self._program = program
        self._most = most
        self._workers = workers
        self._held: _Held | None = None
        self._stopped = False
        self._turn = threading.Lock()

    def tiles(self, requests: list[Request]) -> list[Answer]:
        """Give parts of tiles' outputs and answer questions to them; make those first that are not held and have an
        order, or can be made of a tile that is held. One answer for each request.

        A result is two lists: of each show the values and which are empty, of 3 axes; of each ask the cells, (N, 3), or
        the text of the explanation, and of each merge the kinds of lineage, where they are told.
        """
        with self._turn:
            answers: list[Answer] = []
            sent: list[_Sent] = []
            try:
                for request in requests:
                    if not self._fits(request):
                        answers += [one.taken() for one in sent]
                        sent = []
                        self._renew()
                    sent.append(self._send(request))
                while sent:
                    answers.append(sent[0].taken())
                    sent = sent[1:]
            except ProgramEnded as fault:
                self._end()
                answers += [("ended", str(fault))] * (len(requests) - len(answers))
            except SubZeroError as fault:
                self._end()
                answers += [("fault", str(fault))] * (len(requests) - len(answers))
            return answers

    def pid(self) -> Answer:
        """The number of the program's process, None where none runs."""
        return "ok", None if self._held is None else self._held.session.pid

    def close(self) -> Answer:
        """End the program."""
        with self._turn:
            self._end()
        return "ok", None

    def kill(self) -> None:
        """Stop the program at once, and start no other."""
        self._stopped = True
        held = self._held
        if held is not None:
            held.session._program.kill()

    def _fits(self, request: Request) -> bool:
        """Whether the tile is held, has no order, or fits into the running program."""
        held, order = self._held, request.order
        if order is None or (held is not None and request.key in held.versions):
            return True
        if held is None:
            return False
        new = [window for window in order.windows if window.name not in held.arrays]
        known = sum(window.count for window in order.windows) - sum(window.count for window in new)
        return (
            held.cells + order.cells - known <= self._most
            and held.sent + len(new) <= _MOST_ARRAYS
            and len(held.flows) < _MOST_FLOWS
            and held.started < _MOST_VERSIONS
        )

    def _renew(self) -> None:
        """End the program, and start a new one."""
        self._end()
        if self._stopped:
            raise SubZeroError("the mosaic is closed")
        self._held = _Held(Session(program=self._program, workers=self._workers), {}, {}, {})

    def _send(self, request: Request) -> _Sent:
        """Send all lines of a request."""
        held = self._held
        if held is None:
            return _Sent(request, None, [], [])
        made: list[Reply] = []
        if request.key not in held.versions:
            if request.order is not None:
                made = self._start(held, request.order)
            elif request.renewal is not None and self._has_room(held, request.renewal):
                made = self._refresh(held, request.key, request.renewal)
            else:
                return _Sent(request, None, [], [])
        version = held.versions[request.key]
        shown = [held.session.say(b'{"show":%d,"node":%d}\n' % (version, show.node)) for show in request.shows]
        return _Sent(request, made, shown, [held.session.say(ask.line(version)) for ask in request.asks])

    def _start(self, held: _Held, order: Order) -> list[Reply]:
        """Send the lines that make a tile. Versions and names are counted here, since nobody else talks to the
        program."""
        replies = []
        for window in order.windows:
            if window.name not in held.arrays:
                replies.append(held.session.say(window.line()))
                held.sent += 1
                held.arrays[window.name] = held.sent
                held.cells += window.count
        flow = (order.flow, str(order.keep))
        if flow not in held.flows:
            name = held.flows[flow] = f"f{len(held.flows)}"
            replies.append(held.session.say(b'{"flow":"%s",' % name.encode() + order.flow[1:] + b"\n"))
            for node, strategies in order.keep:
                listed = ",".join(f'"{one}"' for one in strategies)
                line = f'{{"strategy":"{name}","node":{node},"list":[{listed}]}}\n'
                replies.append(held.session.say(line.encode()))
        base = ",".join(f'["a",{held.arrays[window.name]}]' for window in order.windows)
        replies.append(held.session.say(f'{{"start":"{held.flows[flow]}","base":[{base}]}}\n'.encode()))
        held.started += 1
        replies.append(held.session.say(b'{"await":%d}\n' % held.started))
        held.cells += order.cells - sum(window.count for window in order.windows)
        held.versions[order.key] = held.started
        return replies

    def _has_room(self, held: _Held, renewal: Renewal) -> bool:
        """Whether the tile of which another one is to be made is held, and the other one fits beside it."""
        return (
            renewal.old in held.versions
            and held.cells + renewal.cells <= self._most
            and held.sent + len(renewal.new) <= _MOST_ARRAYS
            and held.started + len(renewal.new) <= _MOST_VERSIONS
        )

    def _refresh(self, held: _Held, key: Key, renewal: Renewal) -> list[Reply]:
        """Send the lines that make a tile of another one: for each window a version of its own. What the session holds
        by that is not taken in, since nobody asks it."""
        replies = []
        version = held.versions[renewal.old]
        for window in renewal.new:
            replies.append(held.session.order(window.line(version), lambda session, text: None))
            held.sent += 1
            held.arrays[window.name] = held.sent
            held.started += 1
            version = held.started
            replies.append(held.session.say(b'{"await":%d}\n' % version))
        held.cells += renewal.cells
        held.versions[key] = version
        return replies

    def _end(self) -> None:
        held, self._held = self._held, None
        if held is not None:
            try:
                held.session.close()
            except SubZeroError:
                pass


def _part(text: bytes, show: Show) -> tuple[NDArray[Any], NDArray[Any]]:
    """The wanted part of a node's output: values and which are empty, of 3 axes."""
    words = text.split(b" ", 3 if text.startswith(b"values ") else 4)
    size = int(np.prod(show.shape))
    values, empty = read_values(words[-1], size)
    part = np.s_[:, show.part.top : show.part.bottom, show.part.left : show.part.right]
    return np.ascontiguousarray(values.reshape(show.shape)[part]), np.ascontiguousarray(empty.reshape(show.shape)[part])


def _answer(text: bytes, ask: Ask | Merge) -> Any:
    """The cells of an ask, (N, 3); the words of an explanation; the numbers behind a merge."""
    if isinstance(ask, Merge):
        return [int(word) for word in text.split()[2:]]
    if ask.explain:
        return text.decode()
    _, count, *rest = text.split(b" ", 2)
    found = rest[0] if rest else b""
    axes = 1 + found.split(b" ", 1)[0].count(b",")
    cells = read_cells(found, int(count), max(axes, 2))
    if cells.shape[1] == 2:
        cells = np.hstack([np.zeros((len(cells), 1), dtype=np.int64), cells])
    return cells
