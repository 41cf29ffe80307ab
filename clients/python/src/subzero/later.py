"""Answers that are taken later than they are asked for."""

from __future__ import annotations

from collections.abc import Callable
from typing import TYPE_CHECKING, Any, Generic, TypeVar

from .cells import Cells, Mask, Values
from .faults import BadInput, SubZeroError
from .program import Program, Reply, come_each

if TYPE_CHECKING:
    from .changes import Change, New
    from .merges import Kinds, Merging
    from .run import Array, Explanation, Run

T = TypeVar("T")


class Future(Generic[T]):
    """An answer whose lines are handed over. `result` waits for the replies, and gives it or raises what they say.

    >>> ahead = run.values_later(labels)
    >>> ahead.result().shape
    (4, 4)
    >>> ahead.done(), ahead.cancel(), ahead.cancelled()
    (True, False, False)
    """

    def __init__(self, replies: list[Reply], doing: str, read: Callable[[list[bytes]], T]) -> None:
        self._replies = replies
        self._doing = doing
        self._read = read
        self._answer: list[T] = []

    def result(self) -> T:
        """The answer. Raises Refused, Cancelled or ProgramEnded, as the call that it stands for would.

        An interrupt (Ctrl-C) gives up those of its lines that were not sent yet.
        """
        if not self._answer:
            try:
                come_each(self._replies, self._doing)
                texts = [reply.wait(self._doing) for reply in self._replies]
            except SubZeroError:
                raise
            except BaseException:
                self.cancel()
                raise
            self._answer = [self._read(texts)]
            self._replies = []
        return self._answer[0]

    def done(self) -> bool:
        """Whether `result` need not wait."""
        return all(reply.done() for reply in self._replies)

    def cancel(self) -> bool:
        """Give up the lines that were not sent yet; whether all were, so that nothing is asked."""
        return all([reply.cancel() for reply in self._replies]) and bool(self._replies)

    def cancelled(self) -> bool:
        """Whether one of its lines was given up, so that there is no answer."""
        return any(reply.cancelled() for reply in self._replies)

    def __repr__(self) -> str:
        state = "cancelled" if self.cancelled() else "done" if self.done() else "pending"
        return f"<Future: {self._doing or 'an answer'}, {state}>"


Later = Future
"""The name that `Future` had before."""


class Pipeline:
    """Lines sent ahead: each call is that of `Run` with the run put first, and gives a `Future`.

    At the end of the `with` all replies have come; what one of them refuses is raised by its `result`. Where the `with`
    is left by an exception, an interrupt (Ctrl-C) among them, what was not sent yet is given up: its `result` raises
    Cancelled, and the session goes on. At most 32 lines are with the program before their replies have come.

    >>> with session.pipeline() as ahead:
    ...     answers = [ahead.back(run, labels, (row, 1), to=sky) for row in range(4)]
    >>> [int(answer.result().sum()) for answer in answers]
    [3, 3, 1, 1]
    >>> with session.pipeline() as ahead:
    ...     done, values = ahead.wait(run), ahead.values(run, labels)
    ...     touched, way = ahead.forward(run, sky, (3, 2), to=labels), ahead.explain(run, labels, (2, 2), to=sky)
    >>> done.result(), values.result().max(), int(touched.result().sum()), way.result()[0].traced
    (None, 11, 3, 32)
    >>> with session.pipeline() as ahead:
    ...     merging, change, kinds = ahead.merge(run), ahead.refresh(run, sky, {(0, 2): 9}), ahead.merged(run)
    >>> merging.result(), change.result().cells, kinds.result()
    (<Merging of run 1>, 5, {})
    """

    def __init__(self, program: Program) -> None:
        self._program = program
        self._sent: list[Reply] = []

    def __enter__(self) -> Pipeline:
        return self

    def __exit__(self, kind: object, *rest: object) -> None:
        try:
            if kind is None:
                come_each(self._sent, "a pipeline")
        finally:
            for reply in self._sent:
                if not reply.done():
                    reply.cancel()

    def wait(self, run: Run) -> Future[None]:
        """As `Run.wait`."""
        return self._hold(self._own(run).wait_later())

    def values(self, run: Run, array: Array) -> Future[Values]:
        """As `Run.values`."""
        return self._hold(self._own(run).values_later(array))

    def back(self, run: Run, array: Array, cells: Cells, **how: Any) -> Future[Mask]:
        """As `Run.back`."""
        return self._hold(self._own(run).asked_later("back", array, cells, **how))

    def forward(self, run: Run, array: Array, cells: Cells, **how: Any) -> Future[Mask]:
        """As `Run.forward`."""
        return self._hold(self._own(run).asked_later("forward", array, cells, **how))

    def explain(self, run: Run, array: Array, cells: Cells, **how: Any) -> Future[list[Explanation]]:
        """As `Run.explain`."""
        return self._hold(self._own(run).explained_later(array, cells, **how))

    def refresh(self, run: Run, array: Array, cells: New, *, scale: float | None = None) -> Future[Change]:
        """As `Run.refresh`."""
        return self._hold(self._own(run).refresh_later(array, cells, scale=scale))

    def merge(self, run: Run) -> Future[Merging]:
        """As `Run.merge`."""
        return self._hold(self._own(run).merge_later())

    def merged(self, run: Run) -> Future[Kinds]:
        """As `Merging.wait`, of a run whose merge was asked. Its `result` raises Refused with 25 where it was not."""
        from .merges import merged_later

        return self._hold(merged_later(self._own(run)))

    def _own(self, run: Run) -> Run:
        if not run.session.runs_on(self._program):
            raise BadInput(f"{run!r} is of another session than the pipeline")
        return run

    def _hold(self, later: Future[T]) -> Future[T]:
        self._sent += later._replies
        return later
