"""Programs on a Dask cluster: each is an actor of a worker.

A worker that dies takes its actor and its program with it. Its actor is then made anew on a worker that lives, and
holds no tile; the tiles are made again when they are asked for.
"""

from __future__ import annotations

import os
import threading
import uuid
from typing import Any

from ..faults import BadInput, SubZeroError
from .holder import Answer, Holder
from .orders import Request
from .windows import Limits

_LOOK = 2.0
_PATIENCE = 120.0


class DaskCrew:
    """Programs of a cluster: as many as it has workers, or as are given, shared out among them.

    `program` is the program's path on the workers, where it is not found there by itself.
    """

    def __init__(
        self,
        client: Any,
        count: int | None,
        program: str | os.PathLike[str] | None,
        limits: Limits,
        workers: int | None,
    ) -> None:
        if getattr(client, "asynchronous", False):
            raise BadInput("the Dask client is asynchronous: take one that waits")
        self._client = client
        self._arguments = (None if program is None else os.fspath(program), limits.cells, workers)
        self.count = self.at_once = count or len(self._workers())
        self._actors: list[Any] = [None] * self.count
        self._futures: list[Any] = [None] * self.count
        self._turns = [threading.Lock() for _ in range(self.count)]

    def tiles(self, number: int, requests: list[Request]) -> list[Answer]:
        """`Holder.tiles` of a program; where its worker is lost, all tiles are missing."""
        actor = None
        try:
            with self._turns[number]:
                actor = self._actor(number)
            answers: list[Answer] = self._wait(actor, actor.tiles(requests))
            return answers
        except (OSError, ValueError, KeyError, _Lost) as fault:
            with self._turns[number]:
                if self._actors[number] is actor:
                    self._actors[number] = self._futures[number] = None
            return [("ended", f"a worker of the cluster was lost: {fault}")] * len(requests)

    def pids(self) -> list[int | None]:
        """The numbers of the programs' processes, on their workers' machines."""
        found: list[int | None] = []
        for actor in self._actors:
            try:
                found.append(None if actor is None else self._wait(actor, actor.pid())[1])
            except (OSError, ValueError, KeyError, _Lost):
                found.append(None)
        return found

    def close(self) -> None:
        """End all programs."""
        for number, actor in enumerate(self._actors):
            try:
                if actor is not None:
                    self._wait(actor, actor.close())
            except (OSError, ValueError, KeyError, _Lost):
                pass
            self._actors[number] = self._futures[number] = None

    def kill(self) -> None:
        """Nothing: what a worker has begun it ends, and `close` then ends the programs."""

    def _workers(self) -> list[str]:
        """The addresses of the workers that live."""
        found = sorted(self._client.scheduler_info()["workers"])
        if not found:
            raise SubZeroError("the Dask cluster has no worker")
        return found

    def _actor(self, number: int) -> Any:
        """The actor of this number, made where there is none."""
        if self._actors[number] is None:
            workers = self._workers()
            future = self._client.submit(
                Holder,
                *self._arguments,
                actor=True,
                pure=False,
                key=f"subzero-{number}-{uuid.uuid4()}",
                workers=[workers[number % len(workers)]],
                allow_other_workers=True,
            )
            self._actors[number] = future.result(timeout=_PATIENCE)
            self._futures[number] = future
        return self._actors[number]

    def _wait(self, actor: Any, answer: Any) -> Any:
        """Wait for an actor's answer, and look now and then whether its worker lives. Raises _Lost."""
        while True:
            try:
                return answer.result(timeout=_LOOK)
            except TimeoutError:
                if actor._address not in self._client.scheduler_info()["workers"]:
                    raise _Lost(f"{actor._address} is gone") from None


class _Lost(Exception):
    """The worker of an actor is gone."""
