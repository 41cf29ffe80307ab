"""The program as a process: lines go in, each in one write, and replies come back in their order.

Two threads of their own stand between the caller and the program. One sends the lines, so that an interrupt never cuts
one in two; it keeps few of them ahead of their replies, so that what is cancelled was mostly not sent. The other reads
the replies, so that the program never waits for somebody to take one while this side waits for it to take a line:
neither long lines nor many lines sent ahead can lock the two together.
"""

from __future__ import annotations

import os
import shutil
import subprocess
import tempfile
import threading
import time
import weakref
from collections import deque
from collections.abc import Sequence
from pathlib import Path
from queue import SimpleQueue
from typing import BinaryIO

from . import progress
from .faults import Cancelled, OutOfStep, ProgramEnded, ProgramMissing, Refused, SubZeroError

AHEAD = 32
"""How many lines are with the program at most before their replies have come; further ones wait on this side. Where
it is to answer many asks at the same time, it has twice as many."""

_PIECE = 1 << 20
_KEPT_IN_MEMORY = 1 << 26
_MOST_QUEUED = 1 << 27
_SHOWN = 4096


def find(program: str | os.PathLike[str] | None = None) -> str:
    """The program's path: the one given, else what the variable SUBZERO names, else the one that was installed with this
    package, else `subzero` on the search path, else `crates/subzero/out/subzero` of the checkout in which this file
    lies. Raises ProgramMissing where there is none."""
    named = program or os.environ.get("SUBZERO")
    if named:
        found = shutil.which(os.fspath(named))
        if found is None:
            raise ProgramMissing(f"{os.fspath(named)} is no program that can be run")
        return found
    packed = Path(__file__).resolve().parent / "bin" / "subzero"
    found = shutil.which(str(packed)) or shutil.which("subzero")
    if found is not None:
        return found
    for folder in Path(__file__).resolve().parents:
        built = folder / "crates" / "subzero" / "out" / "subzero"
        if os.access(built, os.X_OK) and built.is_file():
            return str(built)
    raise ProgramMissing(
        "the program was not found: name it by Session(program=..) or by the variable SUBZERO, put it on the search "
        "path as subzero, or build it in this checkout, which leaves it in crates/subzero/out"
    )


class Reply:
    """The reply to one line that was handed to the session: taken when it is wanted, and then held."""

    def __init__(self, program: Program, text: bytes) -> None:
        self._program = program
        self._sent = text
        self._line = 0
        self._at = (0, 0)  # where the line begins among all that were sent, and how long it is
        self._text: bytes | None = None
        self._fault: BaseException | None = None
        self._come = threading.Event()
        self._claim = threading.Lock()  # taken once: by the sending thread, or by who cancels

    def claim(self) -> bool:
        """Whether the caller is the first to ask: one line is sent, or cancelled, and never both."""
        return self._claim.acquire(blocking=False)

    def sending(self, line: int, at: int) -> None:
        """Called by the sending thread alone: the line is sent now, as the session's line of this number, and begins at
        this byte of all that were sent.
        """
        text = self._sent
        self._line, self._at = line, (at, len(text))
        if len(text) > _SHOWN:  # what may be large is not kept: a refusal shows its beginning and its end
            self._sent = text[: _SHOWN // 2] + b" .. " + text[-_SHOWN // 2 :]

    def line(self) -> bytes:
        """The line as it was sent. Raises SubZeroError where the session is closed."""
        return self._program.sent_line(*self._at)

    def come(self, text: bytes | None) -> None:
        """Called by the two threads alone: the reply is `text`, or there is none."""
        self._text = text
        self._come.set()

    def fail(self, fault: BaseException) -> None:
        """The line was not sent, for this reason, which `wait` raises."""
        self._fault = fault
        self._come.set()

    def done(self) -> bool:
        """Whether the reply has come, or was cancelled."""
        return self._come.is_set()

    def cancel(self) -> bool:
        """Give the line up where it was not sent yet; whether that was so. Its `wait` then raises Cancelled."""
        if not self.claim():
            return isinstance(self._fault, Cancelled)
        self.fail(Cancelled("the line was given up before it was sent: ask again"))
        return True

    def cancelled(self) -> bool:
        """Whether the line was given up."""
        return isinstance(self._fault, Cancelled)

    def come_by(self, doing: str) -> None:
        """Wait until the reply has come, or no reply can come any more."""
        if not self._come.is_set():
            with progress.shown(doing) as step:
                self.come_during(step)

    def come_during(self, step: progress.Step) -> None:
        """The same, as a part of something that is shown."""
        while not self._come.wait(step.seconds) and self._program.reads():
            step.show()

    def wait(self, doing: str) -> bytes:
        """The reply's text without the line's number; `doing` is shown while it is waited for.

        Raises Refused where the line was refused, Cancelled where it was given up, ProgramEnded where the program ended
        before.
        """
        self.come_by(doing)
        if self._fault is not None:
            raise self._fault
        if self._text is None:
            raise self._program.ended()
        number, _, text = self._text.partition(b" ")
        if number != b"%d" % self._line:
            raise OutOfStep(f"line {self._line} has the reply {self._text[:80]!r}")
        if text.startswith(b"refused "):
            raise Refused([int(word) for word in text.split()[1:]], self._line, self._sent)
        return text


def come_each(replies: Sequence[Reply], doing: str) -> None:
    """Wait until all these replies have come, or none can come any more."""
    if any(not reply.done() for reply in replies):
        with progress.shown(doing) as step:
            for number, reply in enumerate(replies):
                step.show_in_turn(f"{doing}, {number} of {len(replies)} lines" if len(replies) > 1 else doing)
                reply.come_during(step)


class Program:
    """A running program. `words` are its mode and options; `held` are open files that it inherits, such as the one
    that is locked, which are closed here when the program is closed or let go; `ahead` is how many lines are with it at
    most before their replies have come."""

    def __init__(self, path: str, words: list[str], held: tuple[int, ...] = (), ahead: int = AHEAD) -> None:
        self._errors = tempfile.TemporaryFile()
        self._process = subprocess.Popen(
            [path, *words],
            stdin=subprocess.PIPE,
            stdout=subprocess.PIPE,
            stderr=self._errors,
            bufsize=0,
            pass_fds=held,
            start_new_session=True,  # an interrupt from the terminal stops the waiting, not the program
        )
        assert self._process.stdin is not None and self._process.stdout is not None
        self._to, self._from = self._process.stdin, self._process.stdout
        self._owner = os.getpid()
        self._held = held
        self._ahead = ahead
        self._queue: SimpleQueue[Reply | None] = SimpleQueue()
        self._awaited: deque[Reply] = deque()
        self._turn, self._books = threading.Lock(), threading.Lock()
        self._queued, self._taken = 0, 0
        self._sent = tempfile.SpooledTemporaryFile(_KEPT_IN_MEMORY)
        self._records: list[BinaryIO] = []
        self._wrote = ""
        self._closed, self._let_go, self._over = False, False, False
        _widen(self._to.fileno())
        _widen(self._from.fileno())
        self._reader = threading.Thread(target=self._read, name="subzero replies", daemon=True)
        self._sender = threading.Thread(target=self._send_each, name="subzero lines", daemon=True)
        self._reader.start()
        self._sender.start()
        _RUNNING.add(self)

    @property
    def pid(self) -> int:
        """The number of the process."""
        return self._process.pid

    @property
    def closed(self) -> bool:
        """Whether the session was closed."""
        return self._closed

    def send(self, line: bytes) -> Reply:
        """Hand over one line, which ends in its one newline, to be sent behind those before it; gives its reply, which
        comes later.

        Raises ProgramEnded where the program has ended, SubZeroError where the session is closed, or was begun by
        another process, of which this one is a fork.
        """
        if self._closed:
            raise SubZeroError("the session is closed")
        if os.getpid() != self._owner:
            raise SubZeroError(f"the session belongs to process {self._owner}, which began it: begin another one here")
        if not self.reads():
            raise self.ended()
        while self._queued - self._taken > _MOST_QUEUED and self.reads():
            time.sleep(0.001)
        reply = Reply(self, line)
        with self._turn:
            self._queue.put(reply)
            self._queued += len(line)
        return reply

    def reads(self) -> bool:
        """Whether replies may still come."""
        return self._reader.is_alive() and os.getpid() == self._owner

    def record(self, path: str | os.PathLike[str]) -> None:
        """Write all lines sent so far to a file, and each further one before it is sent."""
        with self._books:
            out = open(path, "wb", buffering=0)
            self._sent.seek(0)
            shutil.copyfileobj(self._sent, out)
            self._records.append(out)

    def sent_line(self, at: int, length: int) -> bytes:
        """The bytes that were sent from one on. Raises SubZeroError where the session is closed."""
        with self._books:
            if self._sent.closed:
                raise SubZeroError("the session is closed, and what was said in it by lines is no longer there")
            self._sent.seek(at)
            return self._sent.read(length)

    def ended(self) -> ProgramEnded:
        """The exception that says how the program ended, once it has."""
        if os.getpid() == self._owner:
            self._reader.join()
        return ProgramEnded(self._process.wait(), self._wrote)

    def close(self) -> ProgramEnded | None:
        """End the session: the program reads to its end and stops. Gives how it ended, where that is not status 0."""
        self._closed = True
        if os.getpid() != self._owner:
            return None
        self._queue.put(None)
        self._sender.join()
        fault = self.ended()
        self._close_files()
        self._close_held()
        return fault if fault.status != 0 else None

    def let_go(self) -> None:
        """End the program without waiting for it: lines that were not sent are dropped, those that were are answered.

        It takes no lock, since a finalizer may call it at any moment of any thread.
        """
        if os.getpid() == self._owner:
            self._let_go = True
            self._queue.put(None)
            self._close_held()

    def kill(self) -> None:
        """Stop the program at once."""
        if os.getpid() == self._owner:
            self._process.kill()

    def forget(self) -> None:
        """Let go of the streams in a fork of the process, so that they end with the process that began the session."""
        for stream in (self._to, self._from):
            stream.close()
        self._close_held()

    def _close_files(self) -> None:
        with self._books:
            for stream in (self._from, self._errors, self._sent, *self._records):
                stream.close()

    def _close_held(self) -> None:
        held, self._held = self._held, ()
        for file in held:
            os.close(file)

    def _send_each(self) -> None:
        """Send line after line, up to the end of the session, and end the program's input."""
        try:
            self._send_lines()
        finally:
            try:
                self._to.close()
            except OSError:
                pass
            if self._let_go:
                self._reader.join()
                self._close_files()

    def _send_lines(self) -> None:
        ahead: deque[Reply] = deque()
        lines = 0
        while (reply := self._queue.get()) is not None:
            while len(ahead) >= self._ahead and not self._let_go and self.reads():
                if ahead[0]._come.wait(0.5):
                    ahead.popleft()
            self._taken += len(reply._sent)
            if not reply.claim():
                continue
            if self._let_go or self._over:
                reply.come(None)
                continue
            line = reply._sent
            try:
                at = self._keep(line)
            except (OSError, ValueError) as fault:  # the disk is full, or the session was let go meanwhile
                reply.fail(fault)
                continue
            lines += 1
            reply.sending(lines, at)
            self._awaited.append(reply)
            ahead.append(reply)
            try:
                self._write(line)
            except BrokenPipeError:
                pass  # the program has ended, and the reading thread tells how
            except OSError:
                self._process.kill()  # half a line was written: nothing more can be said in this session
            if self._over:  # the reading thread may have left before the line was among those awaited
                self._answer_rest()

    def _keep(self, line: bytes) -> int:
        """Keep a line that is sent; gives at which byte of all of them it begins."""
        with self._books:
            at = self._sent.seek(0, os.SEEK_END)
            self._sent.write(line)
            for out in self._records:
                out.write(line)
            return at

    def _write(self, line: bytes) -> None:
        view = memoryview(line)
        while len(view):  # one write, but for a signal in the middle of it
            view = view[self._to.write(view) :]

    def _read(self) -> None:
        try:
            self._read_each()
        finally:
            self._process.wait()
            self._errors.seek(0)
            self._wrote = self._errors.read().decode(errors="replace").strip()
            self._over = True
            self._answer_rest()

    def _read_each(self) -> None:
        stream = self._from.fileno()
        pieces: list[bytes] = []
        while piece := os.read(stream, _PIECE):
            *whole, rest = piece.split(b"\n")
            for end in whole:
                pieces.append(end)
                if not self._awaited:
                    self._process.kill()  # it says lines that nobody asked for: it is not this program
                    return
                self._awaited.popleft().come(b"".join(pieces))
                pieces.clear()
            pieces.append(rest)

    def _answer_rest(self) -> None:
        """Say of each line that is awaited that no reply comes."""
        while True:
            try:
                self._awaited.popleft().come(None)
            except IndexError:
                return


_RUNNING: weakref.WeakSet[Program] = weakref.WeakSet()


def _forget_all() -> None:
    for program in list(_RUNNING):
        program.forget()


if hasattr(os, "register_at_fork"):
    os.register_at_fork(after_in_child=_forget_all)


def _widen(stream: int) -> None:
    """Ask for a pipe that holds more, where the system has such a call: long lines then take fewer turns."""
    try:
        import fcntl

        fcntl.fcntl(stream, fcntl.F_SETPIPE_SZ, _PIECE)
    except (ImportError, AttributeError, OSError):
        pass
