"""What can go wrong, as exceptions. Each is a `SubZeroError`."""

from __future__ import annotations

import re

_RULES = {
    1: "the line is not JSON",
    2: "the line is longer than 33,554,432 bytes",
    3: "the line has none of the forms",
    4: "a name is not 1 to 32 of the bytes a to z, 0 to 9 and _",
    5: "the cells are ragged, none, no whole numbers of 64 bits, or in more than 16 layers or layers of several shapes",
    6: "there are more than 1,048,576 cells",
    7: "4,096 arrays are held, or more than 4,194,304 cells would be",
    8: "the flow has a fault",
    9: "1,024 flows are held, or one of this name",
    10: "there is no such flow",
    11: "there is no such array version among the base arrays",
    12: "the number of base arrays is not the flow's",
    13: "the shapes do not fit",
    14: "4,096 versions are held, or more than 4,194,304 cells would be, or the next version has no number",
    15: "there is no such version",
    16: "the path is empty, longer than 32 steps, or not joined",
    17: "a cell is out of range",
    18: "there is no such node, or its list of strategies is empty, too long, or has one twice or unfit",
    19: "the version is not awaited",
    20: "there is no such node to show",
    22: "the version to be refreshed or merged is still being built",
    23: "the version has no such input",
    24: "a plan has more than 65,536 units",
    25: "no merge of the version was asked",
}

_FAULTS = {
    1: "it has no node",
    2: "it has more than 32 nodes",
    3: "a source is no base array and no earlier node",
    4: "more or fewer sources than its operator has inputs",
    5: "a parameter against its rule",
    6: "it takes more than 32 base arrays",
}

_STATUSES = {
    0: "it read its input to the end",
    1: "it does not know these words",
    2: "reading the session failed",
    3: "writing a reply failed",
    4: "the log's file failed",
    5: "the file is not a log",
    6: "the file is already a log",
    7: "the log is bad",
    8: "it is out of memory",
    9: "the session is too long",
}


class SubZeroError(Exception):
    """The base of all that this package raises on its own."""


class ProgramMissing(SubZeroError):
    """The program was not found; the text says where it was looked for."""


class BadInput(SubZeroError, ValueError):
    """A value that is refused before it is sent; the text says why."""


class Cancelled(SubZeroError):
    """A line was given up before it was sent, as what stands behind an interrupt in a pipeline is."""


class LogHeld(SubZeroError):
    """Another session holds the log's file; the text says which process it is, where the system tells."""


class TooManyPaths(SubZeroError):
    """There are more paths between two arrays than the limit.

    `count` is how many there are, `limit` how many may be asked at once.
    """

    def __init__(self, count: int, limit: int) -> None:
        super().__init__(
            f"there are {count} paths between the two arrays, above the limit of {limit}: "
            "follow one by path=.., or raise it by limit=.."
        )
        self.count = count
        self.limit = limit


class OutOfStep(SubZeroError):
    """A reply is not what the program's documents say of it."""


class ProgramEnded(SubZeroError):
    """The program has ended, so that a line has no reply.

    `status` is its exit status (below 0: the signal that ended it), `text` what it wrote on standard error. `place` is
    the byte of a bad log at which it is bad, and else None.
    """

    def __init__(self, status: int, text: str) -> None:
        if status < 0:
            why = f"signal {-status} ended it"
        else:
            why = _STATUSES.get(status, "for no reason that is known")
        super().__init__(f"subzero ended with status {status}: {why}" + (f"; it wrote: {text}" if text else ""))
        self.status = status
        self.text = text
        bad = re.search(r"^subzero: bad log at (\d+)$", text, re.M)
        self.place = None if bad is None else int(bad[1])


class Refused(SubZeroError):
    """The program refused a line, which changed nothing; the session goes on.

    `number` is the refusal's number and `rule` what it says in words. `line` is the line's number in the session, from
    1, and `text` the line that was sent. Where they are printed, `fault` is the number of the flow's fault, `node` the
    node, `input` the number of its input and `source` the number that is no source; else each of them is None. `cause`
    says which part of the rule it was, with numbers, and what can be done, where the client counts it; else it is None.
    """

    def __init__(self, printed: list[int], line: int, text: bytes) -> None:
        self.number = printed[0]
        self.rule = _RULES.get(self.number, "for a rule that this client does not know")
        self.line = line
        self.text = text.decode(errors="replace").rstrip("\n")
        self.cause: str | None = None
        rest: list[int | None] = [*printed[1:]]
        if self.number == 8:
            self.fault, self.node, self.input, self.source = (rest + [None] * 4)[:4]
        else:
            self.fault, self.input, self.source = None, None, None
            self.node = rest[0] if rest else None
        super().__init__(self._told())

    def because(self, cause: str | None) -> None:
        """Say by which cause it was refused."""
        if cause is not None:
            self.cause = cause
            self.args = (self._told(),)

    def _told(self) -> str:
        told = f"refused {self.number}: {self.cause or self.rule}"
        if self.fault is not None:
            told += f" ({_FAULTS.get(self.fault, f'fault {self.fault}')})"
        if self.node is not None:
            told += f", at node {self.node}"
        if self.input is not None:
            told += f", input {self.input}"
        if self.source is not None:
            told += f", source {self.source}"
        shown = self.text if len(self.text) <= 200 else self.text[:160] + " .. " + self.text[-30:]
        return f"{told}; line {self.line}: {shown}"
