"""Logs raised to format 2 from Python: what they hold, how runs are written in them from then on, what is refused."""

from __future__ import annotations

import contextlib
import io
import os
import shutil
import subprocess
import sys
import threading
import unittest
from pathlib import Path
from typing import Any
from unittest import mock

import numpy as np

import interrupts
import subzero
from drawn import draw_flow
from log_bytes import HEADER, RAISED, shortened
from subzero import __main__ as shell
from subzero import locks, logs
from with_log import WithLog

UPGRADES = "import subzero, sys; subzero.upgrade(sys.argv[1], program=sys.argv[2])"


def versions_of(log: Path) -> list[tuple[int, bytes]]:
    """The versions in a log: of each the kind of its group, and its body."""
    text = log.read_bytes()
    with open(log, "rb") as file:
        found = [group for group in logs.groups(file) if group.is_version]
    return [(group.kind, text[group.begin : group.begin + group.length]) for group in found]


class Raised(WithLog):
    def test_one_group_is_added_once(self) -> None:
        with subzero.Session(log=self.log):
            pass
        for keep in ("nothing", "small", "both"):
            with self.subTest(keep=keep):
                self.log.unlink()
                self.write(keep, 2)
                before, held = self.log.read_bytes(), logs.read_log(self.log)
                raised = before[:-1] + RAISED + b"\0"
                for _ in range(3):
                    self.assertEqual(subzero.upgrade(str(self.log)), 2)
                    self.assertEqual(self.log.read_bytes(), raised)
                    self.assertEqual(subzero.check(self.log), subzero.Sound(versions=2))
                again = logs.read_log(self.log)
                self.assertEqual((again.flows, list(again.arrays)), (held.flows, list(held.arrays)))
                lists = [version.lists() for version in held.versions.values()]
                self.assertEqual([version.lists() for version in again.versions.values()], lists)
        with subzero.Session(log=self.log) as session:  # no lock was left
            self.assertEqual(len(session.runs), 2)

    def test_the_empty_log(self) -> None:
        with subzero.Session(log=self.log):
            pass
        self.assertEqual(subzero.upgrade(self.log), 2)
        self.assertEqual(self.log.read_bytes(), HEADER + RAISED + b"\0")
        self.assertEqual(subzero.check(self.log), subzero.Sound(versions=0))
        self.write("both", 1)
        self.assertEqual([kind for kind, _ in versions_of(self.log)], [6])
        self.assertEqual(subzero.check(self.log), subzero.Sound(versions=1))

    def test_a_run_is_written_with_short_sets_from_then_on(self) -> None:
        """Flows that are drawn, kept in all ways, are run before and behind, each by one worker, so that the parts of
        their stores come in one order: the second body is the first one, but for its number and its sets. Both are
        answered alike, before and after the log is opened again."""
        draw, grown = np.random.RandomState(5), [0, 0]
        with subzero.Session(log=self.log, workers=1) as session:
            base = session.array("image", np.ma.masked_equal(draw.randint(-30, 70, (9, 11)), 5))
            table = session.array("table", draw.randint(-9, 9, (1, 40)))
            for number in range(12):
                flow = session.flow(f"drawn_{number}", inputs=2)
                draw_flow(flow, [(9, 11), (1, 40)], draw)
                session.start(flow, [base, table]).wait()
        subzero.upgrade(self.log)
        with subzero.Session(log=self.log, workers=1) as session:
            runs = [session.runs[number] for number in range(1, 13)]
            for run in runs:
                session.start(run.flow, run.base).wait()
            again = {run.number: self.asked(session.runs[run.number + 12], run.number) for run in runs}
            self.assertEqual(again, {run.number: self.asked(run, run.number) for run in runs})
        versions = versions_of(self.log)
        self.assertEqual([kind for kind, _ in versions], [4] * 12 + [6] * 12)
        held = logs.read_log(self.log)
        for number, ((_, before), (_, behind)) in enumerate(zip(versions, versions[12:]), 1):
            nodes = held.flows[held.versions[number].flow].nodes
            short = shortened(before, [len(node["from"]) for node in nodes])
            self.assertEqual(behind, (number + 12).to_bytes(4, "big") + short[4:], number)
            self.assertEqual(held.versions[number].lists(), held.versions[number + 12].lists())
            grown[0], grown[1] = grown[0] + len(before), grown[1] + len(behind)
        self.assertLess(grown[1], grown[0])
        self.assertEqual(subzero.check(self.log), subzero.Sound(versions=24))
        with subzero.Session(log=self.log) as session:
            for number, told in again.items():
                for opened in (number, number + 12):
                    self.assertEqual(self.asked(session.runs[opened], number), told)
            kinds = {number: list(run.merge().wait().values()) for number, run in session.runs.items()}
            self.assertEqual([kinds[number] for number in range(1, 13)], [kinds[number] for number in range(13, 25)])

    def asked(self, run: subzero.Run, seed: int) -> list[Any]:
        """The values of a run, and its lineage in both directions over each step of some cells."""
        draw, told = np.random.RandomState(seed), []
        for node in run.flow.nodes:
            told.append(run.values(node).tolist())
            for number, source in enumerate(node.sources):
                path = [(node.number, number)]
                behind, touched = draw.rand(*run.shape(node)) < 0.3, draw.rand(*run.shape(source)) < 0.3
                told.append(np.argwhere(run.back(node, behind, to=source, path=path)).tolist())
                told.append(np.argwhere(run.forward(source, touched, to=node, path=path)).tolist())
                ways = [
                    run.explain(node, behind, to=source, path=path),
                    run.explain(source, touched, to=node, path=path, direction="forward"),
                ]
                told.append([strategy for (one,) in ways for _, strategy in one.steps])
        return told

    def test_a_refresh_of_a_run_that_was_there(self) -> None:
        self.write("both", 1)
        subzero.upgrade(self.log)
        with subzero.Session(log=self.log) as session:
            run = session.runs[1]
            change = run.refresh("sky", {(0, 0): 400})
            change.run.wait()
            values = [change.run.values(node).tolist() for node in run.flow.nodes]
            started = session.start(run.flow, change.array)
            self.assertEqual(values, [started.values(node).tolist() for node in run.flow.nodes])
        with subzero.Session(log=self.log) as session:
            self.assertEqual([session.runs[2].values(node).tolist() for node in session.runs[2].flow.nodes], values)
        self.assertEqual([kind for kind, _ in versions_of(self.log)], [4, 6])
        self.assertEqual(subzero.check(self.log), subzero.Sound(versions=2))

    def test_a_raised_log_that_ends_anywhere_is_read_as_the_program_reads_it(self) -> None:
        self.write("both")
        subzero.upgrade(self.log)
        with subzero.Session(log=self.log) as session:
            session.start(session.flows["stars"], session.arrays["sky"]).wait()
        whole, places = self.log.read_bytes(), set()
        with open(self.log, "rb") as file:
            groups = list(logs.groups(file))
        self.assertEqual([group.kind for group in groups], [1, 2, 3, 3, 4, 5, 6])
        ends = [group.at + further for group in groups for further in (0, 1, 2, 9, 10, 11)]
        for length in {*ends, *range(0, len(whole), 41), len(whole) - 1}:
            self.log.write_bytes(whole[:length])
            with self.assertRaises(subzero.ProgramEnded) as caught:
                subzero.check(self.log)
            place = caught.exception.place
            why = "does not begin as a log" if place is None else f"the log is bad at {place}$"
            with self.assertRaisesRegex(subzero.OutOfStep, why):
                logs.read_log(self.log)
            places.add(place)
        self.assertEqual(len(places), len(groups) + 2)  # no log, each group, and the last gate

    def test_a_log_whose_lineage_is_wrong_stays_so(self) -> None:
        self.write_wrong()
        found = subzero.check(self.log)
        self.assertEqual(subzero.upgrade(self.log), 2)
        self.assertEqual(subzero.check(self.log), found)
        self.assertEqual(found, subzero.Unsound(version=2, node=1, strategy="full_one_b"))


class Refused(WithLog):
    def test_what_is_no_log(self) -> None:
        for text in (b"", b"\1SubZero log", b"\0" + HEADER[1:] + b"\0", b"this is no log at all\n"):
            self.log.write_bytes(text)
            with self.assertRaises(subzero.ProgramEnded) as caught:
                subzero.upgrade(self.log)
            self.assertEqual((caught.exception.status, caught.exception.place), (5, None))
            self.assertEqual(self.log.read_bytes(), text)

    def test_what_is_not_there(self) -> None:
        with self.assertRaises(FileNotFoundError):
            subzero.upgrade(self.log)
        self.assertFalse(self.log.exists())
        with self.assertRaises(IsADirectoryError):
            subzero.upgrade(self.log.parent)

    def test_a_bad_log_is_told_with_its_place(self) -> None:
        """And stays as it is; so does one whose groups stand in another order than the formats have them."""
        self.write("both")
        whole = self.log.read_bytes()
        with open(self.log, "rb") as file:
            last = list(logs.groups(file))[-1]
        raised = whole[:-1] + RAISED
        short = shortened(whole[last.begin : -1], [1, 1])
        for text, place in (
            (HEADER + b"\1", 16),
            (whole[:20], 16),
            (whole[:-1], len(whole) - 1),
            (whole[:-2], last.at),
            (raised + RAISED + b"\0", len(raised)),
            (raised + whole[last.at :], len(raised)),
            (whole[: last.at + 1] + b"\6" + whole[last.at + 2 :], last.at),
            (whole[:-1] + b"\1\5" + (1).to_bytes(8, "big") + b"\0\0", len(whole) - 1),
            (raised + b"\1\6" + len(short).to_bytes(8, "big") + b"\0\0\0\1" + short[4:] + b"\0", len(raised)),
            (raised + b"\1\6" + (len(short) - 1).to_bytes(8, "big") + b"\0\0\0\2" + short[4:-1] + b"\0", len(raised)),
        ):
            self.log.write_bytes(text)
            with self.subTest(text=text[-60:].hex(" ")), self.assertRaises(subzero.ProgramEnded) as caught:
                subzero.upgrade(self.log)
            self.assertEqual((caught.exception.status, caught.exception.place), (7, place))
            self.assertIn(f"bad log at {place}", str(caught.exception))
            self.assertEqual(self.log.read_bytes(), text)
            with self.assertRaises(subzero.ProgramEnded) as caught:
                subzero.check(self.log)
            self.assertEqual((caught.exception.status, caught.exception.place), (7, place))

    def test_a_file_that_takes_no_more_bytes(self) -> None:
        """At whatever byte that is: the log holds the same in either format, and can be raised later."""
        if shutil.which("prlimit") is None:
            self.skipTest("prlimit is not here")
        self.write("both")
        before, statuses = self.log.read_bytes(), []
        for limit in range(len(before) - 2, len(before) + 13):
            self.log.write_bytes(before)
            limited = self.fake(f"trap '' XFSZ; exec prlimit --fsize={limit} {subzero.program.find()} \"$@\"")
            try:
                subzero.upgrade(self.log, program=limited)
                statuses.append(0)
            except subzero.ProgramEnded as fault:
                self.assertIn("the log's file failed", str(fault))
                statuses.append(fault.status)
            self.assertEqual(" in format 2, " in logs.told(self.log), statuses[-1] == 0, limit)
            self.assertEqual(subzero.check(self.log), subzero.Sound(versions=1))
            self.assertEqual(subzero.upgrade(self.log), 2)
            self.assertEqual(self.log.read_bytes(), before[:-1] + RAISED + b"\0")
        self.assertEqual(statuses, [4] * 12 + [0] * 3)

    def test_what_another_program_says(self) -> None:
        self.write()
        before = self.log.read_bytes()
        for said in ("log", "log 1", "log 3", "log 2\necho more", "raised", ""):
            with self.subTest(said=said), self.assertRaisesRegex(subzero.OutOfStep, "that raised a log said"):
                subzero.upgrade(self.log, program=self.fake(f"echo {said}"))
        for lines, why, status in (
            ("kill -9 $$", "signal 9 ended it", -9),
            ("echo 'usage: subzero MODE' >&2; exit 1", "it does not know these words", 1),
            ("echo \"subzero: the log's file failed\" >&2; exit 4", "the log's file failed", 4),
            ("exit 8", "it is out of memory", 8),
        ):
            with self.assertRaisesRegex(subzero.ProgramEnded, why) as caught:
                subzero.upgrade(self.log, program=self.fake(lines))
            self.assertEqual((caught.exception.status, caught.exception.place), (status, None))
        with self.assertRaises(subzero.ProgramMissing):
            subzero.upgrade(self.log, program="/nowhere/subzero")
        self.assertEqual(subzero.upgrade(self.log, program=self.fake('[ "$1" = upgrade ] && echo log 2')), 2)
        self.assertEqual(self.log.read_bytes(), before)

    def test_what_takes_long_is_shown(self) -> None:
        self.write()
        out = io.StringIO()
        with mock.patch.object(out, "isatty", return_value=True), contextlib.redirect_stderr(out):
            subzero.upgrade(self.log, program=self.fake("sleep 1; echo log 2"))
        self.assertIn("subzero: raising survey.log, 0.", out.getvalue())


class Locked(WithLog):
    def test_a_log_that_a_session_has(self) -> None:
        with subzero.Session(log=self.log) as session:
            with self.assertRaisesRegex(subzero.LogHeld, "is open in another session, of this process"):
                subzero.upgrade(self.log)
            self.assertEqual(session.array("a", [[1]]).version, 1)

    def test_a_log_that_is_raised_is_nobody_elses_meanwhile(self) -> None:
        self.write()
        going, on = self.log.with_name("going"), self.log.with_name("on")
        slow = self.fake(f"touch {going}; while [ ! -e {on} ]; do sleep 0.05; done; echo log 2")
        found: list[int] = []
        raising = threading.Thread(target=lambda: found.append(subzero.upgrade(self.log, program=slow)))
        raising.start()
        try:
            self.wait_for(going)
            for call in (lambda: subzero.Session(log=self.log), lambda: subzero.check(self.log)):
                with self.assertRaises(subzero.LogHeld):
                    call()
            with self.assertRaises(subzero.LogHeld):
                subzero.upgrade(self.log)
        finally:
            on.touch()
            raising.join()
        self.assertEqual(found, [2])
        subzero.Session(log=self.log).close()

    def test_the_lock_lasts_as_long_as_the_program(self) -> None:
        """Where the client is killed, its program has the lock until it has ended."""
        self.write()
        going, on = self.log.with_name("going"), self.log.with_name("on")
        slow = self.fake(f"touch {going}; while [ ! -e {on} ]; do sleep 0.05; done; touch {going}.out")
        self.addCleanup(on.touch)
        other = subprocess.Popen([sys.executable, "-c", UPGRADES, str(self.log), slow], stderr=subprocess.DEVNULL)
        self.addCleanup(other.wait)
        self.addCleanup(other.kill)
        self.wait_for(going)
        other.kill()
        other.wait()
        with self.assertRaises(subzero.LogHeld):
            subzero.check(self.log)
        on.touch()
        self.wait_for(going.with_name("going.out"))

    def test_an_interrupt_ends_the_program_and_the_lock(self) -> None:
        interrupts.heed(self)
        self.write()
        slow = self.fake(f"echo $$ >{self.log.with_name('pid')}; kill -INT {os.getpid()}; exec sleep 60")
        with self.assertRaises(KeyboardInterrupt):
            subzero.upgrade(self.log, program=slow)
        running = int(self.log.with_name("pid").read_text())
        with self.assertRaises(ProcessLookupError):
            os.kill(running, 0)
        subzero.Session(log=self.log).close()

    def test_the_lock_is_that_of_writing(self) -> None:
        self.write()
        with mock.patch("subzero.upgrading.lock_log", side_effect=locks.lock_log) as locked:
            subzero.upgrade(self.log, program=self.fake("echo log 2"))
        locked.assert_called_once_with(str(self.log), make=False)


class FromAShell(WithLog):
    """What the program says is said, and its status is the status."""

    def told(self) -> tuple[int, str, str]:
        out, err = io.StringIO(), io.StringIO()
        with contextlib.redirect_stdout(out), contextlib.redirect_stderr(err):
            status = shell.main(["upgrade", str(self.log)])
        return status, out.getvalue(), err.getvalue()

    def test_it_says_what_the_program_says(self) -> None:
        self.write()
        whole = self.log.read_bytes()
        for text in (whole, whole[:-1] + RAISED + b"\0", whole[:-1], b"", b"this is no log at all\n"):
            self.log.write_bytes(text)
            ended = subprocess.run([subzero.program.find(), "upgrade", str(self.log)], capture_output=True, text=True)
            left = self.log.read_bytes()
            self.log.write_bytes(text)
            self.assertEqual(self.told(), (ended.returncode, ended.stdout, ended.stderr))
            self.assertEqual(self.log.read_bytes(), left)

    def test_a_log_that_is_raised(self) -> None:
        self.write()
        self.assertEqual(self.told(), (0, "log 2\n", ""))
        out = io.StringIO()
        with contextlib.redirect_stdout(out):
            self.assertEqual(shell.main(["info", str(self.log)]), 0)
        self.assertIn(" bytes in format 2, of them", out.getvalue().splitlines()[0])


if __name__ == "__main__":
    unittest.main()
