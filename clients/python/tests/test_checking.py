"""The check of a log from Python: logs that are sound, wrong, bad or none, and such as another session has."""

import contextlib
import io
import os
import subprocess
import sys
import threading
import time
import unittest
from pathlib import Path
from unittest import mock

import interrupts

import subzero
from subzero import __main__ as shell
from subzero import locks, logs
from with_log import WithLog

OPENS = """
import subzero, sys, time
session = subzero.Session(log=sys.argv[1])
print(session.pid, flush=True)
time.sleep(60)
"""
CHECKS = "import subzero, sys; subzero.check(sys.argv[1], program=sys.argv[2])"


class Results(unittest.TestCase):
    def test_they_are_true_where_the_log_is_sound(self) -> None:
        self.assertTrue(subzero.Sound(versions=0))
        self.assertTrue(subzero.Sound(versions=3))
        self.assertFalse(subzero.Unsound(version=1, node=0, strategy="full_one_b"))
        self.assertEqual(subzero.Sound(3), subzero.Sound(versions=3))
        self.assertEqual(repr(subzero.Sound(3)), "Sound(versions=3)")
        self.assertEqual(
            repr(subzero.Unsound(1, 0, "full_one_b")), "Unsound(version=1, node=0, strategy='full_one_b')"
        )
        with self.assertRaises(AttributeError):
            subzero.Sound(3).versions = 4  # type: ignore[misc]

    def test_they_are_told_in_words(self) -> None:
        self.assertEqual(str(subzero.Sound(0)), "sound: the log holds no version, so that it keeps no lineage")
        self.assertEqual(str(subzero.Sound(1)), "sound: what the log keeps of the lineage of 1 version is right")
        told = "sound: what the log keeps of the lineage of 1,234 versions is right"
        self.assertEqual(str(subzero.Sound(1234)), told)
        self.assertEqual(
            str(subzero.Unsound(2, 0, "comp_many")),
            "unsound: what version 2 keeps of the lineage of node 0, by comp_many, is wrong: "
            "asks may be answered wrongly",
        )


class Checks(WithLog):
    def test_sound_logs(self) -> None:
        with subzero.Session(log=self.log):
            pass
        self.assertEqual(subzero.check(self.log), subzero.Sound(versions=0))
        for number, word in enumerate(("asked backward", "asked forward", "both", "small", "nothing"), 1):
            with self.subTest(keep=word):
                self.log.unlink()
                self.write(word, number)
                before = self.log.read_bytes()
                self.assertEqual(subzero.check(str(self.log)), subzero.Sound(versions=number))
                self.assertEqual(self.log.read_bytes(), before)
        with subzero.Session(log=self.log) as session:  # no lock was left
            self.assertEqual(len(session.runs), 5)

    def test_a_log_whose_lineage_is_wrong(self) -> None:
        self.write_wrong()
        found = subzero.check(self.log)
        self.assertEqual(found, subzero.Unsound(version=2, node=1, strategy="full_one_b"))
        self.assertFalse(found)
        with subzero.Session(log=self.log) as session:  # it is lawful: a session answers by it, wrongly
            run = session.runs[2]
            self.assertEqual(run.back(run.flow.nodes[1], (0, 1), to="sky").tolist(), [[True, False]])

    def test_a_bad_log_is_told_with_its_place(self) -> None:
        self.write()
        whole = self.log.read_bytes()
        for length, place in ((17, 16), (20, 16), (len(whole) - 1, len(whole) - 1)):
            self.log.write_bytes(b"\1SubZero log 1\r\n\1" if length == 17 else whole[:length])
            for call in (lambda: subzero.check(self.log), lambda: subzero.Session(log=self.log)):
                with self.subTest(length=length), self.assertRaises(subzero.ProgramEnded) as caught:
                    call()
                fault = caught.exception
                self.assertEqual((fault.status, fault.place), (7, place))
                self.assertIn(f"bad log at {place}", str(fault))
            with self.assertRaisesRegex(subzero.OutOfStep, f"^the log is bad at {place}$"):
                logs.read_log(self.log)

    def test_what_is_no_log(self) -> None:
        for text in (b"", b"\1SubZero log", b"this is no log at all\n"):
            self.log.write_bytes(text)
            with self.assertRaises(subzero.ProgramEnded) as caught:
                subzero.check(self.log)
            self.assertEqual((caught.exception.status, caught.exception.place), (5, None))
            self.assertEqual(self.log.read_bytes(), text)
        with self.assertRaises(FileNotFoundError):
            subzero.check(self.log.with_name("other.log"))
        self.assertFalse(self.log.with_name("other.log").exists())

    def test_what_another_program_says(self) -> None:
        self.write()
        for said in ("sound", "sound -1", "sound 1\necho more", "unsound version 1 node 0", ""):
            with self.subTest(said=said), self.assertRaisesRegex(subzero.OutOfStep, "check of a log said"):
                subzero.check(self.log, program=self.fake(f"echo {said}"))
        with self.assertRaisesRegex(subzero.ProgramEnded, "signal 9 ended it"):
            subzero.check(self.log, program=self.fake("kill -9 $$"))
        with self.assertRaisesRegex(subzero.ProgramEnded, "it is out of memory"):
            subzero.check(self.log, program=self.fake("exit 8"))
        with self.assertRaises(subzero.ProgramMissing):
            subzero.check(self.log, program="/nowhere/subzero")
        self.assertEqual(subzero.check(self.log), subzero.Sound(1))

    def test_what_takes_long_is_shown(self) -> None:
        self.write()
        out = io.StringIO()
        with mock.patch.object(out, "isatty", return_value=True), contextlib.redirect_stderr(out):
            subzero.check(self.log, program=self.fake("sleep 1; echo sound 1"))
        self.assertIn("subzero: checking survey.log, 0.", out.getvalue())
        self.assertTrue(out.getvalue().endswith("\r"))


class Locked(WithLog):
    def test_a_log_that_another_session_has(self) -> None:
        self.write()
        with subzero.Session(log=self.log):
            with self.assertRaisesRegex(subzero.LogHeld, "is open in another session, of this process"):
                subzero.check(self.log)
        other = subprocess.Popen([sys.executable, "-c", OPENS, str(self.log)], stdout=subprocess.PIPE, text=True)
        self.addCleanup(other.wait)
        self.addCleanup(other.kill)
        assert other.stdout is not None
        self.addCleanup(other.stdout.close)
        other.stdout.readline()
        with self.assertRaisesRegex(subzero.LogHeld, f"of process {other.pid} "):
            subzero.check(self.log)

    def test_a_log_that_is_checked_is_no_sessions_meanwhile(self) -> None:
        """And two can check one log at the same time."""
        self.write()
        going, on = self.log.with_name("going"), self.log.with_name("on")
        slow = self.fake(f"touch {going}; while [ ! -e {on} ]; do sleep 0.05; done; echo sound 1")
        found: list[object] = []
        checking = threading.Thread(target=lambda: found.append(subzero.check(self.log, program=slow)))
        checking.start()
        try:
            self.wait_for(going)
            with self.assertRaises(subzero.LogHeld):
                subzero.Session(log=self.log)
            self.assertEqual(subzero.check(self.log), subzero.Sound(1))
        finally:
            on.touch()
            checking.join()
        self.assertEqual(found, [subzero.Sound(1)])
        subzero.Session(log=self.log).close()

    def test_a_lock_lasts_as_long_as_the_program_that_checks(self) -> None:
        """Where the client is killed, its program has the lock until it has ended."""
        self.write()
        going, on = self.log.with_name("going"), self.log.with_name("on")
        slow = self.fake(f"touch {going}; while [ ! -e {on} ]; do sleep 0.05; done")
        self.addCleanup(on.touch)
        other = subprocess.Popen([sys.executable, "-c", CHECKS, str(self.log), slow], stderr=subprocess.DEVNULL)
        self.addCleanup(other.wait)
        self.addCleanup(other.kill)
        self.wait_for(going)
        other.kill()
        other.wait()
        with self.assertRaises(subzero.LogHeld):
            subzero.Session(log=self.log)
        on.touch()
        until = time.monotonic() + 60
        while True:
            try:
                subzero.Session(log=self.log).close()
                break
            except subzero.LogHeld:
                self.assertLess(time.monotonic(), until)
                time.sleep(0.05)

    def test_an_interrupt_ends_the_program_and_the_lock(self) -> None:
        interrupts.heed(self)
        self.write()
        slow = self.fake(f"echo $$ >{self.log.with_name('pid')}; kill -INT {os.getpid()}; exec sleep 60")
        with self.assertRaises(KeyboardInterrupt):
            subzero.check(self.log, program=slow)
        running = int(self.log.with_name("pid").read_text())
        with self.assertRaises(ProcessLookupError):
            os.kill(running, 0)
        subzero.Session(log=self.log).close()

    def test_the_lock_is_that_of_reading(self) -> None:
        self.write()
        with mock.patch("subzero.checking.lock_log", side_effect=locks.lock_log) as locked:
            subzero.check(self.log)
        locked.assert_called_once_with(str(self.log), alone=False)


class FromAShell(WithLog):
    """What the program says is said, and its status is the status."""

    def told(self) -> tuple[int, str, str]:
        out, err = io.StringIO(), io.StringIO()
        with contextlib.redirect_stdout(out), contextlib.redirect_stderr(err):
            status = shell.main(["check", str(self.log)])
        return status, out.getvalue(), err.getvalue()

    def test_it_says_what_the_program_says(self) -> None:
        self.write(runs=2)
        sound = self.log.read_bytes()
        self.log.unlink()
        self.write_wrong()
        wrong = self.log.read_bytes()
        for text in (sound, wrong, sound[:-1], b"", b"this is no log at all\n"):
            self.log.write_bytes(text)
            ended = subprocess.run([subzero.program.find(), "check", str(self.log)], capture_output=True, text=True)
            self.assertEqual(self.told(), (ended.returncode, ended.stdout, ended.stderr))
        self.log.write_bytes(wrong)
        self.assertEqual(self.told(), (0, "unsound version 2 node 1 full_one_b\n", ""))


if __name__ == "__main__":
    unittest.main()
