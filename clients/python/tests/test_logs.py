"""Logs that are opened again: what they hold is read from them; one session at a time has one."""

import errno
import json
import os
import signal
import subprocess
import sys
import tempfile
import time
import unittest
from pathlib import Path
from typing import Any
from unittest import mock

import numpy as np

import subzero
from subzero import logs
from subzero.program import find

SKY: Any = np.ma.MaskedArray([[1, 9, 0], [9, 9, 5]], [[False, False, True], [False, False, False]])
OPENS = """
import subzero, sys, time
session = subzero.Session(log=sys.argv[1])
print(session.pid, flush=True)
time.sleep(60)
"""


class Logs(unittest.TestCase):
    def setUp(self) -> None:
        folder = tempfile.TemporaryDirectory()
        self.addCleanup(folder.cleanup)
        self.log = Path(folder.name) / "survey.log"

    def write(self) -> None:
        """A log with an array of two versions, a table as CSV, a flow with named nodes, and two awaited runs."""
        with subzero.Session(log=self.log) as session:
            first, second = session.array("sky", SKY), session.array("sky", [[[9, 1]], [[1, 9]]])
            session.say(b'{"csv":"limits","text":"1,,-3\\r\\n\\"07\\",5,6"}\n').wait("handing in limits")
            flow = session.flow("stars")
            clean = flow.clean(flow.input(0), t=9, name="clean")
            flow.regions(clean, t=5, name="labels", keep=["pay_one"])
            flow.convolve(clean, [[0, -1, 2]])
            for base in (first, second):
                session.start(flow, [base]).wait()
            session.start(flow, [first])  # which is not awaited, and not in the log

    def test_a_log_tells_what_it_holds(self) -> None:
        self.write()
        with subzero.Session(log=self.log) as session:
            self.assertEqual(repr(session), "<Session: 3 arrays, 1 flow, 2 runs, log survey.log>")
            self.assertEqual(list(session.arrays), [("sky", 1), ("sky", 2), ("limits", 1)])
            self.assertEqual(session.arrays["sky", 1].values.tolist(), SKY.tolist())
            self.assertEqual(session.arrays["sky"].values.tolist(), [[[9, 1]], [[1, 9]]])
            self.assertEqual(session.arrays["limits"].values.tolist(), [[1, None, -3], [7, 5, 6]])
            self.assertEqual(session.arrays["sky", 1].shape, (2, 3))
            self.assertEqual((list(session.flows), list(session.runs)), (["stars"], [1, 2]))
            flow = session.flows["stars"]
            told = [
                "node 0 clean, clean (9 and more)",
                "node 1 labels, regions (5 and more)",
                "node 2, convolve (1 by 3)",
            ]
            self.assertEqual([str(node) for node in flow.nodes], told)
            self.assertEqual(flow.nodes[2].parameters["kernel"], [[0, -1, 2]])
            self.assertEqual(flow.nodes[2].sources, (flow.nodes[0],))
            self.assertIs(session.flows["stars"], flow)
            key: Any
            for key in ("moon", ("sky", 3)):
                with self.assertRaises(KeyError):
                    session.arrays[key]
            with self.assertRaises(KeyError):
                session.runs[3]

    def test_a_run_of_a_log_answers_at_once(self) -> None:
        self.write()
        with subzero.Session(log=self.log) as session:
            run = session.runs[1]
            self.assertEqual(run.base, (session.arrays["sky", 1],))
            self.assertEqual(run.values("labels").tolist(), [[0, 0, 0], [0, 0, 6]])
            self.assertEqual(run.values("sky").tolist(), SKY.tolist())
            self.assertEqual(run.values(run["clean"]).tolist(), [[1, 1, None], [1, 1, 5]])
            self.assertEqual(np.argwhere(run.back("labels", (1, 2), to="sky")).tolist(), [[1, 2]])
            self.assertEqual(run.explain("labels", (1, 2), to="clean")[0].steps, ((run["labels"], "pay_one"),))
            self.assertEqual(session.runs[2].shape("labels"), (2, 1, 2))
            self.assertIs(session.runs[1], run)
            self.assertEqual(session.start(run.flow, [session.arrays["sky", 1]]).number, 3)
            self.assertEqual(session.array("sky", SKY).version, 3)
            self.assertEqual(list(session.runs), [1, 2, 3])
            with self.assertRaisesRegex(subzero.BadInput, "no array named 'moon': it has clean, labels, sky"):
                run.values("moon")

    def test_a_run_of_a_log_is_drawn(self) -> None:
        try:
            import matplotlib

            matplotlib.use("Agg")
            from matplotlib import pyplot
            from subzero import plot
        except ImportError:
            self.skipTest("matplotlib is not here")
        self.write()
        with subzero.Session(log=self.log) as session:
            figure = plot.lineage(session.runs[1], "labels", (1, 2), to="sky")
            self.assertGreaterEqual(len(figure.axes), 3)
            pyplot.close("all")

    def test_a_log_that_is_retold_wrongly(self) -> None:
        self.write()
        with subzero.Session(log=self.log) as session:
            with self.assertRaisesRegex(subzero.BadInput, r"has the shape \(2, 3\), not \(3, 2\)"):
                session.held_array("sky", 1, (3, 2))
            self.assertIs(session.held_array("sky", 1, (2, 3)), session.arrays["sky", 1])
            wrong = session.flow("stars")
            wrong.convolve(wrong.input(0), [[1, 1, 1]])
            with self.assertRaisesRegex(subzero.BadInput, "node 0 is clean of input 0 with t 9, and here convolve"):
                wrong.held()
            with self.assertRaisesRegex(subzero.BadInput, "node 0 is clean"):
                session.held_run(1, wrong, [session.arrays["sky", 1]])
            right = session.flow("stars")
            clean = right.clean(right.input(0), t=9)
            labels = right.regions(clean, t=5)
            right.convolve(clean, [[0, -1, 2]])
            with self.assertRaisesRegex(subzero.BadInput, "run 1 was started on array sky 1"):
                session.held_run(1, right, [session.arrays["sky", 2]])
            self.assertEqual(session.held_run(1, right, [session.arrays["sky", 1]]).values(labels)[1, 2], 6)
            with self.assertRaisesRegex(subzero.BadInput, r"no run 3: it holds \[1, 2\]"):
                session.held_run(3, right, [])

    def test_raw_lines_are_held_too(self) -> None:
        with subzero.Session() as session:
            session.say(b'{"cells":[[1,2]],"array":"a","cells":[[3,4,5]]}\n')
            session.say(b'{"array":"A","cells":[[1]]}\n')  # refused
            session.say(b'{"flow":"f","inputs":1,"nodes":[{"op":"neg","from":[{"i":0}]}]}\n')
            session.say(b'{"start":"f","base":[["a",1]]}\n')
            self.assertEqual([str(array) for array in session.arrays.values()], ["array a 1"])
            self.assertEqual(session.arrays["a"].values.tolist(), [[3, 4, 5]])
            self.assertEqual(session.runs[1].values(session.flows["f"].nodes[0]).tolist(), [[-3, -4, -5]])

    def test_raw_lines_are_not_kept_twice(self) -> None:
        """What was said by a line is taken from the lines that were sent, as long as the session is open."""
        with subzero.Session() as session:
            session.say(b'{"array":"a","cells":[[' + b"1," * 5000 + b"2]]}\n").wait("saying")
            session.say(b'{"csv":"c","text":"1,2\\n3,4\\n"}\n')
            kept, late = session.arrays["a"], session.arrays["c"]
            self.assertEqual((kept.shape, int(kept.values.sum())), ((1, 5001), 5002))
        self.assertEqual(int(kept.values.sum()), 5002)
        with self.assertRaisesRegex(subzero.SubZeroError, "the session is closed"):
            late.values

    def test_values_of_a_log_can_be_taken_after_the_session(self) -> None:
        self.write()
        with subzero.Session(log=self.log) as session:
            sky = session.arrays["sky", 1]
        self.assertEqual(sky.values.tolist(), SKY.tolist())
        with subzero.Session(log=self.log) as session:
            sky = session.arrays["sky", 1]
        self.log.write_bytes(self.log.read_bytes().replace(b"[[1,9,null]", b"[[1,8,null]"))
        with self.assertRaisesRegex(subzero.SubZeroError, "no longer the log"):
            sky.values

    def test_a_log_that_ends_anywhere_is_read_as_the_program_reads_it(self) -> None:
        self.write()
        whole = self.log.read_bytes()
        for length in range(0, len(whole), 23):
            self.log.write_bytes(whole[:length])
            ended = subprocess.run([find(), "check", str(self.log)], capture_output=True)
            if ended.returncode == 0:
                logs.read_log(self.log)
            else:
                with self.assertRaises(subzero.SubZeroError):
                    logs.read_log(self.log)

    def test_a_log_whose_making_was_stopped_is_made(self) -> None:
        """Whatever a stop in the making of a log leaves; any other file stays as it is."""
        left = b"\0SubZero log 1\r\n\0"
        for length in range(len(left) + 1):
            self.log.write_bytes(left[:length])
            with subzero.Session(log=self.log) as session:
                self.assertEqual(session.array("a", [[1]]).version, 1)
        for other in (b"\0", b"\1", b"hello", left + b"\0", b"\0SubZero lug"):
            self.log.write_bytes(other[:-1] + b"x")
            with self.assertRaises(subzero.ProgramEnded):
                subzero.Session(log=self.log)
            self.assertEqual(self.log.read_bytes(), other[:-1] + b"x")

    def test_the_names_of_nodes_stand_in_the_log(self) -> None:
        self.write()
        held = logs.read_log(self.log).flows["stars"]
        self.assertEqual((held.names, held.lists), (["clean", "labels", None], {1: ["pay_one"]}))
        fields = json.loads(held.line())  # of a field that is there twice the last one stands
        self.assertEqual(
            (fields["flow"], [node["op"] for node in fields["nodes"]]), ("stars", ["clean", "regions", "convolve"])
        )


class Locks(unittest.TestCase):
    def setUp(self) -> None:
        folder = tempfile.TemporaryDirectory()
        self.addCleanup(folder.cleanup)
        self.log = Path(folder.name) / "survey.log"

    def open_elsewhere(self) -> tuple[subprocess.Popen[str], int]:
        """Another process that has the log open, and the number of its program."""
        other = subprocess.Popen([sys.executable, "-c", OPENS, str(self.log)], stdout=subprocess.PIPE, text=True)
        self.addCleanup(other.wait)
        self.addCleanup(other.kill)
        assert other.stdout is not None
        self.addCleanup(other.stdout.close)
        return other, int(other.stdout.readline())

    def open_within(self, seconds: float) -> subzero.Session:
        """A session on the log, as soon as it can be opened."""
        until = time.monotonic() + seconds
        while True:
            try:
                return subzero.Session(log=self.log)
            except subzero.LogHeld:
                if time.monotonic() > until:
                    raise
                time.sleep(0.05)

    def test_two_sessions_cannot_have_one_log(self) -> None:
        with subzero.Session(log=self.log) as session:
            session.array("a", [[1]])
            link = self.log.with_name("link.log")
            link.symlink_to(self.log)
            for path in (self.log, link):
                with self.assertRaisesRegex(subzero.LogHeld, "open in another session, of this process"):
                    subzero.Session(log=path)
            self.assertEqual(session.array("a", [[2]]).version, 2)
        with subzero.Session(log=self.log) as session:
            self.assertEqual(session.array("a", [[3]]).version, 3)

    def test_a_lock_of_another_process_says_which(self) -> None:
        other, _ = self.open_elsewhere()
        with self.assertRaises(subzero.LogHeld) as caught:
            subzero.Session(log=self.log)
        self.assertIn(f"of process {other.pid} ({sys.executable}", str(caught.exception))

    def test_a_lock_lasts_as_long_as_the_program(self) -> None:
        """Where the client is killed, its program reads to its end, and the log is free once that has ended."""
        other, program = self.open_elsewhere()
        os.kill(program, signal.SIGSTOP)
        other.kill()
        other.wait()
        with self.assertRaises(subzero.LogHeld):
            subzero.Session(log=self.log)
        os.kill(program, signal.SIGCONT)
        self.open_within(300).close()

    def test_a_lock_ends_with_a_killed_program(self) -> None:
        session = subzero.Session(log=self.log)
        os.kill(session.pid, signal.SIGKILL)
        with self.assertRaises(subzero.ProgramEnded):
            session.close()
        subzero.Session(log=self.log).close()

    def test_a_file_system_without_locks_is_told(self) -> None:
        with mock.patch("fcntl.flock", side_effect=OSError(errno.ENOLCK, "No locks available")):
            with self.assertWarnsRegex(UserWarning, "cannot be locked .No locks available.: keep other sessions away"):
                session = subzero.Session(log=self.log)
        self.assertEqual(session.array("a", [[1]]).version, 1)
        session.close()

    def test_a_log_that_cannot_be_opened_leaves_no_lock(self) -> None:
        self.log.write_text("this is no log at all\n")
        for _ in range(2):
            with self.assertRaises(subzero.ProgramEnded) as caught:
                subzero.Session(log=self.log)
            self.assertEqual(caught.exception.status, 5)
        with self.assertRaises(FileNotFoundError):
            subzero.Session(log=self.log.parent / "nowhere" / "survey.log")


if __name__ == "__main__":
    unittest.main()
