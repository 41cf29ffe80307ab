"""Refusals, ends of the program, long lines, records, progress."""

import gc
import io
import os
import signal
import subprocess
import sys
import tempfile
import threading
import time
import unittest
from pathlib import Path
from typing import Any, cast
from unittest import mock

import interrupts
import numpy as np

import subzero
from subzero import progress
from subzero.program import AHEAD, Reply, find


class Refusals(unittest.TestCase):
    def setUp(self) -> None:
        self.session = subzero.Session()
        self.addCleanup(self.session.close)

    def refused(self, call: Any, *arguments: Any, **named: Any) -> subzero.Refused:
        with self.assertRaises(subzero.Refused) as caught:
            call(*arguments, **named)
        return caught.exception

    def test_a_refusal_says_its_rule_its_line_and_its_node(self) -> None:
        base = self.session.array("a", [[1, 2, 3]])
        flow = self.session.flow("shapes")
        flow.add(flow.transpose(flow.input(0)), flow.input(0))
        fault = self.refused(self.session.start, flow.define(), [base])
        self.assertEqual((fault.number, fault.node, fault.line), (13, 1, 3))
        self.assertEqual(fault.text, '{"start":"shapes","base":[["a",1]]}')
        self.assertEqual(
            str(fault), 'refused 13: the shapes do not fit, at node 1; line 3: {"start":"shapes","base":[["a",1]]}'
        )
        self.assertEqual(self.session.array("a", [[4]]).version, 2)

    def test_faults_of_a_flow(self) -> None:
        empty = self.refused(self.session.flow("f").define)
        self.assertEqual((empty.number, empty.fault, empty.node), (8, 1, None))
        self.assertIn("it has no node", str(empty))
        flow = self.session.flow("f")
        flow.convolve(flow.neg(flow.input(0)), [[1, 1]])
        fault = self.refused(flow.define)
        self.assertEqual((fault.number, fault.fault, fault.node), (8, 5, 1))
        flow = self.session.flow("f")
        for _ in range(33):
            flow.neg(flow.input(0))
        self.assertEqual(self.refused(flow.define).fault, 2)
        flow = self.session.flow("f", inputs=33)
        flow.neg(flow.input(0))
        self.assertEqual(self.refused(flow.define).fault, 6)
        flow = self.session.flow("f")
        flow.neg(flow.input(0))
        self.assertIs(flow.define(), flow)
        flow = self.session.flow("f")
        flow.abs(flow.input(0))
        self.assertEqual(self.refused(flow.define).number, 9)

    def test_what_is_not_held(self) -> None:
        base = self.session.array("a", [[1]])
        flow = self.session.flow("f")
        node = flow.neg(flow.input(0))
        self.assertEqual(self.refused(self.session.start, flow, [base, base]).number, 12)
        for line, number in ((b'{"start":"f","base":[["a",2]]}', 11), (b'{"start":"g","base":[["a",1]]}', 10)):
            self.assertEqual(self.refused(self.session.say(line + b"\n").wait, "starting").number, number)
        run = self.session.start(flow, [base])
        fault = self.refused(run.explain, node, (0, 0), to=base)
        self.assertEqual(fault.number, 19)
        self.assertIn("call its wait() first", str(fault))
        run.wait()
        self.assertEqual(run.explain(node, (0, 0), to=base)[0].traced, 0)
        other = subzero.Run(self.session, run.number + 1, flow, (base,))
        self.assertEqual(self.refused(other.back, node, (0, 0), to=base).number, 15)
        self.assertEqual(self.refused(other.wait).number, 15)
        for call, why in (
            (lambda: self.session.held_array("a", 2), "no array a 2: it holds a 1"),
            (lambda: self.session.held_array("a", 1, (1, 2)), "has the shape"),
            (lambda: self.session.held_run(2), "no run 2"),
            (lambda: self.session.flow("absent").held(), "no flow absent: it holds f"),
            (lambda: self.session.flow("f").held(), "another flow f: it has 1 nodes, and this one 0"),
        ):
            with self.assertRaisesRegex(subzero.BadInput, why):
                call()

    def test_too_many_cells(self) -> None:
        for _ in range(4):
            self.session.array("big", np.zeros((1024, 1024), dtype=int))
        fault = self.refused(self.session.array, "big", [[1]])
        self.assertEqual(fault.number, 7)

    def test_strategies(self) -> None:
        base = self.session.array("a", [[1, 9, 9]])
        flow = self.session.flow("f")
        labels = flow.regions(flow.input(0), t=5)
        self.assertEqual(self.refused(flow.define().keep, labels, ["map"]).number, 18)
        flow.keep(labels, ["blackbox"])
        run = self.session.start(flow, [base])
        run.wait()
        self.assertEqual(run.explain(labels, (0, 1), to=base)[0].steps, ((labels, "blackbox"),))
        flow = self.session.flow("kept")
        labels = flow.regions(flow.input(0), t=5, keep=["pay_many"])
        run = self.session.start(flow, [base])
        run.wait()
        explained = run.explain(labels, (0, 1), to=base)[0]
        self.assertEqual((explained.steps, explained.traced), (((labels, "pay_many"),), 0))
        self.assertEqual(np.argwhere(run.back(labels, (0, 1), to=base)).tolist(), [[0, 1], [0, 2]])

    def test_what_is_refused_before_it_is_sent(self) -> None:
        base: Any = self.session.array("a", [[1, 2]])
        flow: Any = self.session.flow("f")
        other = self.session.flow("g")
        x, up = flow.input(0), cast(Any, "up")
        call: Any
        node = flow.neg(x)
        for call, why in (
            (lambda: self.session.flow("f").neg(x), "no array of the flow f, but of another of that name"),
            (lambda: flow.add_k(x, 1.5), "must be a whole number"),
            (lambda: flow.add_k(x, True), "must be a whole number"),
            (lambda: flow.mul_k(x, 2**63), "must lie from"),
            (lambda: flow.clip(x, None, 3), "lo is None"),
            (lambda: flow.slice(x, -1, 0, 1, 1), "r0 is -1"),
            (lambda: flow.block(x, "mean", 2, 2), "no fold"),
            (lambda: flow.convolve(x, [[0.5]]), "kernel"),
            (lambda: flow.convolve(x, [1, 2, 3]), "kernel"),
            (lambda: flow.neg(other.input(0)), "no array of the flow f"),
            (lambda: flow.neg(base), "no array of the flow f"),
            (lambda: flow.neg(x, keep="map"), "a list of names"),
            (lambda: flow.neg(x, keep=["full"]), "no strategy"),
            (lambda: flow.input(1), "the number of an input"),
            (lambda: flow.keep(x, ["map"]), "no node of the flow f"),
            (lambda: self.session.flow("F"), "no name"),
            (lambda: self.session.start(flow, [cast(Any, np.ones((2, 2)))]), "hand it in"),
        ):
            with self.assertRaisesRegex(subzero.BadInput, why):
                call()
        self.assertEqual(flow.nodes, [node])
        run = self.session.start(flow, [base])
        with self.assertRaisesRegex(subzero.BadInput, "takes no further node"):
            flow.neg(x)
        for call, why in (
            (lambda: run.back(node, (0, 2), to=base), "out of range"),
            (lambda: run.values(other.input(0)), "of another flow"),
            (lambda: run.values(self.session.array("a", [[1]])), "no array that the run was started on"),
            (lambda: run.explain(node, (0, 0), to=base, direction=up), "no direction"),
        ):
            with self.assertRaisesRegex(subzero.BadInput, why):
                call()


class Ends(unittest.TestCase):
    def test_a_killed_program(self) -> None:
        session = subzero.Session()
        session.array("a", [[1]])
        os.kill(session.pid, signal.SIGKILL)
        for _ in range(2):
            with self.assertRaises(subzero.ProgramEnded) as caught:
                session.array("a", [[1]])
            self.assertEqual(caught.exception.status, -signal.SIGKILL)
            self.assertIn("signal 9 ended it", str(caught.exception))
        with self.assertRaises(subzero.ProgramEnded):
            session.close()
        with self.assertRaisesRegex(subzero.SubZeroError, "closed"):
            session.array("a", [[1]])

    def test_a_program_killed_while_a_reply_is_awaited(self) -> None:
        with tempfile.TemporaryDirectory() as folder:
            silent = Path(folder) / "silent"
            silent.write_text("#!/bin/sh\nexec sleep 60\n")
            silent.chmod(0o755)
            session = subzero.Session(program=silent)
            timer = threading.Timer(0.3, os.kill, (session.pid, signal.SIGTERM))
            timer.start()
            with self.assertRaises(subzero.ProgramEnded) as caught:
                session.array("a", np.zeros((1024, 1024), dtype=int))
            self.assertEqual(caught.exception.status, -signal.SIGTERM)
            timer.join()
            with self.assertRaises(subzero.ProgramEnded):
                session.close()

    def test_a_program_that_is_another_one(self) -> None:
        with tempfile.TemporaryDirectory() as folder:
            echo = Path(folder) / "echo"
            echo.write_text("#!/bin/sh\nexec cat\n")
            echo.chmod(0o755)
            with self.assertRaises(subzero.OutOfStep), subzero.Session(program=echo) as session:
                session.array("a", [[1]])

    def test_a_session_closed_twice(self) -> None:
        session = subzero.Session()
        session.close()
        session.close()

    def test_a_log_is_kept(self) -> None:
        with tempfile.TemporaryDirectory() as folder:
            log = Path(folder) / "survey.log"
            with subzero.Session(log=log) as session:
                sky = session.array("sky", [[1, 2]])
                flow = session.flow("f")
                node = flow.neg(flow.input(0))
                run = session.start(flow, [sky])
                run.wait()
            with subzero.Session(log=log) as session:
                sky = session.held_array("sky", 1, (1, 2))
                flow = session.flow("f")
                node = flow.neg(flow.input(0))
                run = session.held_run(1, flow.held(), [sky])
                self.assertEqual(run.values(node).tolist(), [[-1, -2]])
                self.assertEqual(session.array("sky", [[3]]).version, 2)

    def test_a_file_that_is_no_log(self) -> None:
        with tempfile.TemporaryDirectory() as folder:
            log = Path(folder) / "notes.txt"
            log.write_text("this is no log at all\n")
            with self.assertRaises(subzero.ProgramEnded) as caught:
                subzero.Session(log=log)
            self.assertEqual(caught.exception.status, 5)

    def test_options(self) -> None:
        for workers, askers in ((2, None), (None, 4), (1, 64)):
            with subzero.Session(workers=workers, askers=askers) as session:
                self.assertEqual(session.array("a", [[1]]).version, 1)
        with self.assertRaises(subzero.ProgramEnded) as caught:
            subzero.Session(workers=65)
        self.assertEqual(caught.exception.status, 1)
        with self.assertRaises(subzero.BadInput):
            subzero.Session(workers="2")  # type: ignore[arg-type]

    def test_where_the_program_is_looked_for(self) -> None:
        self.assertEqual(find("cat"), find(find("cat")))
        with mock.patch.dict(os.environ, {"SUBZERO": "/nowhere/subzero"}):
            with self.assertRaisesRegex(subzero.ProgramMissing, "/nowhere/subzero"):
                find()
            self.assertTrue(find("cat").endswith("/cat"))
        with tempfile.TemporaryDirectory() as folder, mock.patch.dict(os.environ, {"PATH": folder}):
            os.environ.pop("SUBZERO", None)
            own = Path(folder) / "subzero"
            own.write_text("")
            own.chmod(0o755)
            self.assertEqual(find(), str(own))
            module = Path(folder) / "clone" / "clients" / "python" / "src" / "subzero" / "program.py"
            built = Path(folder) / "clone" / "crates" / "subzero" / "out" / "subzero"
            own.unlink()
            with mock.patch("subzero.program.__file__", str(module)):
                with self.assertRaisesRegex(subzero.ProgramMissing, "not found"):
                    find()
                built.parent.mkdir(parents=True)
                built.write_text("")
                built.chmod(0o755)
                self.assertEqual(find(), str(built))


class LongLines(unittest.TestCase):
    def test_long_lines_both_ways_do_not_lock(self) -> None:
        """Many lines of a megabyte are sent ahead, each with a reply of a megabyte, before the first is taken."""
        done = threading.Event()

        def play() -> None:
            with subzero.Session() as session:
                base = session.array("a", np.arange(100_000).reshape(250, 400))
                flow = session.flow("f")
                node = flow.neg(flow.input(0))
                run = session.start(flow, [base])
                mask = np.ones((250, 400), dtype=bool)
                with session.pipeline() as ahead:
                    answers = [ahead.back(run, node, mask, to=base) for _ in range(20)]
                    values = [ahead.values(run, node) for _ in range(20)]
                self.assertTrue(all(answer.result().all() for answer in answers))
                self.assertTrue(all(value.result()[-1, -1] == -99_999 for value in values))
            done.set()

        thread = threading.Thread(target=play, daemon=True)
        thread.start()
        self.assertTrue(done.wait(300), "the session is locked")

    def test_each_line_is_one_write(self) -> None:
        with subzero.Session() as session:
            with mock.patch.object(session._program, "_to", wraps=session._program._to) as seen:
                seen.closed = False
                session.array("a", np.zeros((300, 300), dtype=int))
                session.array("a", [[1]])
            self.assertEqual(seen.write.call_count, 2)

    def test_an_interrupted_wait_leaves_the_session_in_step(self) -> None:
        with subzero.Session() as session:
            with mock.patch("subzero.program.Reply.come_by", side_effect=KeyboardInterrupt):
                with self.assertRaises(KeyboardInterrupt):
                    session.array("a", [[1]])
            self.assertEqual(session.array("a", [[2]]).version, 2)

    def test_long_lines_of_several_threads_are_not_mixed(self) -> None:
        with subzero.Session() as session:
            images = [np.full((300, 1000), 10**15 + number) for number in range(4)]
            held: list[subzero.BaseArray] = []

            def hand_in(number: int) -> None:
                for _ in range(2):
                    held.append(session.array(f"a{number}", images[number]))

            threads = [threading.Thread(target=hand_in, args=(number,)) for number in range(4)]
            for thread in threads:
                thread.start()
            for thread in threads:
                thread.join()
            self.assertEqual(sorted(map(str, held)), sorted(f"array a{n} {v}" for n in range(4) for v in (1, 2)))

    def test_a_reply_that_cannot_come_is_not_waited_for(self) -> None:
        session = subzero.Session()
        session.close()
        reply = Reply(session._program, b"")
        thread = threading.Thread(target=reply.come_by, args=("waiting",), daemon=True)
        thread.start()
        thread.join(300)
        self.assertFalse(thread.is_alive())
        with self.assertRaises(subzero.ProgramEnded):
            reply.wait("waiting")

    def test_threads_share_a_session(self) -> None:
        with subzero.Session() as session:
            base = session.array("a", np.arange(64).reshape(8, 8))
            flow = session.flow("f")
            node = flow.transpose(flow.input(0))
            run = session.start(flow, [base])
            found: dict[int, list[list[int]]] = {}

            def ask(row: int) -> None:
                for _ in range(20):
                    found[row] = np.argwhere(run.back(node, (row, 2), to=base)).tolist()

            threads = [threading.Thread(target=ask, args=(row,)) for row in range(8)]
            for thread in threads:
                thread.start()
            for thread in threads:
                thread.join()
            self.assertEqual(found, {row: [[2, row]] for row in range(8)})


class Others(unittest.TestCase):
    """An array, a node, a flow or a run of one session is none of another."""

    def test_what_is_of_another_session_is_not_taken(self) -> None:
        with subzero.Session() as one, subzero.Session() as two:
            held = [session.array("sky", [[1, 2]]) for session in (one, two)]
            flows = [session.flow("f") for session in (one, two)]
            nodes = [flow.neg(flow.input(0)) for flow in flows]
            runs = [session.start(flow, [sky]) for session, flow, sky in zip((one, two), flows, held)]
            for call, why in (
                (lambda: two.start(flows[0], [held[1]]), "<Flow f: .*> is of another session"),
                (lambda: two.start(flows[1], [held[0]]), "<BaseArray sky 1: 1 by 2> is of another session"),
                (lambda: two.flow("g", inputs=[held[0]]), "is of another session"),
                (lambda: runs[1].values(nodes[0]), "of another flow"),
                (lambda: runs[1].values(held[0]), "no array that the run was started on"),
                (lambda: runs[1].back(nodes[0], (0, 0), to=held[1]), "of another flow"),
                (lambda: runs[1].forward(held[0], (0, 0), to=nodes[1]), "no array that the run was started on"),
                (lambda: two.flow("g").neg(flows[0].input(0)), "no array of the flow g"),
                (lambda: two.pipeline().values(runs[0], nodes[0]), "<Run 1 of f on sky 1> is of another session"),
                (lambda: two.held_run(1, flows[0]), "is of the flow f"),
            ):
                with self.assertRaisesRegex(subzero.BadInput, why):
                    call()
            self.assertEqual(two.array("sky", [[1]]).version, 2)


class LetGo(unittest.TestCase):
    """A session that nobody has any more ends its program; a fork of the process has none."""

    def ended(self, pids: list[int]) -> bool:
        """Whether all these programs end within some minutes."""
        until = time.monotonic() + 300
        while time.monotonic() < until:
            if not any(Path(f"/proc/{pid}").exists() for pid in pids):
                return True
            time.sleep(0.02)
        return False

    def begin(self, name: str = "f") -> tuple[subzero.Session, subzero.Run]:
        session = subzero.Session()
        flow = session.flow(name, inputs=[session.array("sky", [[1, 2]])])
        flow.neg(flow.input(0))
        run = session.start(flow, session.arrays["sky"])
        session.say(b'{"flow":"h","inputs":1,"nodes":[]}\n')
        return session, run

    def test_sessions_that_are_let_go_end_their_programs(self) -> None:
        gc.collect()
        gc.disable()  # it ends with the last name for it, and not at some later time
        try:
            pids = []
            for _ in range(9):
                session, run = self.begin()
                pids.append(session.pid)
            self.assertTrue(self.ended(pids[:-1]))
            self.assertEqual(run.values(run.flow.nodes[0]).tolist(), [[-1, -2]])
            del session
            self.assertEqual(run.values(run.flow.nodes[0]).tolist(), [[-1, -2]])
            flow = run.flow
            del run
            self.assertTrue(self.ended(pids))
            with self.assertRaisesRegex(subzero.SubZeroError, "was let go"):
                flow.session
        finally:
            gc.enable()

    def test_a_process_that_ends_ends_its_programs(self) -> None:
        code = "import subzero; session = subzero.Session(); session.array('a', [[1]]); print(session.pid)"
        ended = subprocess.run([sys.executable, "-c", code], capture_output=True, text=True, timeout=60)
        self.assertEqual((ended.returncode, ended.stderr), (0, ""))
        self.assertTrue(self.ended([int(ended.stdout)]))

    def test_a_fork_has_no_session_and_keeps_none_open(self) -> None:
        session, run = self.begin()
        ready, go = os.pipe()
        child = os.fork()
        if child == 0:
            try:
                run.values("sky")
                run.wait()
            except subzero.SubZeroError as fault:
                os.write(go, str(fault).encode())
            del session, run
            gc.collect()
            time.sleep(60)
            os._exit(0)
        try:
            os.close(go)
            self.assertIn(f"belongs to process {os.getpid()}", os.read(ready, 1000).decode())
            self.assertEqual(run.values(run.flow.nodes[0]).tolist(), [[-1, -2]])
            closer = threading.Thread(target=session.close, daemon=True)
            closer.start()
            closer.join(300)
            self.assertFalse(closer.is_alive(), "the fork keeps the program's input open")
        finally:
            os.kill(child, signal.SIGKILL)
            os.waitpid(child, 0)
            os.close(ready)


class Lines(unittest.TestCase):
    def test_what_is_no_line_is_not_sent(self) -> None:
        with subzero.Session() as session:
            for line, why in (
                (b'{"await":1}', "does not end in its newline"),
                (b'{"await":1}\n{"await":2}\n', "has 2 newlines"),
                (b"\n", "a blank line"),
                (b" \t\r\n", "a blank line"),
                (b"", "does not end in its newline"),
                ('{"await":1}\n', "a line is bytes"),
            ):
                with self.subTest(line=line), self.assertRaisesRegex(subzero.BadInput, why):
                    session.say(line)  # type: ignore[arg-type]
            with self.assertRaises(subzero.Refused) as caught:
                session.say(b"no json\n").wait("saying")
            self.assertEqual((caught.exception.number, caught.exception.line), (1, 1))
            self.assertEqual(session.array("a", [[1]]).version, 1)


class Interrupts(unittest.TestCase):
    """Ctrl-C, with the program stopped so that it answers nothing before the interrupt."""

    def setUp(self) -> None:
        interrupts.heed(self)
        self.session = subzero.Session()
        self.addCleanup(self.session.close)
        self.sky = self.session.array("sky", [[1, 2], [3, 4]])
        flow = self.session.flow("f")
        self.node = flow.transpose(flow.input(0))
        self.run_ = self.session.start(flow, [self.sky])
        os.kill(self.session.pid, signal.SIGSTOP)
        self.addCleanup(os.kill, self.session.pid, signal.SIGCONT)

    def interrupt(self, sent: int = 1) -> None:
        """An interrupt of this process as soon as it waits for a reply and so many lines are with the program."""
        waiting, come_during = threading.Event(), Reply.come_during

        def seen(reply: Reply, step: progress.Step) -> None:
            waiting.set()
            come_during(reply, step)

        patch = mock.patch.object(Reply, "come_during", seen)
        patch.start()
        self.addCleanup(patch.stop)

        def strike() -> None:
            until = time.monotonic() + 300
            while not (waiting.is_set() and len(self.session._program._awaited) >= sent) and time.monotonic() < until:
                time.sleep(0.01)
            os.kill(os.getpid(), signal.SIGINT)

        thread = threading.Thread(target=strike)
        thread.start()
        self.addCleanup(thread.join)

    def check(self) -> None:
        """The session is right, and has no more to answer than what was with the program."""
        os.kill(self.session.pid, signal.SIGCONT)
        for row in range(2):
            asked = self.run_.back(self.node, (row, 1 - row), to=self.sky)
            self.assertEqual(np.argwhere(asked).tolist(), [[1 - row, row]])
        self.assertEqual(self.session.array("sky", [[1]]).version, 2)

    def test_a_pipeline(self) -> None:
        with tempfile.TemporaryDirectory() as folder:
            record = Path(folder) / "x.session"
            self.session.record(record)
            before = record.read_bytes().count(b"\n")
            answers: list[subzero.Future[Any]] = []
            with self.assertRaises(KeyboardInterrupt):
                with self.session.pipeline() as ahead:
                    for number in range(1000):
                        answers.append(ahead.back(self.run_, self.node, (number % 2, 0), to=self.sky))
                    self.interrupt(AHEAD)
            self.check()
            sent = [answer for answer in answers if not answer.cancelled()]
            self.assertEqual(len(sent), AHEAD)
            self.assertEqual(answers[:AHEAD], sent)
            self.assertEqual(np.argwhere(answers[1].result()).tolist(), [[0, 1]])
            for answer in answers[AHEAD:]:
                with self.assertRaisesRegex(subzero.Cancelled, "given up before it was sent"):
                    answer.result()
            self.assertEqual(record.read_bytes().count(b"\n"), before + AHEAD + 3)

    def test_a_pipeline_that_another_exception_leaves(self) -> None:
        with self.assertRaises(ZeroDivisionError):
            with self.session.pipeline() as ahead:
                answers = [ahead.back(self.run_, self.node, (0, 0), to=self.sky) for _ in range(100)]
                1 / 0
        self.check()
        sent = [answer for answer in answers if not answer.cancelled()]
        self.assertLessEqual(len(sent), AHEAD)  # fewer, where the exception came before they were sent
        self.assertEqual(answers[: len(sent)], sent)
        for answer in sent:
            self.assertEqual(np.argwhere(answer.result()).tolist(), [[0, 0]])

    def test_an_ask(self) -> None:
        with self.assertRaises(KeyboardInterrupt):
            self.interrupt()
            self.run_.back(self.node, (0, 0), to=self.sky)
        self.check()

    def test_an_array_whose_line_is_longer_than_a_pipe(self) -> None:
        """The line goes on being written, so that the session is not cut in the middle of it."""
        with self.assertRaises(KeyboardInterrupt):
            self.interrupt()
            self.session.say(b"[" + b" " * 3_000_000 + b"]\n").wait("saying")
        self.check()

    def test_what_was_handed_in_when_it_was_interrupted_is_held(self) -> None:
        with self.assertRaises(KeyboardInterrupt):
            self.interrupt()
            self.session.array("late", [[7]])
        os.kill(self.session.pid, signal.SIGCONT)
        self.assertEqual(self.session.arrays["late"].values.tolist(), [[7]])

    def test_a_future_is_cancelled_where_it_was_not_sent(self) -> None:
        futures = [self.run_.values_later(self.node) for _ in range(AHEAD + 2)]
        until = time.monotonic() + 300
        while len(self.session._program._awaited) < AHEAD and time.monotonic() < until:
            time.sleep(0.01)
        self.assertTrue(futures[-1].cancel())
        self.assertTrue(futures[-1].cancelled() and futures[-1].done())
        self.assertFalse(futures[0].done())
        self.assertRegex(repr(futures[0]), "pending")
        os.kill(self.session.pid, signal.SIGCONT)
        self.assertEqual(futures[-2].result().tolist(), [[1, 3], [2, 4]])
        self.assertTrue(futures[-2].done())


class Records(unittest.TestCase):
    def test_a_record_is_a_session_that_the_program_plays(self) -> None:
        with tempfile.TemporaryDirectory() as folder, subzero.Session() as session:
            path = Path(folder) / "x.session"
            base = session.array("a", [[1, 2], [3, None]])
            session.record(path)
            flow = session.flow("f")
            node = flow.neg(flow.input(0))
            run = session.start(flow, [base])
            run.back(node, (0, 1), to=base)
            self.assertEqual(path.read_bytes().count(b"\n"), 4)
            with self.assertRaises(subzero.Refused):
                session.flow("f").define()
            with path.open() as lines:
                played = subprocess.run([find(), "play"], stdin=lines, capture_output=True, check=True)
            self.assertEqual(
                played.stdout.decode().splitlines(),
                ["1 array a 1", "2 flow f", "3 started 1", "4 cells 1 0,1", "5 refused 8 1"],
            )


class Terminal(io.StringIO):
    def isatty(self) -> bool:
        return True


class Progress(unittest.TestCase):
    def show(self, stream: io.StringIO) -> str:
        with mock.patch.object(sys, "stderr", stream):
            with progress.shown("asking back") as step:
                step.show()
                step.show()
        return stream.getvalue()

    def test_a_terminal_is_told_and_cleared(self) -> None:
        told = self.show(Terminal())
        self.assertRegex(told, r"^\rsubzero: asking back, \d+\.\d s")
        self.assertRegex(told, r"\r +\r$")

    def test_no_terminal_is_told_nothing(self) -> None:
        self.assertEqual(self.show(io.StringIO()), "")

    def test_a_short_wait_is_not_shown(self) -> None:
        """Shorter than what is short, which is half a second; here it is more, since the machine may be busy."""
        stream = Terminal()
        with mock.patch.object(progress, "_FIRST", 300.0):
            with mock.patch.object(sys, "stderr", stream), subzero.Session() as session:
                session.array("a", [[1]])
        self.assertEqual(stream.getvalue(), "")

    def test_many_short_waits_are_shown(self) -> None:
        """Of many lines none takes long, and all together do: how many are done is shown."""
        stream = Terminal()
        with tempfile.TemporaryDirectory() as folder:
            slow = Path(folder) / "slow"
            slow.write_text(
                '#!/bin/sh\nwhile read line; do number=$((number+1)); sleep 0.1; echo "$number done 1"; done\n'
            )
            slow.chmod(0o755)
            with subzero.Session(program=slow) as session:
                run = subzero.Run(session, 1, session.flow("f"), ())
                with mock.patch.object(sys, "stderr", stream), session.pipeline() as ahead:
                    for _ in range(10):
                        ahead.wait(run)
        self.assertRegex(stream.getvalue(), r"subzero: a pipeline, [1-9] of 10 lines, \d+\.\d s")

    def test_a_long_wait_is_shown(self) -> None:
        stream = Terminal()
        with tempfile.TemporaryDirectory() as folder:
            slow = Path(folder) / "slow"
            slow.write_text(f'#!/bin/sh\nsleep 1\nexec "{find()}" play\n')
            slow.chmod(0o755)
            with mock.patch.object(sys, "stderr", stream), subzero.Session(program=slow) as session:
                session.array("sky", [[1]])
        self.assertRegex(stream.getvalue(), r"subzero: handing in sky, \d+\.\d s")


if __name__ == "__main__":
    unittest.main()
