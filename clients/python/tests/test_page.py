"""The page without a browser: what it answers, whom it refuses, and what it draws where."""

from __future__ import annotations

import http.client
import json
import os
import signal
import socket
import struct
import subprocess
import sys
import tempfile
import threading
import unittest
import urllib.parse
from collections.abc import Sequence
from pathlib import Path
from typing import Any

import interrupts
import numpy as np

import subzero
from subzero import demo
from subzero.cells import Mask
from subzero.view import Page, command, marks, show
from subzero.view.board import Arrow, columns_of, limits_of
from subzero.view.lineage import Lineage
from subzero.view.server import MOST_BODY


class Told:
    """An answer of the page, read as its script reads it."""

    def __init__(self, body: bytes, shapes: Sequence[tuple[int, ...]]) -> None:
        (length,) = struct.unpack_from("<I", body)
        self.head: dict[str, Any] = json.loads(body[4 : 4 + length])
        words = np.frombuffer(body, dtype="<u4", offset=4 + length)
        self.cells: dict[int, tuple[str, Mask]] = {}
        for told in self.head["marks"]:
            runs = words[told["at"] : told["at"] + 2 * told["runs"]].reshape(-1, 2)
            mask = marks.mask_of_runs(runs, shapes[told["array"]])
            assert told["count"] == mask.sum()
            self.cells[told["array"]] = (told["as"], mask)


class Pages(unittest.TestCase):
    """A page over the tutorial's stars; the session is the same for all tests of a class."""

    session: subzero.Session
    field: demo.Field
    sky: subzero.BaseArray
    nodes: list[subzero.Node]
    stars: subzero.Run
    arrays: list[subzero.BaseArray | subzero.Node]
    shapes: list[tuple[int, ...]]
    page: Page

    @classmethod
    def setUpClass(cls) -> None:
        cls.session = subzero.Session()
        cls.addClassCleanup(cls.session.close)
        cls.field = demo.field()
        cls.sky = cls.session.array("sky", cls.field.image)
        flow, *cls.nodes = demo.stars(cls.session)
        cls.stars = cls.session.start(flow, [cls.sky])
        cls.arrays = [cls.sky, *cls.nodes]
        cls.shapes = [cls.stars.shape(array) for array in cls.arrays]

    def setUp(self) -> None:
        self.show(self.stars)

    def show(self, run: subzero.Run) -> None:
        """Make the page over a run, which the test asks."""
        self.page = show(run)
        self.addCleanup(self.page.close)
        self.address = urllib.parse.urlsplit(self.page.url)
        self.key = self.address.path.strip("/")

    def ask(
        self,
        method: str,
        path: str,
        body: bytes | None = None,
        headers: dict[str, str] | None = None,
        host: str | None = None,
    ) -> tuple[int, bytes]:
        """The status and the body that a request gets."""
        link = http.client.HTTPConnection("127.0.0.1", self.address.port, timeout=60)
        try:
            link.putrequest(method, path, skip_host=True)
            link.putheader("Host", host if host is not None else f"127.0.0.1:{self.address.port}")
            for name, value in (headers or {}).items():
                link.putheader(name, value)
            if body is not None and "Content-Length" not in (headers or {}):
                link.putheader("Content-Length", str(len(body)))
            link.endheaders(body)
            reply = link.getresponse()
            return reply.status, reply.read()
        finally:
            link.close()

    def get(self, name: str) -> tuple[int, bytes]:
        return self.ask("GET", f"/{self.key}/{name}")

    def question(self, **changed: Any) -> tuple[int, bytes]:
        told = {"array": 4, "parts": [[0, 4, 6, 4, 6]], "kept": None, "sense": "stood", **changed}
        return self.ask("POST", f"/{self.key}/ask", json.dumps(told).encode())


class Answers(Pages):
    def test_the_cells_are_those_of_back_and_forward_in_every_array(self) -> None:
        for array, cell in ((0, (18, 25)), (1, (17, 24)), (2, (18, 26)), (3, (18, 24)), (4, (4, 6)), (4, (0, 0))):
            status, body = self.question(array=array, parts=[[0, *cell, *cell]])
            self.assertEqual(status, 200, body)
            told = Told(body, self.shapes)
            self.assertEqual(sorted(told.cells), list(range(5)))
            for number, (direction, mask) in told.cells.items():
                if number == array:
                    self.assertEqual((direction, np.argwhere(mask).tolist()), ("asked", [list(cell)]))
                elif number < array:
                    wanted = self.stars.back(self.arrays[array], cell, to=self.arrays[number])
                    self.assertEqual((direction, mask.tolist()), ("back", wanted.tolist()))
                else:
                    wanted = self.stars.forward(self.arrays[array], cell, to=self.arrays[number])
                    self.assertEqual((direction, mask.tolist()), ("forward", wanted.tolist()))

    def test_rectangles_are_added_and_the_last_selection_is_there_in_python(self) -> None:
        self.assertIsNone(self.page.selected)
        self.assertIsNone(self.page.selected_in)
        status, body = self.question(array=1, parts=[[0, 2, 3, 4, 6], [0, 4, 6, 5, 6], [0, 60, 0, 60, 0]])
        self.assertEqual(status, 200, body)
        wanted = np.zeros((64, 64), dtype=bool)
        wanted[2:5, 3:7] = wanted[4:6, 6] = wanted[60, 0] = True
        self.assertEqual(Told(body, self.shapes).cells[1][1].tolist(), wanted.tolist())
        selected = self.page.selected
        assert selected is not None
        self.assertEqual(selected.tolist(), wanted.tolist())
        self.assertIs(self.page.selected_in, self.nodes[0])
        self.assertEqual(self.ask("POST", f"/{self.key}/clear", b"{}")[0], 200)
        self.assertIsNone(self.page.selected)

    def test_a_selection_from_python(self) -> None:
        self.page.select(self.sky, self.field.bad, name="bad pixels")
        self.page.select(self.nodes[2], [(18, 24)])
        self.assertIs(self.page.selected_in, self.nodes[2])
        state = json.loads(self.get("state")[1])
        self.assertEqual(state["told"], {"kept": 2, "array": 3, "name": None})
        self.assertEqual(
            state["offered"], [{"kept": 1, "name": "bad pixels", "array": 0, "count": self.field.bad.sum()}]
        )
        self.assertIsNone(state["fault"])
        status, body = self.question(array=0, parts=[], kept=1)
        told = Told(body, self.shapes)
        self.assertEqual(told.cells[0][1].tolist(), self.field.bad.tolist())
        wanted = self.stars.forward(self.sky, self.field.bad, to=self.nodes[2])
        self.assertEqual(told.cells[3][1].tolist(), wanted.tolist())
        self.assertIs(self.page.selected_in, self.sky)
        with self.assertRaisesRegex(subzero.BadInput, "out of range"):
            self.page.select(self.sky, (64, 0))
        with self.assertRaises(subzero.BadInput):
            self.page.select(self.session.array("other", [[1]]), (0, 0))
        self.page.select("sky", np.where(self.field.hot))
        self.assertIs(self.page.selected_in, self.sky)

    def test_the_way_of_each_step_and_the_cells_traced_are_told(self) -> None:
        steps = Told(self.question()[1], self.shapes).head["steps"]
        self.assertEqual(
            steps,
            [
                [4, 0, "back", "map", 0],
                [3, 0, "back", "blackbox", 4096],
                [2, 0, "back", "map", 0],
                [1, 0, "back", "blackbox", 4096],
            ],
        )
        told = self.stars.explain(self.nodes[3], (4, 6), to=self.sky)[0]
        self.assertEqual(sum(step[4] for step in steps), told.traced)
        self.assertEqual([step[3] for step in steps], [way for _, way in told.steps])

    def test_values_go_as_bytes_with_the_empty_cells_behind_them(self) -> None:
        run = json.loads(self.get("run")[1])
        self.assertEqual([one["title"] for one in run["arrays"]], ["sky", "clean", "convolve", "regions", "block"])
        self.assertEqual([one["kind"] for one in run["arrays"]], ["i2", "i2", "i2", "i2", "i2"])
        self.assertEqual([one["empty"] for one in run["arrays"]], [64, 64, 192, 0, 0])
        self.assertEqual([one["labels"] for one in run["arrays"]], [False, False, False, True, True])
        for number, array in enumerate(self.arrays):
            status, body = self.get(f"values/{number}")
            values = self.stars.values(array)
            sent = np.frombuffer(body, dtype="<i2", count=values.size)
            self.assertEqual(sent.tolist(), values.filled(0).ravel().tolist())
            bits = np.unpackbits(np.frombuffer(body, dtype=np.uint8, offset=2 * values.size), count=values.size)
            empty = np.ma.getmaskarray(values).ravel()
            self.assertEqual(bits.tolist() if empty.any() else [0] * values.size, empty.astype(int).tolist())

    def test_several_viewers_ask_at_the_same_time(self) -> None:
        """Eight threads ask for cells of their own, again and again, while Python asks too: no answer is another's."""
        faults: list[str] = []

        def look(column: int) -> None:
            for row in range(10, 16):
                told = Told(self.question(array=2, parts=[[0, row, column, row, column]])[1], self.shapes)
                wanted = np.zeros((64, 64), dtype=bool)
                wanted[row - 1 : row + 2, column - 1 : column + 2] = True
                if told.cells[1][1].tolist() != wanted.tolist():
                    faults.append(f"{row}, {column}")

        threads = [threading.Thread(target=look, args=(column,)) for column in range(3, 27, 3)]
        for thread in threads:
            thread.start()
        for row in range(8):
            self.assertEqual(self.stars.back(self.nodes[3], (row, 3), to=self.nodes[2]).sum(), 16)
        for thread in threads:
            thread.join(60)
        self.assertEqual(faults, [])

    def test_what_a_refresh_changed(self) -> None:
        change = self.stars.refresh(self.sky, (self.field.dead, 20))
        with show(change) as page:
            self.assertIs(page.run, change.run)
            self.assertEqual((page.selected_in, (page.selected == self.field.dead).all()), (change.array, True))
            offered = {one["name"]: (one["array"], one["count"]) for one in page.state()["offered"]}
            wanted = {
                f"{what} in {node.name or node.op}": (1 + node.number, int(cells(node).sum()))
                for node in change.run.flow.nodes
                for what, cells in (("changed", change.changed), ("computed again", change.reached))
                if cells(node).any()
            }
            self.assertEqual(offered, {**wanted, "set cells": (0, int(self.field.dead.sum()))})
            self.assertGreaterEqual(len(wanted), 7)
        with show(self.stars.refresh(self.sky, {})) as page:
            self.assertEqual([one["name"] for one in page.state()["offered"]], ["set cells"])
            self.assertFalse(np.asarray(page.selected).any())

    def test_the_package_is_called(self) -> None:
        page = getattr(subzero, "view")(self.stars, origin="lower")
        self.addCleanup(page.close)
        self.assertIsInstance(page, Page)
        self.assertEqual(json.loads(self.get("run")[1])["origin"], "upper")
        self.assertEqual(page.origin, "lower")
        with self.assertRaisesRegex(subzero.BadInput, "no origin"):
            show(self.stars, origin="left")  # type: ignore[arg-type]
        self.assertIs(getattr(subzero, "view").command, command)

    def test_a_page_is_shown_in_place_in_a_notebook(self) -> None:
        self.assertIn(f'<iframe src="{self.page.url}"', self.page._repr_html_())
        self.assertIn(self.page.url, repr(self.page))

    def test_a_program_that_has_ended_is_told(self) -> None:
        session = subzero.Session()
        base = session.array("a", [[1, 2]])
        flow = session.flow("f")
        flow.neg(flow.input(0))
        self.show(session.start(flow, [base]))
        os.kill(session.pid, signal.SIGKILL)
        status, body = self.question(array=1, parts=[[0, 0, 1, 0, 1]])
        self.assertEqual(status, 503)
        self.assertIn(b"signal 9 ended it", body)
        self.assertIn("signal 9 ended it", json.loads(self.get("state")[1])["fault"])
        with self.assertRaises(subzero.ProgramEnded):
            session.close()
        self.assertEqual(self.question(array=1, parts=[[0, 0, 1, 0, 1]])[0], 503)

    def test_a_closed_page_answers_no_more(self) -> None:
        with show(self.stars) as second:
            self.assertNotEqual(second.url, self.page.url)
            address = urllib.parse.urlsplit(second.url)
            link = http.client.HTTPConnection("127.0.0.1", address.port, timeout=60)
            self.addCleanup(link.close)
            link.request("GET", address.path)
            self.assertEqual(link.getresponse().read()[:15], b"<!doctype html>")
        link.request("GET", address.path)
        self.assertEqual(link.getresponse().status, 503)
        with self.assertRaises(OSError):
            socket.create_connection(("127.0.0.1", address.port or 0), timeout=5)
        self.assertEqual(self.question()[0], 200)


class Refusals(Pages):
    def test_without_the_key_nothing_is_answered(self) -> None:
        for path in ("/", "/page.js", f"/{self.key[:-1]}/", f"/{self.key}x/", f"/{self.key}", "/ü/"):
            for method, body in (("GET", None), ("POST", b"{}")):
                status, said = self.ask(method, urllib.parse.quote(path), body)
                self.assertEqual(status, 403, path)
                self.assertNotIn(self.key.encode(), said)
        self.assertEqual(self.ask("POST", "/stale/ask", b"{}")[0], 403)
        self.assertEqual(self.get("")[0], 200)

    def test_a_stale_key_is_refused(self) -> None:
        with show(self.stars) as second:
            stale = urllib.parse.urlsplit(second.url).path.strip("/")
        self.assertEqual(self.ask("GET", f"/{stale}/run")[0], 403)

    def test_a_foreign_host_is_refused(self) -> None:
        for host in (
            "evil.example",
            "evil.example:80",
            "127.0.0.1.evil.example",
            "localhost@evil.example",
            "",
            "0.0.0.0",
        ):
            self.assertEqual(self.ask("GET", f"/{self.key}/run", host=host)[0], 403, host)
        link = http.client.HTTPConnection("127.0.0.1", self.address.port, timeout=60)
        link.putrequest("GET", f"/{self.key}/run", skip_host=True)
        link.endheaders()
        self.assertEqual(link.getresponse().status, 403)
        link.close()
        self.assertEqual(self.ask("GET", f"/{self.key}/run", host="localhost:1234")[0], 200)

    def test_a_script_of_another_page_is_refused(self) -> None:
        for origin in ("http://evil.example", "null", "http://127.0.0.1:1"):
            status, _ = self.ask("POST", f"/{self.key}/ask", b"{}", {"Origin": origin})
            self.assertEqual(status, 403, origin)
        own = {"Origin": f"http://127.0.0.1:{self.address.port}"}
        self.assertEqual(self.ask("POST", f"/{self.key}/clear", b"{}", own)[0], 200)

    def test_a_body_that_is_too_large_or_has_no_length(self) -> None:
        for length, wanted in ((MOST_BODY + 1, 413), (10**17, 413), (-1, 411), ("ten", 411)):
            self.assertEqual(self.ask("POST", f"/{self.key}/ask", b"", {"Content-Length": str(length)})[0], wanted)
        self.assertEqual(self.ask("POST", f"/{self.key}/ask", b"0\r\n\r\n", {"Transfer-Encoding": "chunked"})[0], 411)
        self.assertEqual(self.ask("POST", f"/{self.key}/ask", b" " * MOST_BODY)[0], 400)
        self.assertEqual(self.question()[0], 200)

    def test_no_file_is_served_but_the_page_s_own(self) -> None:
        for name in ("../page.py", "page.py", "..%2fpage.py", "%2e%2e/server.py", "/etc/passwd", "../../../etc/passwd",
                     "page.html", "values/", "values/5", "values/-1", "values/x", "values/00000"):  # fmt: skip
            self.assertIn(self.get(name)[0], (400, 403, 404), name)
        for name, kind in (("", b"<!doctype html>"), ("page.css", b":root"), ("page.js", b'"use strict"')):
            status, body = self.get(name)
            self.assertEqual(status, 200)
            self.assertIn(kind, body)

    def test_a_wrong_question_is_told_in_a_line_and_the_session_goes_on(self) -> None:
        deep = b"[" * 100_000
        for body, why in (
            (b"", "not JSON"),
            (b"{", "not JSON"),
            (b"[]", "fields"),
            (deep, "not JSON"),
            (b"\xff", "not JSON"),
        ):
            status, said = self.ask("POST", f"/{self.key}/ask", body)
            self.assertEqual((status, said.count(b"\n")), (400, 1))
            self.assertIn(why, said.decode())
        wrong: tuple[tuple[dict[str, Any], str], ...] = (
            ({"array": 5}, "no array 5"),
            ({"array": -1}, "numbers"),
            ({"array": True}, "numbers"),
            ({"sense": "whatever"}, "sense"),
            ({"parts": 3}, "rectangles"),
            ({"parts": [[0, 0, 0, 0]]}, "five numbers"),
            ({"parts": [[0, 0, 0, 0, 1.5]]}, "five numbers"),
            ({"parts": [[0, 16, 0, 16, 0]]}, "out of range"),
            ({"parts": [[1, 0, 0, 0, 0]]}, "out of range"),
            ({"parts": [[0, 3, 0, 2, 0]]}, "out of range"),
            ({"parts": [[0, 0, 0, 0, 0]] * 5000}, "at most 4096"),
            ({"kept": 7}, "not held"),
            ({"more": 1}, "fields"),
        )
        for changed, why in wrong:
            status, said = self.question(**changed)
            self.assertEqual((status, said.count(b"\n")), (400, 1), changed)
            self.assertIn(why, said.decode())
        self.assertIsNone(self.page.selected)
        self.assertEqual(self.question()[0], 200)

    def test_methods_and_requests_that_are_none(self) -> None:
        for method in ("PUT", "DELETE", "OPTIONS", "HEAD", "TRACE"):
            self.assertEqual(self.ask(method, f"/{self.key}/")[0], 501)
        for text in (
            b"nonsense\r\n\r\n",
            b"GET http://127.0.0.1/x HTTP/1.1\r\nHost: localhost\r\n\r\n",
            b"\x16\x03\x01\r\n\r\n",
        ):
            with socket.create_connection(("127.0.0.1", self.address.port or 0), timeout=60) as link:
                link.sendall(text)
                link.shutdown(socket.SHUT_WR)
                said = b"".join(iter(lambda: link.recv(65536), b""))
                self.assertNotIn(b" 200 ", said)
        self.assertEqual(self.question()[0], 200)

    def test_it_listens_on_the_loopback_address_alone(self) -> None:
        self.assertEqual(self.page._server._listener.server_address[0], "127.0.0.1")
        for kind, *_, address in socket.getaddrinfo(socket.gethostname(), None, type=socket.SOCK_STREAM):
            if kind == socket.AF_INET and not str(address[0]).startswith("127."):
                with self.assertRaises(OSError):
                    socket.create_connection((str(address[0]), self.address.port or 0), timeout=5)

    def test_each_answer_forbids_what_the_page_does_not_need(self) -> None:
        link = http.client.HTTPConnection("127.0.0.1", self.address.port, timeout=60)
        link.request("GET", f"/{self.key}/")
        reply = link.getresponse()
        self.assertIn("default-src 'none'", reply.headers["Content-Security-Policy"])
        self.assertNotIn("unsafe", reply.headers["Content-Security-Policy"])
        self.assertEqual(reply.headers["Referrer-Policy"], "no-referrer")
        self.assertEqual(reply.headers["Cache-Control"], "no-store")
        self.assertNotIn(b"http://", reply.read().replace(b"http://www.w3.org/2000/svg", b""))
        link.close()


class Walks(unittest.TestCase):
    def test_paths_that_meet_and_a_base_array_that_is_taken_twice(self) -> None:
        """By hand: one step takes the cell to the left, one that to the right, their sum both, of one base array."""
        with subzero.Session() as session:
            row = session.array("row", [[1, 2, 3, 4, 5]])
            flow = session.flow("meet", inputs=2)
            left = flow.convolve(flow.input(0), [[1, 0, 0]])
            right = flow.convolve(flow.input(1), [[0, 0, 1]])
            both = flow.add(left, right)
            run = session.start(flow, [row, row])
            with show(run) as page:
                self.assertEqual([panel.title for panel in page._board.panels], ["row", "convolve", "convolve", "add"])
                shapes = [(1, 5)] * 4
                told = Told(page.answer(_question(3, 0, 2)), shapes)
                self.assertEqual([_columns(told, number) for number in range(4)], [[1, 3], [2], [2], [2]])
                told = Told(page.answer(_question(0, 0, 2)), shapes)
                self.assertEqual([_columns(told, number) for number in range(4)], [[2], [3], [1], [1, 3]])

    def test_what_could_change_a_label_reaches_beside_its_region(self) -> None:
        """By hand: a region rests on its cells and their four neighbours; a cell between two could join them."""
        with subzero.Session() as session:
            image = [[0, 0, 0, 0, 0, 0], [0, 9, 9, 0, 9, 0], [0, 0, 0, 0, 0, 0]]
            base = session.array("image", image)
            flow = session.flow("f")
            labels = flow.regions(flow.input(0), t=5)
            run = session.start(flow, [base])
            lineage = Lineage(run)

            def cells(direction: Any, sense: Any, cell: tuple[int, int]) -> list[list[int]]:
                mask = np.zeros((3, 6), dtype=bool)
                mask[cell] = True
                start: Any = labels if direction == "back" else base
                end: Any = flow.input(0) if direction == "back" else labels
                found: list[list[int]] = np.argwhere(lineage.masks(start, mask, direction, sense)[end]).tolist()
                return found

            self.assertEqual(cells("back", "stood", (1, 1)), [[1, 1], [1, 2]])
            self.assertEqual(
                cells("back", "could", (1, 1)), [[0, 1], [0, 2], [1, 0], [1, 1], [1, 2], [1, 3], [2, 1], [2, 2]]
            )
            self.assertEqual(cells("back", "could", (1, 3)), [[1, 3]])
            self.assertEqual(cells("forward", "stood", (1, 3)), [[1, 3]])
            self.assertEqual(cells("forward", "could", (1, 3)), [[1, 1], [1, 2], [1, 3], [1, 4]])
            self.assertEqual(cells("forward", "could", (0, 3)), [[0, 3]])


def _question(array: int, row: int, column: int) -> Any:
    from subzero.view.selection import Question

    return Question.read({"array": array, "parts": [[0, row, column, row, column]], "kept": None, "sense": "stood"})


def _columns(told: Told, number: int) -> list[int]:
    return [int(column) for column in np.flatnonzero(told.cells[number][1])]


class Layouts(unittest.TestCase):
    def test_a_chain_stands_in_a_row(self) -> None:
        arrows = [Arrow(0, 1, 0), Arrow(1, 2, 0)]
        self.assertEqual(columns_of(3, arrows), [[("array", 0)], [("array", 1)], [("array", 2)]])

    def test_an_arrow_past_a_column_has_a_lane_in_it(self) -> None:
        arrows = [Arrow(0, 1, 0), Arrow(1, 2, 0), Arrow(2, 3, 0), Arrow(0, 3, 1)]
        columns = columns_of(4, arrows)
        self.assertEqual(
            [sorted(column) for column in columns[1:3]], [[("array", 1), ("lane", 3)], [("array", 2), ("lane", 3)]]
        )

    def test_base_arrays_are_first_and_arrows_do_not_cross_where_they_need_not(self) -> None:
        arrows = [Arrow(0, 3, 0), Arrow(1, 2, 0), Arrow(2, 4, 0), Arrow(3, 4, 1)]
        columns = columns_of(5, arrows)
        self.assertEqual(sorted(columns[0]), [("array", 0), ("array", 1)])
        tops = {slot[1]: row for column in columns for row, slot in enumerate(column)}
        self.assertEqual(tops[0] < tops[1], tops[3] < tops[2])

    def test_an_array_that_nothing_takes(self) -> None:
        self.assertEqual(sorted(columns_of(3, [Arrow(0, 2, 0)])[0]), [("array", 0), ("array", 1)])


class Bytes(unittest.TestCase):
    def test_runs_are_those_of_the_rows(self) -> None:
        mask = np.array([[1, 1, 0, 1], [1, 0, 0, 1], [1, 1, 1, 1]], dtype=bool)
        self.assertEqual(marks.runs_of(mask).tolist(), [[0, 2], [3, 1], [4, 1], [7, 1], [8, 4]])
        self.assertEqual(marks.runs_of(np.zeros((2, 3), dtype=bool)).tolist(), [])
        self.assertEqual(marks.runs_of(np.ones((2, 2, 3), dtype=bool)).tolist(), [[0, 3], [3, 3], [6, 3], [9, 3]])

    def test_runs_and_back_on_random_masks(self) -> None:
        draw = np.random.RandomState(5)
        for shape in ((1, 1), (1, 40), (40, 1), (7, 9), (3, 5, 8)):
            for share in (0.0, 0.1, 0.5, 0.9, 1.0):
                mask = draw.random_sample(shape) < share
                self.assertEqual(marks.mask_of_runs(marks.runs_of(mask), shape).tolist(), mask.tolist())

    def test_the_narrowest_kind_of_values(self) -> None:
        for values, kind in (
            ([-128, 127], "i1"),
            ([-129, 0], "i2"),
            ([0, 32768], "i4"),
            ([2**31, 0], "i8"),
            ([-(2**63), 2**63 - 1], "i8"),
        ):
            self.assertEqual(marks.kind_of(np.array(values)), kind)

    def test_limits_leave_out_what_lies_far_off(self) -> None:
        values = np.concatenate([np.arange(1000), [10**9]])
        limits = limits_of(values)
        self.assertEqual(limits[-1], [0, 10**9])
        self.assertEqual(limits[1], [25, 975])
        self.assertEqual(limits_of(np.array([], dtype=np.int64))[0], [0, 1])
        self.assertEqual(limits_of(np.full(9, 7))[0], [7, 8])


class Commands(unittest.TestCase):
    def start(self, *words: str) -> subprocess.Popen[str]:
        interrupts.heed(self)
        environment = {**os.environ, "PYTHONPATH": str(Path(subzero.__file__).parents[1])}
        process = subprocess.Popen(
            [sys.executable, "-m", "subzero", "view", *words],
            stdout=subprocess.PIPE, stderr=subprocess.PIPE, text=True, env=environment,
        )  # fmt: skip
        self.addCleanup(process.communicate)
        self.addCleanup(process.kill)
        return process

    def described(self, process: subprocess.Popen[str]) -> dict[str, Any]:
        """The run that a started page shows; the page is then interrupted, and is to end well."""
        assert process.stdout is not None
        url = process.stdout.readline().strip()
        address = urllib.parse.urlsplit(url)
        link = http.client.HTTPConnection("127.0.0.1", address.port, timeout=60)
        link.request("GET", address.path + "run")
        told: dict[str, Any] = json.loads(link.getresponse().read())
        link.close()
        process.send_signal(signal.SIGINT)
        self.assertEqual(process.wait(60), 0, process.stderr and process.stderr.read())
        return told

    def test_a_recorded_session_is_shown(self) -> None:
        with tempfile.TemporaryDirectory() as folder:
            place = os.path.join(folder, "x.session")
            with subzero.Session() as session:
                session.record(place)
                cube = session.array("cube", np.ma.masked_equal(np.arange(24).reshape(2, 3, 4), 5))
                flow = session.flow("f")
                flat = flow.fold_layers(flow.neg(flow.input(0), keep=["full_one_b"]), "sum")
                session.start(flow, [cube])
                run = session.start(flow, [cube])
                run.back(flat, (0, 0), to=cube)
                with self.assertRaises(subzero.Refused):
                    session.start(flow, [cube, cube])
            told = self.described(self.start(place))
            self.assertEqual((told["flow"], told["run"]), ("f", 2))
            self.assertEqual([one["title"] for one in told["arrays"]], ["cube", "neg", "fold_layers"])
            self.assertEqual([one["shape"] for one in told["arrays"]], [[2, 3, 4], [2, 3, 4], [1, 3, 4]])
            self.assertEqual([one["empty"] for one in told["arrays"]], [1, 1, 0])
            told = self.described(self.start(place, "--version", "1", "--origin", "lower"))
            self.assertEqual((told["run"], told["origin"]), (1, "lower"))

    def test_a_log_is_shown(self) -> None:
        with tempfile.TemporaryDirectory() as folder:
            log = os.path.join(folder, "survey.log")
            with subzero.Session(log) as session:
                sky = session.array("sky", np.ma.masked_equal(np.arange(12).reshape(3, 4), 5))
                flow = session.flow("f")
                flow.clean(flow.input(0), t=9, name="sound", keep=["comp_one"])
                session.start(flow, [sky]).wait()
            told = self.described(self.start(log))
            self.assertEqual([one["title"] for one in told["arrays"]], ["sky", "sound"])
            self.assertEqual([one["detail"] for one in told["arrays"]], ["", "clean (9 and more)"])
            self.assertEqual([one["empty"] for one in told["arrays"]], [1, 1])
            self.assertEqual({way[3] for way in told["ways"]}, {"comp_one"})

    def test_what_cannot_be_shown_is_told_in_a_line(self) -> None:
        with tempfile.TemporaryDirectory() as folder:
            place = os.path.join(folder, "x.session")
            Path(place).write_text('{"array":"a","cells":[[1]]}\n\nnonsense\n{"await":3}\n')
            for words, why in (
                ([place], "has no version of a flow"),
                ([os.path.join(folder, "absent")], "No such file"),
            ):
                process = self.start(*words)
                out, said = process.communicate(timeout=60)
                self.assertEqual((process.returncode, out, said.count("\n")), (1, "", 1), said)
                self.assertIn(why, said)
            process = self.start()
            self.assertEqual(process.wait(60), 2)


if __name__ == "__main__":
    unittest.main()
