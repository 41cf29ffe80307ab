"""The page's server: threads of this process on the loopback address, for those who have the link alone.

Each request is refused that does not begin with the page's key, or whose Host is not this machine's own name, so that
neither another user nor a script of another web page gets an answer. Nothing is served but the page's three files, the
values of its run, and answers to its questions.
"""

from __future__ import annotations

import hmac
import json
import re
import secrets
import socketserver
import threading
from collections.abc import Callable
from http.server import BaseHTTPRequestHandler, ThreadingHTTPServer
from importlib import resources
from typing import TYPE_CHECKING, Any

from ..faults import BadInput, Refused, SubZeroError
from .selection import Question

if TYPE_CHECKING:
    from .page import Page

LOOPBACK = "127.0.0.1"
MOST_BODY = 262_144
FILES = {
    "": ("page.html", "text/html; charset=utf-8"),
    "page.css": ("page.css", "text/css; charset=utf-8"),
    "page.js": ("page.js", "text/javascript; charset=utf-8"),
}
HOST = re.compile(r"(127\.0\.0\.1|localhost)(:[0-9]{1,5})?", re.ASCII)
HEADERS = {
    "Cache-Control": "no-store",
    "Content-Security-Policy": (
        "default-src 'none'; script-src 'self'; style-src 'self'; connect-src 'self'; "
        "img-src 'self' data: blob:; base-uri 'none'; form-action 'none'"
    ),
    "Cross-Origin-Resource-Policy": "same-origin",
    "Referrer-Policy": "no-referrer",
    "X-Content-Type-Options": "nosniff",
}


class Denied(Exception):
    """A request that is refused: the status, and why in a line."""

    def __init__(self, status: int, why: str) -> None:
        super().__init__(why)
        self.status = status
        self.why = why


class Server:
    """Serves one page. `url` is the link with its key."""

    def __init__(self, page: Page, port: int) -> None:
        self.key = secrets.token_urlsafe(24)
        self._listener = _Listener((LOOPBACK, port), _Handler)
        self._listener.page = page
        self._listener.key = self.key.encode()
        self.port: int = self._listener.server_address[1]
        self.url = f"http://{LOOPBACK}:{self.port}/{self.key}/"
        self._thread = threading.Thread(target=self._listener.serve_forever, name="subzero page", daemon=True)
        self._thread.start()

    def close(self) -> None:
        """Take no further request, on no connection."""
        self._listener.closed = True
        self._listener.shutdown()
        self._listener.server_close()


class _Listener(ThreadingHTTPServer):
    daemon_threads = True
    block_on_close = False
    page: Page
    key: bytes
    closed = False

    def server_bind(self) -> None:
        """Bind without asking for this machine's name, which may take long."""
        socketserver.TCPServer.server_bind(self)
        self.server_name, self.server_port = LOOPBACK, self.server_address[1]

    def handle_error(self, request: Any, client_address: Any) -> None:
        """A viewer who goes away in the middle of an answer is no fault."""


class _Handler(BaseHTTPRequestHandler):
    protocol_version = "HTTP/1.1"
    server_version, sys_version = "subzero", ""
    disable_nagle_algorithm = True  # an answer does not wait for the one before to be acknowledged
    timeout = 60
    server: _Listener

    def do_GET(self) -> None:
        self._answer(self._get)

    def do_POST(self) -> None:
        self._answer(self._post)

    def log_message(self, format: str, *arguments: Any) -> None:
        """Nothing is written on the terminal."""

    def send_error(self, code: int, message: str | None = None, explain: str | None = None) -> None:
        """What http.server itself refuses is told in a line too."""
        self.close_connection = True
        self._say(code, "text/plain; charset=utf-8", f"{message or 'refused'}\n".encode())

    def _answer(self, route: Callable[[str], tuple[str, bytes]]) -> None:
        """Answer a request, or say in a line why not."""
        try:
            kind, body = route(self._name())
        except Denied as denied:
            self.close_connection = True  # what it may still send is not read
            self._say(denied.status, "text/plain; charset=utf-8", f"{denied.why}\n".encode())
        except (BadInput, Refused) as fault:
            self._say(400, "text/plain; charset=utf-8", f"{fault}\n".encode())
        except SubZeroError as fault:
            self._say(503, "text/plain; charset=utf-8", f"{fault}\n".encode())
        else:
            self._say(200, kind, body)

    def _name(self) -> str:
        """What is asked for, behind the key. Raises Denied for a foreign host and a wrong key, and after the end."""
        if self.server.closed:
            raise Denied(503, "the page is closed")
        hosts: list[str] = self.headers.get_all("Host") or []
        if len(hosts) != 1 or not HOST.fullmatch(hosts[0]):
            raise Denied(403, "this is not the host that is asked for")
        origin = self.headers.get("Origin")
        if origin is not None and origin != f"http://{hosts[0]}":
            raise Denied(403, "another page may not ask")
        key, slash, name = self.path.partition("?")[0].removeprefix("/").partition("/")
        if not hmac.compare_digest(key.encode(), self.server.key) or not slash:
            raise Denied(403, "the link has not the key of this page")
        return name

    def _get(self, name: str) -> tuple[str, bytes]:
        page = self.server.page
        if name in FILES:
            file, kind = FILES[name]
            return kind, resources.files(__package__).joinpath(file).read_bytes()
        if name == "run":
            return "application/json", json.dumps(page.told()).encode()
        if name == "state":
            return "application/json", json.dumps(page.state()).encode()
        if number := re.fullmatch("values/([0-9]{1,4})", name, re.ASCII):
            return "application/octet-stream", page.values(int(number[1]))
        raise Denied(404, "the page has no such part")

    def _post(self, name: str) -> tuple[str, bytes]:
        page, body = self.server.page, self._body()
        if name == "ask":
            try:
                question = json.loads(body)
            except (ValueError, RecursionError):
                raise BadInput("the question is not JSON") from None
            return "application/octet-stream", page.answer(Question.read(question))
        if name == "clear":
            page.clear()
            return "application/json", b"{}"
        raise Denied(404, "the page has no such part")

    def _body(self) -> bytes:
        length = self.headers.get("Content-Length", "")
        if "Transfer-Encoding" in self.headers or not re.fullmatch("[0-9]{1,18}", length, re.ASCII):
            raise Denied(411, "the length of the question is not said")
        if int(length) > MOST_BODY:
            raise Denied(413, f"the question is longer than {MOST_BODY} bytes")
        return self.rfile.read(int(length))

    def _say(self, status: int, kind: str, body: bytes) -> None:
        self.send_response(status)
        for name, value in HEADERS.items():
            self.send_header(name, value)
        self.send_header("Content-Type", kind)
        self.send_header("Content-Length", str(len(body)))
        if self.close_connection:
            self.send_header("Connection", "close")
        self.end_headers()
        self.wfile.write(body)
