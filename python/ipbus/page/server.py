"""The page over HTTP: its files, and the calls of a desk. Only who has the token in the address gets anything."""

from __future__ import annotations

import hmac
import http.server
import json
import pathlib
import threading
import urllib.parse
from collections.abc import Callable
from typing import Any

from ipbus.page.desk import Desk, refusal

FILES = pathlib.Path(__file__).resolve().parent / "static"
KINDS = {".html": "text/html; charset=utf-8", ".css": "text/css; charset=utf-8", ".js": "text/javascript; charset=utf-8"}
MOST_BYTES = 65_536
MOST_AT_ONCE = 64
# how long a browser may take to send its request, in seconds
PATIENCE = 20
HEADERS = {
    "Content-Security-Policy": "default-src 'none'; script-src 'self'; style-src 'self'; connect-src 'self'; "
    "img-src 'self' data:; base-uri 'none'; form-action 'none'; frame-ancestors 'none'",
    "X-Content-Type-Options": "nosniff",
    "Referrer-Policy": "no-referrer",
    "Cross-Origin-Opener-Policy": "same-origin",
    "Cross-Origin-Resource-Policy": "same-origin",
    "Cache-Control": "no-store",
}


class PageServer(http.server.ThreadingHTTPServer):
    """Serves a desk at an address to who knows the token. `names` are the hosts that a browser may call it by."""

    daemon_threads = True

    def __init__(self, listen: str, port: int, token: str, names: list[str], desk: Desk) -> None:
        super().__init__((listen, port), Handler)
        self.token = token
        self.desk = desk
        self.places = threading.BoundedSemaphore(MOST_AT_ONCE)
        self.hosts = {f"{name}:{self.server_port}".lower() for name in names}
        self.files = {f"/{file.name}": (KINDS[file.suffix], file.read_bytes()) for file in FILES.iterdir()}
        self.files["/"] = self.files.pop("/index.html")

    def handle_error(self, request: Any, client_address: Any) -> None:
        """A browser that went away is no error."""


class Handler(http.server.BaseHTTPRequestHandler):
    """One connection of a browser."""

    server: PageServer
    server_version = "ipbus-page"
    sys_version = ""
    protocol_version = "HTTP/1.1"
    timeout = PATIENCE

    def log_message(self, *_: object) -> None:
        """Says nothing: the page has a log of its own."""

    def do_GET(self) -> None:
        """A file of the page, the document, or the state."""
        self._answer(self._get)

    def do_POST(self) -> None:
        """A read, a write or a watch."""
        self._answer(self._post)

    def _answer(self, call: Callable[[str, str], tuple[int, str, bytes]]) -> None:
        # a body that is not read would be taken for the next request
        self.is_read = self.command != "POST"
        if not self.server.places.acquire(blocking=False):
            return self._send(503, *told("too many requests at once: wait a moment"))
        try:
            refused = self._refused()
            if refused is not None:
                return self._send(403, *told(refused))
            parts = urllib.parse.urlsplit(self.path)
            _, token, rest = (parts.path + "//").split("/", 2)
            if not hmac.compare_digest(token.encode(), self.server.token.encode()):
                return self._send(403, *told("the address has no token, or another one: take it from the terminal"))
            self._send(*call("/" + rest.rstrip("/"), parts.query))
        finally:
            self.server.places.release()

    def _refused(self) -> str | None:
        """Why a request from elsewhere is refused: another name of this machine, or another page in the browser."""
        host = (self.headers.get("Host") or "").lower()
        if host not in self.server.hosts:
            return "this host name is not one of the page: start it with --name"
        origin = self.headers.get("Origin")
        if origin is None and self.command == "POST":
            return "a request with no Origin does not come from the page"
        if origin is not None and origin.lower() != f"http://{host}":
            return "the request comes from another page"
        return None

    def _get(self, path: str, query: str) -> tuple[int, str, bytes]:
        if path in self.server.files:
            return 200, *self.server.files[path]
        if path == "/api/document":
            return self._called(self.server.desk.document)
        if path == "/api/state":
            given = urllib.parse.parse_qs(query)
            since = given.get("since", ["0"])[0]
            browser = given.get("browser", [""])[0]
            return self._called(self.server.desk.state, browser, int(since) if since.isdecimal() and len(since) < 20 else 0)
        return 404, *told("there is nothing at this address")

    def _post(self, path: str, _query: str) -> tuple[int, str, bytes]:
        calls = {"/api/read": self.server.desk.read, "/api/write": self.server.desk.write, "/api/watch": self.server.desk.watch}
        if path not in calls:
            return 404, *told("there is nothing at this address")
        length = self.headers.get("Content-Length", "")
        if not length.isdecimal() or len(length) > 9 or int(length) > MOST_BYTES:
            return 413, *told(f"a request has at most {MOST_BYTES} bytes, and says how many")
        content = self.rfile.read(int(length))
        self.is_read = True
        try:
            given = json.loads(content)
        except (ValueError, RecursionError):
            return 400, *told("the request is no JSON")
        if not isinstance(given, dict):
            return 400, *told("the request is no JSON object")
        return self._called(calls[path], given)

    @staticmethod
    def _called(call: Callable[..., dict], *words: Any) -> tuple[int, str, bytes]:
        try:
            return 200, "application/json", json.dumps(call(*words)).encode()
        except Exception as error:
            status, why = refusal(error)
            return status, *told(why)

    def _send(self, status: int, kind: str, content: bytes) -> None:
        self.send_response(status)
        for name, value in HEADERS.items():
            self.send_header(name, value)
        self.send_header("Content-Type", kind)
        self.send_header("Content-Length", str(len(content)))
        if not self.is_read:
            self.send_header("Connection", "close")
        self.end_headers()
        self.wfile.write(content)


def told(why: str) -> tuple[str, bytes]:
    """A refusal as an answer: its kind and its bytes."""
    return "application/json", json.dumps({"refused": why}).encode()
