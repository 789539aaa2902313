"""A page of metrics over HTTP. No scraper keeps another one, or the check, from its work."""
from __future__ import annotations

import contextlib
import http.server
import logging
import socket
import socketserver
import threading
from typing import Any, Dict
from urllib.parse import urlsplit

from ..address import Address, of_socket
from .metrics import CONTENT_TYPE

__all__ = ["Page"]

log = logging.getLogger("yarrowdoor.command")

# How long a scraper may be silent, in seconds, and how many connections are open at a time: for a
# further one the oldest is closed.
_SILENT, _MOST = 5.0, 16
_INDEX = "The metrics are at /metrics.\n"


class _Handler(http.server.BaseHTTPRequestHandler):
    timeout = _SILENT
    server: _Server

    def do_GET(self) -> None:
        path = urlsplit(self.path).path
        if path == "/metrics":
            self._answer(200, CONTENT_TYPE, self.server.page)
        elif path == "/":
            self._answer(200, "text/plain; charset=utf-8", _INDEX)
        else:
            self._answer(404, "text/plain; charset=utf-8", f"There is no such page. {_INDEX}")

    do_HEAD = do_GET

    def _answer(self, status: int, kind: str, text: str) -> None:
        body = text.encode()
        self.send_response(status)
        self.send_header("Content-Type", kind)
        self.send_header("Content-Length", str(len(body)))
        self.end_headers()
        if self.command != "HEAD":
            self.wfile.write(body)

    def version_string(self) -> str:
        return "yarrowdoor"

    def log_message(self, form: str, *args: Any) -> None:
        log.info("%s: %s", self.address_string(), form % args)


class _Server(socketserver.ThreadingMixIn, http.server.HTTPServer):
    daemon_threads = True
    # Of more than these the system drops the first packet, which a scraper sends again after a second, and then after two.
    request_queue_size = 128
    page = ""

    def __init__(self, listen: Address) -> None:
        self.address_family = socket.AF_INET6 if ":" in listen.host else socket.AF_INET
        self._open: Dict[int, socket.socket] = {}
        """the connections, the oldest first"""
        self._lock = threading.Lock()
        super().__init__((listen.host, listen.port), _Handler)

    def server_bind(self) -> None:
        # That of HTTPServer looks the host's name up, which lasts where no name server answers.
        socketserver.TCPServer.server_bind(self)

    def process_request(self, request: Any, client_address: Any) -> None:
        with self._lock:
            self._open[id(request)] = request
            oldest = next(iter(self._open.values())) if len(self._open) > _MOST else None
            if oldest is not None:
                del self._open[id(oldest)]
                with contextlib.suppress(OSError):
                    oldest.shutdown(socket.SHUT_RDWR)  # Its thread sees that, and closes it.
        super().process_request(request, client_address)

    def shutdown_request(self, request: Any) -> None:
        with self._lock:
            self._open.pop(id(request), None)
        super().shutdown_request(request)

    def handle_error(self, request: Any, client_address: Any) -> None:
        log.info("%s: the scraper has gone", client_address)


class Page:
    """Serves the text that was shown last, in threads of its own. It ends with its `with`."""

    def __init__(self, listen: Address) -> None:
        """`OSError` where the port is taken."""
        try:
            self._server = _Server(listen)
        except OSError as error:
            raise OSError(error.errno, f"{error.strerror}: {listen}") from None
        serve = self._server.serve_forever
        self._thread = threading.Thread(target=serve, args=(0.1,), daemon=True)

    @property
    def url(self) -> str:
        """Where the page is."""
        return f"http://{of_socket(self._server.socket.getsockname())}/metrics"

    def show(self, text: str) -> None:
        """Has this text served from now on."""
        self._server.page = text

    def __enter__(self) -> Page:
        self._thread.start()
        return self

    def __exit__(self, *how: object) -> None:
        self._server.shutdown()
        self._thread.join()
        self._server.server_close()
