"""Where the metrics go: a file that is put into its place at once, and a port of the loopback."""

from __future__ import annotations

import contextlib
import threading
import time
from http.server import BaseHTTPRequestHandler, ThreadingHTTPServer
from typing import Optional

from sundial_tools.errors import ToolError
from sundial_tools.watch.state import write_renamed

# How old the text may get, and how soon news are in it.
USUAL_SECONDS, NEWS_SECONDS = 1.0, 0.1
LOOPBACK = "127.0.0.1"
SLOW_READER_SECONDS = 10


class Shown:
    """Shows the text of the metrics. Who reads the port gets the text that was shown last."""

    def __init__(self, file: Optional[str], port: Optional[int]) -> None:
        self._file, self._server = file, None if port is None else _Server(port)
        self._at: Optional[float] = None

    def is_due(self, has_news: bool) -> bool:
        if self._file is None and self._server is None:
            return False
        return self._at is None or time.monotonic() >= self._at + (NEWS_SECONDS if has_news else USUAL_SECONDS)

    def show(self, text: str) -> None:
        content = text.encode("utf-8")
        if self._server is not None:
            self._server.text = content
        if self._file is not None:
            write_renamed(self._file, content)
        self._at = time.monotonic()

    def close(self) -> None:
        if self._server is not None:
            self._server.shutdown()
            self._server.server_close()


class _Server(ThreadingHTTPServer):
    """A server in a thread of its own. It ends with the process."""

    daemon_threads = True

    def __init__(self, port: int) -> None:
        self.text = b""
        try:
            super().__init__((LOOPBACK, port), _Reader)
        except OSError as fault:
            raise ToolError(f"{LOOPBACK}:{port}: {fault.strerror}") from None
        threading.Thread(target=self.serve_forever, daemon=True).start()


class _Reader(BaseHTTPRequestHandler):
    """Answers GET /metrics alone."""

    timeout = SLOW_READER_SECONDS
    server: _Server

    def do_GET(self) -> None:
        if self.path.partition("?")[0] != "/metrics":
            self.send_error(404, "the metrics are at /metrics")
        elif not self.server.text:
            self.send_error(503, "the watch begins")
        else:
            text = self.server.text
            self.send_response(200)
            self.send_header("Content-Type", "text/plain; version=0.0.4; charset=utf-8")
            self.send_header("Content-Length", str(len(text)))
            with contextlib.suppress(ConnectionError):  # (a reader that has gone misses nothing)
                self.end_headers()
                self.wfile.write(text)

    def log_message(self, *_: object) -> None:
        """Nobody reads it."""
