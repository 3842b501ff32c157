"""Listens where ptp4l sends its events, and keeps them as a capture: one datagram a line, as hexadecimal digits."""

from __future__ import annotations

import contextlib
import os
import signal
import socket
import stat
import time
from typing import Iterator, List, Optional, TextIO

from sundial_tools.errors import ToolError
from sundial_tools.safe_write import Progress

MOST_DATAGRAM = 65536
LOOK_SECONDS = 0.25
# How many datagrams a socket holds at most, by far.
MOST_WAITING = 4096


def capture(path: str, seconds: float, output: TextIO) -> int:
    """Keeps what comes to a new socket at `path` for so many seconds, and answers how many datagrams came.

    Ctrl-C and SIGTERM end it before: what came until then is kept, also what the socket still holds.
    """
    count, end = 0, time.monotonic() + seconds
    with _asked_to_stop() as asked, _listening(path) as listener, Progress("captured", "datagrams") as progress:
        while not asked and time.monotonic() < end:
            count += _keep(_next(listener), output, progress)
        listener.settimeout(0)
        for _ in range(MOST_WAITING):
            if not _keep(_next(listener), output, progress):
                break
            count += 1
    return count


@contextlib.contextmanager
def _asked_to_stop() -> Iterator[List[int]]:
    """The signals that came. They raise nothing here, so that none comes between a datagram and its keeping."""
    asked: List[int] = []
    before = {}
    with contextlib.suppress(ValueError):  # (a thread other than the first sets no handlers)
        for number in signal.SIGINT, signal.SIGTERM:
            before[number] = signal.signal(number, lambda came, _: asked.append(came))
    try:
        yield asked
    finally:
        for number, handler in before.items():
            signal.signal(number, handler)


def _keep(datagram: Optional[bytes], output: TextIO, progress: Progress) -> bool:
    """Whether there was a datagram to keep."""
    if datagram is None:
        return False
    output.write(datagram.hex() + "\n")
    progress.step()
    return True


def _next(listener: socket.socket) -> Optional[bytes]:
    try:
        return listener.recv(MOST_DATAGRAM)
    except (socket.timeout, BlockingIOError):
        return None


@contextlib.contextmanager
def _listening(path: str) -> Iterator[socket.socket]:
    """A datagram socket at `path`, which is removed at the end. Only a socket that was left there is replaced."""
    with contextlib.suppress(FileNotFoundError):
        if not stat.S_ISSOCK(os.lstat(path).st_mode):
            raise ToolError("there is a file, and no socket", path)
        os.unlink(path)
    with socket.socket(socket.AF_UNIX, socket.SOCK_DGRAM) as listener:
        try:
            listener.bind(path)
        except OSError as fault:
            raise ToolError(f"no socket can be made there: {fault.strerror or fault}", path) from None
        listener.settimeout(LOOK_SECONDS)
        try:
            yield listener
        finally:
            with contextlib.suppress(FileNotFoundError):
                os.unlink(path)
