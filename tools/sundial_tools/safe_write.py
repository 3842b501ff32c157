"""Output that is whole or not there, and progress on a terminal."""

from __future__ import annotations

import contextlib
import errno
import os
import secrets
import shutil
import stat
import sys
import tempfile
import time
from typing import Callable, ContextManager, Iterator, Optional, TextIO, cast

COUNTS_PER_LOOK = 4096
FIRST_SECONDS = 2.0
NEXT_SECONDS = 0.5


@contextlib.contextmanager
def whole_output(path: Optional[str]) -> Iterator[TextIO]:
    """A text that appears at `path` when the block ends well, and not at all when it fails.

    No path, or `-`, is standard output. It, and what is no regular file (a FIFO, a device), gets the text when the
    block has ended. A link stays a link, and a file that is there keeps its mode.
    """
    if path is None or path == "-":
        with _gathered() as text:
            yield text
            text.seek(0)
            shutil.copyfileobj(text, sys.stdout)
            sys.stdout.flush()
        return
    target = os.path.realpath(path)
    known = _status(target)
    if known is None or stat.S_ISREG(known.st_mode):
        with _replacing(target, known) as text:
            yield text
        return
    if stat.S_ISDIR(known.st_mode):
        raise IsADirectoryError(errno.EISDIR, os.strerror(errno.EISDIR), path)
    with _gathered() as text:
        yield text
        text.seek(0)
        with open(target, "w", encoding="utf-8", newline="") as output:
            shutil.copyfileobj(text, output)


@contextlib.contextmanager
def flowing_output(path: Optional[str]) -> Iterator[TextIO]:
    """A text of which each line goes out as soon as it is written: what a reader sees before an end is whole lines."""
    if path is None or path == "-":
        yield cast(TextIO, _Flowing(sys.stdout))
        return
    with open(path, "w", encoding="utf-8", newline="", buffering=1) as text:
        yield text


class _Flowing:
    """A text that goes on at each write."""

    def __init__(self, text: TextIO) -> None:
        self._text = text

    def write(self, words: str) -> int:
        count = self._text.write(words)
        self._text.flush()
        return count


def output_of(path: Optional[str], follow: bool) -> ContextManager[TextIO]:
    return flowing_output(path) if follow else whole_output(path)


OUTPUT = "where the output goes (default: standard output)"
FOLLOW = "write each line as soon as it is known: for pipes; what was written stays where the input ends badly"


def _status(path: str) -> Optional[os.stat_result]:
    try:
        return os.stat(path)
    except FileNotFoundError:
        return None


def _gathered() -> ContextManager[TextIO]:
    """A file without a name: no end of the process leaves it behind."""
    return cast(ContextManager[TextIO], tempfile.TemporaryFile("w+", encoding="utf-8", newline=""))


@contextlib.contextmanager
def _replacing(target: str, known: Optional[os.stat_result]) -> Iterator[TextIO]:
    temporary = os.path.join(os.path.dirname(target), f".sundial-{secrets.token_hex(8)}")
    try:
        # (the name stands before the file is made, so a signal in between leaves nothing behind)
        with open(temporary, "x", encoding="utf-8", newline="", opener=_for_the_owner_alone) as text:
            yield text
        _keep_owner_and_mode(temporary, known)
        os.replace(temporary, target)
    except BaseException:
        with contextlib.suppress(FileNotFoundError):
            os.unlink(temporary)
        raise


def _for_the_owner_alone(path: str, flags: int) -> int:
    return os.open(path, flags, 0o600)


def _keep_owner_and_mode(path: str, known: Optional[os.stat_result]) -> None:
    if known is None:
        os.chmod(path, 0o666 & ~_file_mask())
        return
    with contextlib.suppress(PermissionError):
        os.chown(path, known.st_uid, known.st_gid)
    os.chmod(path, stat.S_IMODE(known.st_mode))


def _file_mask() -> int:
    mask = os.umask(0)
    os.umask(mask)
    return mask


class Progress:
    """Says on a terminal how far a tool is, from the third second on.

    `step` is cheap: it looks at the clock once in 4096 counts.
    """

    def __init__(
        self,
        what: str,
        unit: str = "lines",
        stream: Optional[TextIO] = None,
        clock: Callable[[], float] = time.monotonic,
    ) -> None:
        self._what, self._unit = what, unit
        self._stream = sys.stderr if stream is None else stream
        self._clock = clock
        self._next = clock() + FIRST_SECONDS
        self._count = 0
        self._shown = False
        self._terminal = self._stream.isatty()

    def step(self, count: int = 1) -> None:
        before = self._count
        self._count += count
        if self._terminal and before // COUNTS_PER_LOOK != self._count // COUNTS_PER_LOOK:
            self._look()

    def end(self) -> None:
        """Takes the line of progress away."""
        if self._shown:
            self._stream.write("\r\x1b[K")
            self._stream.flush()
            self._shown = False

    def _look(self) -> None:
        now = self._clock()
        if now >= self._next:
            self._next = now + NEXT_SECONDS
            self._stream.write(f"\r\x1b[K{self._what}: {self._count:,} {self._unit}")
            self._stream.flush()
            self._shown = True

    def __enter__(self) -> "Progress":
        return self

    def __exit__(self, *_: object) -> None:
        self.end()
