"""How a tool ends: a clear line on standard error and status 1 on a bad input."""

from __future__ import annotations

import contextlib
import os
import signal
import sys
from types import FrameType
from typing import Callable, Iterator, List, Optional

from sundial_tools import __version__


class ToolError(Exception):
    """An input that a tool cannot use, with its file and its line (from 1) where they are known."""

    def __init__(self, reason: str, source: Optional[str] = None, line: Optional[int] = None) -> None:
        super().__init__(reason)
        self.reason = reason
        self.source = source
        self.line = line

    def __str__(self) -> str:
        place = self.source or ""
        if self.line is not None:
            place += f":{self.line}" if place else f"line {self.line}"
        return f"{place}: {self.reason}" if place else self.reason


def decoded(text: bytes, source: Optional[str], line: Optional[int] = None) -> str:
    """The text of bytes that have to be UTF-8."""
    try:
        return text.decode("utf-8")
    except UnicodeDecodeError as fault:
        raise ToolError(f"not UTF-8: {fault.reason} at byte {fault.start + 1}" + (" of the line" if line else ""), source, line) from None


class Stopped(BaseException):
    """A signal that ends the process. It is raised, so that what was begun is cleared away first."""

    def __init__(self, number: int) -> None:
        super().__init__(number)
        self.number = number


def _stop(number: int, _: Optional[FrameType]) -> None:
    raise Stopped(number)


@contextlib.contextmanager
def _stoppable() -> Iterator[None]:
    """Within the block SIGTERM and SIGHUP raise. A signal that is ignored, as under nohup, stays ignored."""
    changed = {}
    with contextlib.suppress(ValueError):  # (a thread other than the first sets no handlers)
        for number in signal.SIGTERM, signal.SIGHUP:
            if signal.getsignal(number) is signal.SIG_DFL:
                changed[number] = signal.signal(number, _stop)
    try:
        yield
    finally:
        for number, handler in changed.items():
            signal.signal(number, handler)


def run_tool(name: str, main: Callable[[List[str]], int], words: Optional[List[str]] = None) -> int:
    """Runs `main` over the words of the command and answers the status of the process."""
    words = sys.argv[1:] if words is None else words
    if words == ["--version"]:
        print(f"{name} {__version__}")
        return 0
    try:
        with _stoppable():
            return main(words)
    except Stopped as stopped:
        os.kill(os.getpid(), stopped.number)  # (its handler is the usual one again: the process ends by the signal)
        return 128 + stopped.number
    except ToolError as fault:
        return _refused(name, str(fault))
    except UnicodeDecodeError as fault:
        return _refused(name, f"a text is not UTF-8: {fault.reason} at byte {fault.start + 1}")
    except BrokenPipeError:
        # Who read the output has gone. The interpreter must not write to it again at its end.
        os.dup2(os.open(os.devnull, os.O_WRONLY), sys.stdout.fileno())
        return 1
    except OSError as fault:
        return _refused(name, f"{fault.filename}: {fault.strerror}" if fault.filename else str(fault))
    except KeyboardInterrupt:
        return _refused(name, "interrupted")


def _refused(name: str, reason: str) -> int:
    # (what an input brought in may not move the cursor, or make a second line)
    shown = "".join(sign if sign.isprintable() else sign.encode("unicode_escape").decode() for sign in reason)
    print(f"{name}: {shown}", file=sys.stderr)
    return 1
