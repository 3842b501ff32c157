"""Logs that grow: files that others append to and rotate, and FIFOs, which are kept in a file of the state first."""

from __future__ import annotations

import contextlib
import errno
import os
import re
import stat
from collections import deque
from typing import Any, Callable, Deque, Iterator, List, NamedTuple, Optional, Tuple

from sundial_tools.errors import ToolError
from sundial_tools.record.events import LogEvent
from sundial_tools.record.logs import Log
from sundial_tools.topology import Topology
from sundial_tools.watch.journal import CHECKED, Place, check_of

# (Linux and Python 3.10 have them; a checker of types may not know)
SPLICE: Any = getattr(os, "splice", None)
NONBLOCK: int = getattr(os, "SPLICE_F_NONBLOCK", 0)
MOST_SPLICED = 1 << 20
MOST_LINE = 1 << 16
# What a log is called when it was rotated, after its name: .1, or -20261201.
ROTATED = re.compile(r"[.-]\d[\d.:TZ_-]*")


class Bad(NamedTuple):
    """A line that is passed over, and why."""

    place: Place
    reason: str


class Waiting(NamedTuple):
    """An event that may come next, and the lines after it that are no events."""

    event: LogEvent
    place: Place
    bad: List[Bad]


class Bounds(NamedTuple):
    """Between which references an event of a log may come: none is late before `floor`, and none is ahead up to `limit`.

    An event that is ahead is held until it `is_judged`: all other logs were read as far as they go. `is_far`: nothing is
    read now, since other logs have something to be read that comes long before.
    """

    floor: Optional[int] = None
    limit: Optional[int] = None
    is_judged: bool = True
    is_far: bool = False


class Said(NamedTuple):
    """Who is told what is said of a log, and with which inode it begins."""

    say: Callable[[str], None]
    begins: Callable[[int], None]


class Tail(Log):
    """The events of one log that are not told yet. `last` is the latest reference that was read.

    A log is followed by its inode: after a rotation the old file is read to its end, and then the file that came after it.
    """

    def __init__(self, path: str, topology: Topology, spool: str, most_bytes: int, hooks: Said) -> None:
        super().__init__(path, topology)
        self.path, self._spool, self._most_bytes, self._hooks = path, spool, most_bytes, hooks
        self._file = self._fifo = -1
        # How far lines were looked at, and how far they were told or passed over.
        self._read = self.done = Place()
        # Behind what was read; the bytes before that; the lines of it that were not looked at; and what is no whole line yet.
        self._end, self._seen, self._lines, self._rest = 0, b"", deque(), b""  # type: int, bytes, Deque[bytes], bytes
        self._status: Optional[Tuple[int, int, int]] = None
        self._is_missing = False
        self.told: Optional[int] = None
        # The reference of a line that is held, since it is ahead of all other logs.
        self.held: Optional[int] = None
        # It has nothing more now; all that it had when it was read was looked at.
        self.at_end = self.is_caught_up = False
        # Up to which byte of which file it is read, where that is said.
        self._until: Optional[Tuple[int, int]] = None
        self.waiting: Deque[Waiting] = deque()

    @property
    def front(self) -> Optional[int]:
        """The latest reference that is known of it."""
        return self.last if self.held is None else self.held

    @property
    def is_over(self) -> bool:
        """All that there was when it was to end has been read."""
        return self._file >= 0 and self._until is not None and self._until[0] == self._read.file and self._until[1] <= self._end

    def end_now(self) -> None:
        """It is read as far as it goes now. What a file gets from here on is left to a later run."""
        with contextlib.suppress(FileNotFoundError):
            status = os.fstat(0) if self.path == "-" else os.stat(self.path)
            self._until = (status.st_ino, status.st_size) if stat.S_ISREG(status.st_mode) else None

    def more(self, bounds: Bounds) -> Tuple[List[Bad], bool]:
        """Reads on. Answers the lines to pass over behind which nothing waits, and whether anything was done."""
        bad: List[Bad] = []
        # (behind one line that is held the next one is read, too: it may say that this one is wrong)
        kept, held = len(self._lines), self.held
        reads = kept < 2 and not bounds.is_far
        came = reads and not self.is_over and self._more_lines()
        self.is_caught_up = reads and not came
        self.at_end = self.is_caught_up and not kept
        unjudged = bounds._replace(is_judged=False)
        while self._lines and self._line(self._lines[0], bounds if kept > 0 else unjudged, bad):
            self._lines.popleft()
            kept, came = kept - 1, True
        return bad, came or self.held != held

    def move_to(self, place: Place, ref: Optional[int]) -> None:
        """An earlier run told the log up to there. `ref` is the latest reference."""
        self._read = self.done = place
        self._end = place.offset
        if ref is not None:
            self.last = self.told = ref

    def take(self) -> Waiting:
        """The first event was told or passed over."""
        first = self.waiting.popleft()
        self.told = first.event.ref
        self.done = first.bad[-1].place if first.bad else first.place
        return first

    def close(self) -> None:
        for file in self._file, self._fifo:
            if file >= 0:
                os.close(file)
        self._file = self._fifo = -1

    # Lines

    def _line(self, line: bytes, bounds: Bounds, bad: List[Bad]) -> bool:
        """Looks at a line. Answers whether that is done: not of one that is held."""
        read, self._read = self._read, self._behind(line)
        try:
            event = self._event_of(line, self._read.line)
            if event is None:
                return True
            self._in_order(event)
            if bounds.floor is not None and event.ref < bounds.floor:
                raise event.refuse(f"late: its reference is {bounds.floor - event.ref} ps before what was told; a greater --horizon waits longer")
            if bounds.limit is not None and event.ref > bounds.limit:
                if not self._is_wrong(event, bounds):
                    self._read, self.held = read, event.ref
                    return False
                raise event.refuse("ahead: its reference is further ahead of all other logs than --jump allows")
        except ToolError as fault:
            self._pass_over(fault.reason, bad)
        else:
            self.last = event.ref
            self.waiting.append(Waiting(event, self._read, []))
        self.held = None
        return True

    def _is_wrong(self, event: LogEvent, bounds: Bounds) -> bool:
        """Whether an event that is ahead is wrong, and is waited for no longer: the next line says so, or the other logs do."""
        if bounds.limit is None or bounds.limit < 0:
            return False
        if bounds.is_judged:
            return True
        try:
            following = self._event_of(self._lines[1], 0) if len(self._lines) > 1 else None
        except ToolError:
            following = None
        return following is not None and following.ref < event.ref and (self.last is None or following.ref >= self.last)

    def _behind(self, line: bytes) -> Place:
        file, offset, number, _ = self._read
        return Place(file, offset + len(line), number + 1, check_of(line))

    def _pass_over(self, reason: str, bad: List[Bad]) -> None:
        said = Bad(self._read, reason)
        if self.waiting:
            self.waiting[-1].bad.append(said)
        else:
            self.done = said.place
            bad.append(said)

    # Files

    def _more_lines(self) -> bool:
        """Reads some bytes. Answers whether there were any, or a last line that has no end."""
        if self._file < 0 and not self._has_opened():
            return False
        if self._fifo >= 0:
            self._drain()
        elif not self._has_changed():
            return False
        self._judge_same()
        data = self._bytes()
        following = "" if data or self._fifo >= 0 or self.is_over else self._following()
        if following and self._rest:
            self._lines.append(self._rest)
            self._rest = b""
            return True
        if following:
            os.close(self._file)
            self._begin(os.open(following, os.O_RDONLY))
            data = self._bytes()
        if len(data) == self._most_bytes:
            self._status = None
        self._keep(data)
        return bool(data)

    def _bytes(self) -> bytes:
        most = self._most_bytes
        if self._until is not None and self._until[0] == self._read.file:
            most = max(0, min(most, self._until[1] - self._end))
        return os.pread(self._file, most, self._end)

    def _keep(self, data: bytes) -> None:
        self._end += len(data)
        self._seen = (self._seen + data)[-CHECKED:]
        *lines, self._rest = (self._rest + data).split(b"\n")
        self._lines.extend(line + b"\n" for line in lines)
        if len(self._rest) > MOST_LINE:
            raise ToolError(f"line {self._read.line + len(lines) + 1} is longer than {MOST_LINE} bytes", self.path)

    def _begin(self, file: int) -> None:
        """From here on this file is read, from its beginning."""
        self._file, self._status = file, None
        self._read, self._end, self._seen, self._rest = Place(os.fstat(file).st_ino), 0, b"", b""

    def _has_changed(self) -> bool:
        """Whether the file of this name may have something that was not read."""
        try:
            now = os.stat(self.path)
        except FileNotFoundError:
            return True
        before, self._status = self._status, (now.st_ino, now.st_size, now.st_mtime_ns)
        return before != self._status or now.st_ino != self._read.file

    def _judge_same(self) -> None:
        """Begins anew where the file is not the one that was read so far: it was cut short, and may have grown again."""
        size, count = os.fstat(self._file).st_size, len(self._seen)
        if size < self._end or os.pread(self._file, count, self._end - count) != self._seen:
            self._begin_anew()

    def _begin_anew(self) -> None:
        self._hooks.say("it was written anew and is read from its beginning: what it had before and was not read is lost")
        self._begin(self._file)

    def _following(self) -> str:
        """The file that came after this one under the name of the log, where there is one and it has something."""
        mine = os.fstat(self._file)
        later = [
            (status.st_mtime_ns, path) for path, status in self._files()
            if status.st_ino != mine.st_ino and status.st_size and (status.st_mtime_ns >= mine.st_mtime_ns or not mine.st_nlink)
        ]
        # (who writes there now wrote to this one up to then)
        return min(later)[1] if later and os.fstat(self._file).st_size == self._end else ""

    def _files(self) -> Iterator[Tuple[str, os.stat_result]]:
        """The files of a log of whose name another file is now, or none: that one, and those that were rotated."""
        folder, name = os.path.split(self.path)
        with contextlib.suppress(FileNotFoundError):
            if os.stat(self.path).st_ino == self._read.file:
                return
        with contextlib.suppress(FileNotFoundError):
            for one in os.listdir(folder or "."):
                if one == name or (one.startswith(name) and ROTATED.fullmatch(one, len(name))):
                    with contextlib.suppress(FileNotFoundError):
                        yield os.path.join(folder, one), os.stat(os.path.join(folder, one))

    def _has_opened(self) -> bool:
        """Opens the log where it is there. A FIFO stays open, and what it brings goes to the spool."""
        opened = self._opened()
        if opened is None:
            if not self._is_missing:
                self._hooks.say("it is not there, and is waited for")
            self._is_missing = True
            return False
        if stat.S_ISREG(os.fstat(opened).st_mode):
            self._file = opened
        else:
            self._fifo = opened
            os.set_blocking(self._fifo, False)
            self._file = os.open(self._spool, os.O_RDWR | os.O_CREAT, 0o600)
        self._take_up(os.fstat(opened).st_ino if self._fifo < 0 else 0)
        return True

    def _opened(self) -> Optional[int]:
        """The file that an earlier run read, wherever it is now, and else that of the name of the log."""
        if self.path == "-":
            return os.dup(0)
        before = [path for path, status in self._files() if status.st_ino == self._read.file] if self._read.file else []
        try:
            return os.open(before[0] if before else self.path, os.O_RDONLY | os.O_NONBLOCK)
        except FileNotFoundError:
            return None

    def _take_up(self, file: int) -> None:
        """Goes on in the file behind what an earlier run read, where that is there."""
        place = self._read
        if place == Place():
            self._hooks.begins(file)
        elif place.file != file:
            self._hooks.say("the file that was read before is gone: what it had and was not read is lost")
        if place.file != file:
            self._read, self._end = Place(file), 0
            return
        start = max(0, place.offset - CHECKED)
        self._seen = os.pread(self._file, place.offset - start, start)
        if place.offset and check_of(self._seen) != place.check:
            self._begin_anew()

    def _drain(self) -> None:
        """Moves what the FIFO has to the spool, in the kernel: a kill in between loses nothing."""
        end = os.stat(self._spool).st_size
        try:
            while True:
                moved = SPLICE(self._fifo, self._file, MOST_SPLICED, offset_dst=end, flags=NONBLOCK)
                if not moved:
                    return
                end += moved
        except BlockingIOError:
            return
        except OSError as fault:
            if fault.errno != errno.EINVAL:
                raise
            raise ToolError("neither a file nor a FIFO", self.path) from None
