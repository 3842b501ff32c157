"""The feed of `sundialctl merge`: the lines of logs as they come, in the compact form, and how far each log is.

A line is `LOG ENTRY`, or `LOG past REF`: the log numbered LOG brings nothing before REF any more. Nothing is ordered here,
and no message is looked up.
"""

from __future__ import annotations

import os
import select
import stat
from collections import deque
from typing import Callable, Deque, Dict, List, Optional, Sequence, TextIO, Tuple

from sundial_tools.errors import ToolError
from sundial_tools.record.compact_lines import compact_line, message_name
from sundial_tools.record.events import NONE, LogEvent
from sundial_tools.record.logs import Log
from sundial_tools.record.recorder import origin_before, placed, since_begin, within
from sundial_tools.schedule import MOST_DEVICE, MOST_NUMBER, Event
from sundial_tools.topology import Topology

MOST_BYTES = 1 << 16
# For so many milliseconds nobody looks whether a file has grown.
WAIT = 50
# A log that is silent is told to be past in steps of this part of the horizon.
STEPS = 16


class Growing(Log):
    """One log, read as far as it goes. A FIFO ends when all its writers have closed it.

    A file ends where it ends now, or, if it `grows`, never.
    """

    def __init__(self, path: str, topology: Topology, grows: bool = False) -> None:
        super().__init__(path, topology)
        self._grows = grows
        self.file = os.dup(0) if path == "-" else os.open(path, os.O_RDONLY | os.O_NONBLOCK)
        self.is_file = stat.S_ISREG(os.fstat(self.file).st_mode)
        self._rest, self._line = b"", 0
        self.ended = False
        self.waiting: Deque[LogEvent] = deque()

    def read(self) -> bool:
        """Reads on. Answers whether there was something to read, be it the end."""
        try:
            data = os.read(self.file, MOST_BYTES)
        except BlockingIOError:
            return False
        if not data and self._grows and self.is_file:
            return False
        lines = (self._rest + data).split(b"\n")
        self._rest = lines.pop()
        if not data:
            lines = [self._rest] if self._rest else []
            self.ended = True
            os.close(self.file)
        for line in lines:
            self._take(line)
        return True

    def _take(self, line: bytes) -> None:
        self._line += 1
        event = self._event_of(line, self._line)
        if event is not None:
            self._in_order(event)
            self.last = event.ref
            self.waiting.append(event)


class Feed:
    """Writes the feed of logs. A log that brings nothing for `horizon` of reference time is told to be past it."""

    def __init__(
        self, logs: Sequence[Growing], topology: Topology, text: TextIO, origin: Optional[int], from_life: bool,
        horizon: Optional[int], counted: Callable[[int], None],
    ) -> None:
        self._logs, self._topology, self._text, self._horizon, self._counted = logs, topology, text, horizon, counted
        self._given_origin, self._from_life = origin, from_life
        self.origin = 0
        # By device: its counter at its latest start or join, and which log has its counters.
        self._bases: Dict[int, int] = {}
        self._owners: Dict[int, int] = {}
        # Of each log, from 1: the reference before which it brings nothing, as it was told.
        self._past = [-1] * (len(logs) + 1)
        self._greatest = 0
        self._has_begun = self._has_end = False
        self.entries = 0

    def write(self) -> None:
        """Reads all logs to their ends."""
        while any(not log.ended for log in self._logs):
            silent = self._read()
            if self._has_begun or self._begins():
                self._write_events()
                self._write_past(silent)
        if not self._has_begun:
            raise ToolError("the logs have no event")
        self._write_end()

    def _read(self) -> List[int]:
        """Reads on in the file that is furthest behind, and in each FIFO that has something. Answers which have nothing."""
        files = [number for number, log in enumerate(self._logs, 1) if log.is_file and not log.ended]
        silent, has_read = [], False
        for number in sorted(files, key=self._last_of):
            has_read = self._logs[number - 1].read()
            if has_read:
                break
            silent.append(number)
        pipes = {log.file: number for number, log in enumerate(self._logs, 1) if not log.is_file and not log.ended}
        ready = _ready(list(pipes), 0 if has_read else WAIT if files else None)
        return silent + [number for file, number in pipes.items() if file not in ready or not self._logs[number - 1].read()]

    def _last_of(self, number: int) -> int:
        last = self._logs[number - 1].last
        return -1 if last is None else last

    def _begins(self) -> bool:
        """Whether each log has an event or has ended: only then the origin is known, where it is not given."""
        firsts = [log.waiting[0].ref for log in self._logs if log.waiting]
        if self._given_origin is None and not all(log.waiting or log.ended for log in self._logs):
            return False
        if firsts:
            self.origin = origin_before(min(firsts)) if self._given_origin is None else self._given_origin
            self._has_begun = True
        return self._has_begun

    def _write_events(self) -> None:
        """Writes what was read, by reference."""
        read = [(number, event) for number, log in enumerate(self._logs, 1) for event in log.waiting]
        for log in self._logs:
            log.waiting.clear()
        read.sort(key=_reference)
        lines, past, origin = [], self._past, self.origin
        for number, event in read:
            ref = event.ref - origin
            if not 0 <= ref <= MOST_NUMBER:
                within(event, ref, "the reference")
            if ref < past[number]:
                raise event.refuse(f"late: its reference is {past[number] - ref} ps behind what was told; a greater --horizon waits longer")
            past[number] = ref
            lines.append(f"{number} {self._line(number, event, ref)}")
        if read:
            self._greatest = max(self._greatest, ref)
            self._say(lines)
            self.entries += len(lines)

    def _line(self, number: int, event: LogEvent, ref: int) -> str:
        """The line of an event in the compact form."""
        word, device, counter = event.word, event.device, event.counter
        if counter is not None and (self._from_life or not 0 <= counter <= MOST_NUMBER):
            counter = self._counter(number, event, counter)
        if word == "tick" or word == "ask":
            return f"{word} {ref} {device} {counter}\n"
        if max(event.epoch, event.stamp[0]) > MOST_DEVICE or event.stamp[1] > MOST_NUMBER:
            raise event.refuse("the epoch, the term or the round of the message is past its limit")
        if word == "recv":
            return f"recv {ref} {device} {counter} {message_name(event)}\n"
        if word == "end":
            self._has_end = True
        event = placed(event, self.origin)
        return compact_line(event, Event(
            word, ref, None if device == NONE else device, counter, event.clock, event.eps, None,
            event.thing or None, None if event.number == NONE else event.number,
        ))

    def _counter(self, number: int, event: LogEvent, counter: int) -> int:
        """The counter as the schedule has it."""
        said = counter
        if self._from_life:
            if self._owners.setdefault(event.device, number) != number:
                name = self._topology.devices[event.device].name
                raise event.refuse(f"two logs have counters of {name}: --counters life needs all of them in one")
            said = since_begin(event, counter, self._bases)
            if event.word in ("start", "join"):
                self._bases[event.device] = counter
        return within(event, said, "the counter")

    def _write_past(self, silent: Sequence[int]) -> None:
        """Tells of each log that has ended, and of each that has been silent for long, that it is past."""
        for number, log in enumerate(self._logs, 1):
            if log.ended and (number < len(self._logs) or self._has_end):
                self._tell_past(number, MOST_NUMBER)
            elif log.ended:
                # (the last log brings the `end` that no log has)
                self._tell_past(number, self._greatest)
        if self._horizon is not None:
            for number in silent:
                if self._greatest - self._horizon - self._past[number] > self._horizon // STEPS:
                    self._tell_past(number, self._greatest - self._horizon)

    def _tell_past(self, number: int, ref: int) -> None:
        if self._past[number] < ref:
            self._past[number] = ref
            self._say([f"{number} past {ref}\n"])

    def _write_end(self) -> None:
        if not self._has_end:
            self._say([f"{len(self._logs)} end {self._greatest}\n"])
            self.entries += 1

    def _say(self, lines: Sequence[str]) -> None:
        self._text.write("".join(lines))
        self._counted(len(lines))


def _ready(files: Sequence[int], wait: Optional[int]) -> List[int]:
    """Those of these FIFOs that have something, or have ended. Waits for one, so many milliseconds if they are said."""
    poll = select.poll()
    for file in files:
        poll.register(file, select.POLLIN)
    return [file for file, _ in poll.poll(wait)] if files or wait is not None else []


def _reference(read: Tuple[int, LogEvent]) -> int:
    return read[1].ref
