"""A schedule up to a line: what happened before it, as far as a second look is quick."""

from __future__ import annotations

from typing import Dict, List, Optional, Sequence

from sundial_tools.errors import ToolError
from sundial_tools.fleet.fleet import Fleet
from sundial_tools.fleet.who import Watch
from sundial_tools.plain.history import History
from sundial_tools.plain.refusals import refusal
from sundial_tools.plan import Plan
from sundial_tools.schedule import Event, parse_event
from sundial_tools.topology import Topology

# The history of sundial-plain-replay looks each word up in the list of all events.
MOST_LINES = 2000


class Course:
    """The lines of a schedule, as bytes, and the events before one of them. The file may grow meanwhile."""

    def __init__(self, path: str, topology: Topology, plans: Sequence[Plan]) -> None:
        self.path, self.topology, self.plans = path, topology, plans
        self.lines: List[bytes] = []
        # What stands behind the last newline, and how many bytes were read.
        self._rest, self._read = b"", 0
        self._read_on()
        self._history: Optional[History] = None
        self._followed: Optional[Followed] = None

    def _read_on(self) -> None:
        with open(self.path, "rb") as file:
            file.seek(self._read)
            more = file.read()
        self._read += len(more)
        lines = (self._rest + more).split(b"\n")
        self._rest = lines.pop()
        self.lines += lines

    def text(self, number: int) -> Optional[bytes]:
        """A line without its newline, from 1."""
        if number > len(self.lines):
            self._read_on()
        if number == len(self.lines) + 1 and self._rest:
            return self._rest
        return self.lines[number - 1] if 1 <= number <= len(self.lines) else None

    def event(self, number: int) -> Optional[Event]:
        text = self.text(number)
        try:
            return parse_event(text.decode("latin-1")) if text is not None else None
        except ToolError:
            return None

    def before(self, number: int, word: str) -> List[int]:
        """The lines before one that begin with a word."""
        start = word.encode() + b" "
        return [at for at, line in enumerate(self.lines[: number - 1], 1) if line.startswith(start)]

    def followed(self, number: int) -> Optional[Followed]:
        """The fleet before a line, with that line's event to come. None where there is no plan, or no such event."""
        if not self.plans or self.event(number) is None:
            return None
        if self._followed is None or self._followed.line > number:
            self._followed = Followed(self.topology, self.plans)
        try:
            while self._followed.line < number:
                event = self.event(self._followed.line + 1)
                if event is None:
                    return None
                self._followed.reach(event)
        except (KeyError, IndexError, TypeError):
            # (no replay accepts this: it is not the schedule of the output)
            return None
        return self._followed

    def history(self, number: int) -> Optional[History]:
        """What happened before a line, list by list. None where it is far down, or where there is no plan."""
        if not self.plans or number > MOST_LINES:
            return None
        if self._history is None or len(self._history.steps) >= number:
            self._history = History(self.topology, self.plans)
        while len(self._history.steps) < number - 1:
            event = self.event(len(self._history.steps) + 1)
            if event is None or refusal(self._history, event):
                return None
            self._history.add(event)
        return self._history


class Followed:
    """A fleet that takes a schedule line by line, and who looks on. The event of `line` is still to come."""

    def __init__(self, topology: Topology, plans: Sequence[Plan]) -> None:
        self.fleet = Fleet(topology, plans)
        self.watch = Watch(self.fleet)
        self.line = 0
        self.took_over: Dict[int, int] = {}
        self._next: Optional[Event] = None

    def reach(self, event: Event) -> None:
        """Takes the event that was to come, and looks at the next one."""
        self.take()
        self.line += 1
        self._next = event
        self.watch.before(event)

    def take(self) -> None:
        """Takes the event that is to come."""
        event = self._next
        if event is None:
            return
        happened = self.fleet.happen(event)
        self.watch.after(event, self.line, happened)
        if happened == "takeover" and event.device is not None:
            self.took_over[event.device] = self.line
        self._next = None
