"""The parts of a schedule, as files."""

from __future__ import annotations

import os
from typing import Dict, List, NamedTuple, Optional, Sequence, TextIO, TypeVar

from sundial_tools.cut.opening import Opening
from sundial_tools.errors import ToolError
from sundial_tools.schedule import Event, event_line

ROOM = 2**59
TABLE = "parts.tsv"
Text = TypeVar("Text")


class Row(NamedTuple):
    """A part in the table of parts. `moved` was taken off its references and clocks."""

    file: str
    first_plan: int
    copies: int
    opening: int
    first_line: int
    lines: int
    way: str
    moved: int

    def text(self) -> str:
        return "\t".join(map(str, self)) + "\n"


HEADER = "file\tfirst plan\tcopies\topening lines\tfirst line\tlines\tway\ttaken off times\n"


def plans_of(plans: Sequence[Text], first: int, copies: int) -> List[Text]:
    """The plans of a part: those from the first one on, and before that its copies."""
    return [plans[first - 1]] * copies + list(plans[first - 1:])


class Shift:
    """What is taken off the times of a part, so that they fit a schedule: references and clocks, and each device's counters."""

    def __init__(self, first_ref: int) -> None:
        self.clock = max(0, first_ref - ROOM)
        self._counters: Dict[int, int] = {}

    def moved(self, event: Event) -> Event:
        device = event.device or 0
        if event.word in ("start", "join"):
            self._counters[device] = max(0, (event.counter or 0) - ROOM)
        counter = None if event.counter is None else event.counter - self._counters[device]
        clock = None if event.clock is None else event.clock - self.clock
        moved = event._replace(ref=event.ref - self.clock, counter=counter, clock=clock)
        if moved.ref < 0 or (counter or 0) < 0 or (clock or 0) < 0:
            raise ToolError(f"a time of {event_line(event).strip()!r} lies too far before its part")
        return moved


class Part:
    """A part that is being written."""

    def __init__(self, path: str, first_line: int, opening: Optional[Opening], moves: bool) -> None:
        self._path, self.first_line, self._opening = path, first_line, opening
        self._shift = Shift(opening.first_ref) if moves and opening is not None else None
        self._less = opening.less if opening is not None else 0
        self._lines = 0
        self._text: TextIO = open(path, "w", encoding="ascii")
        for event in opening.events if opening is not None else ():
            self._text.write(event_line(event if self._shift is None else self._shift.moved(event)))

    def skim(self, text: str, words: List[str]) -> None:
        """Adds a tick, an ask or a receipt of a part that moves no times. `words` are those of its line."""
        self._lines += 1
        if self._less and words[0] == "recv":
            text = f"recv {words[1]} {words[2]} {words[3]} {int(words[4]) - self._less}\n"
        self._text.write(text)

    def add(self, event: Event, text: str) -> None:
        """`text` is the line of the event."""
        self._lines += 1
        said = event if self._opening is None else self._opening.of(event)
        said = said if self._shift is None else self._shift.moved(said)
        self._text.write(text if said is event else event_line(said))

    def drop(self) -> None:
        """Nobody wants the part."""
        self._text.close()
        os.unlink(self._path)

    def finish(self, end: Optional[int]) -> Row:
        """Ends the part, with an `end` where one is due."""
        moved = self._shift.clock if self._shift else 0
        if end is not None:
            self._text.write(f"end {end - moved}\n")
        self._text.close()
        opening = self._opening
        return Row(
            os.path.basename(self._path), opening.epoch if opening else 1, opening.copies if opening else 0,
            len(opening.events) if opening else 0, self.first_line, self._lines, opening.way if opening else "whole", moved,
        )
