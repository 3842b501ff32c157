"""A line of a merged log or of a feed that `sundialctl record` or `sundialctl merge` refuses: docs/RECORD.md."""

from __future__ import annotations

from typing import Iterator, Optional, Sequence

from sundial_tools.errors import ToolError
from sundial_tools.record.compact_lines import WORDS, parse_entry
from sundial_tools.record.events import LogEvent
from sundial_tools.record.fleet import JudgedFleet, Refusal
from sundial_tools.why.course import Course
from sundial_tools.why.schedules import ENDS, FORMS, Lines, shown

LOG = Lines(WORDS)
FEED = {
    "UnknownLog": "There is no log of this number. The logs count from 1, and the command says how many there are.",
    "OutOfOrder": "This log was told to bring nothing before a later REF, or had a later line. Change: the order of its lines; or a greater --horizon.",
    "FieldCount": "The line has too few fields or too many. It is `LOG ENTRY` or `LOG past REF`.",
    "UnknownWord": "Behind the number of the log stands neither `past` nor a word of a log.",
}


class RefusedEntry:
    """Says why a line is refused. The course has the lines of the log or of the feed."""

    def __init__(self, course: Course) -> None:
        self.course = course

    def log(self, number: int, reason: Sequence[str]) -> Iterator[str]:
        text = self.course.text(number)
        yield from self._shown(number, text)
        if reason[0] in ENDS:
            yield ENDS[reason[0]]
        elif reason[0] in FORMS and text is not None:
            yield from LOG.form(reason, text)
        elif reason[0] == "TimeFalls":
            yield from self._time_falls(number)
        else:
            yield self._refusal(number) or f"The event is refused: {reason[0]}. docs/TROUBLESHOOTING.md says what that means."

    def feed(self, number: int, reason: Sequence[str]) -> Iterator[str]:
        yield from self._shown(number, self.course.text(number))
        yield FEED.get(reason[0], f"The line is refused: {' '.join(reason)}. Numbers are decimal digits, and devices and links have numbers.")

    def _shown(self, number: int, text: Optional[bytes]) -> Iterator[str]:
        if text is not None:
            yield f"{self.course.path}, line {number}: {shown(text)}"

    def _entry(self, number: int) -> Optional[LogEvent]:
        text = self.course.text(number)
        try:
            return parse_entry(text.decode("latin-1"), self.course.path, number) if text is not None else None
        except ToolError:
            return None

    def _time_falls(self, number: int) -> Iterator[str]:
        before, event = self._entry(number - 1), self._entry(number)
        if before and event:
            yield f"Its REF {event.ref} is {before.ref - event.ref} ps before that of line {number - 1}, which is {before.ref}."
        yield "Change: merge the logs by REF: `sundial-record --compact`, or `sundialctl merge`."

    def _refusal(self, number: int) -> Optional[str]:
        """Why the event cannot come here, by the model of sundial-record, or None where that does not know."""
        if not self.course.plans:
            return None
        fleet = JudgedFleet(self.course.topology, self.course.plans)
        try:
            for at in range(1, number + 1):
                event = self._entry(at)
                if event is None:
                    return None
                for _ in fleet.lost_before(event.ref):
                    pass
                said = fleet.apply(event, event.ref, event.counter)
                if isinstance(said, Refusal):
                    return f"{said[:1].upper()}{said[1:]}." if at == number else None
        except (KeyError, IndexError, TypeError):
            pass
        return None
