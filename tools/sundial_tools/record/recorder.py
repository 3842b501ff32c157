"""From logs to the lines of a schedule."""

from __future__ import annotations

from typing import Callable, Dict, Iterable, List, Mapping, Optional, Sequence, TextIO

from sundial_tools.errors import ToolError
from sundial_tools.plan import Plan
from sundial_tools.record.events import LogEvent
from sundial_tools.record.fleet import JudgedFleet, Refusal
from sundial_tools.record.logs import USUAL
from sundial_tools.record.merge import Merge
from sundial_tools.schedule import MOST_NUMBER, Event, event_line
from sundial_tools.topology import Topology

SECOND = 10**12
MOST_EVENTS = 2**26


def origin_before(reference: int) -> int:
    """A whole second before the reference, with one more second for clocks that are behind, and at least 0."""
    return max(0, (reference // SECOND - 1) * SECOND)


def within(event: LogEvent, value: int, what: str) -> int:
    """The value, where a schedule may have it."""
    if 0 <= value <= MOST_NUMBER:
        return value
    if what == "the counter":
        raise event.refuse(f"the counter is {value} ps, and at most 2^60 are allowed: say --counters life")
    place = "of the origin" if what != "the eps" else ""
    raise event.refuse(f"{what} is {value} ps {place}".rstrip() + ", and has to be from 0 to 2^60: say another --origin")


def placed(event: LogEvent, origin: int) -> LogEvent:
    """The event with its clock, if it has one, counted from the origin."""
    if event.clock is None or event.eps is None:
        return event
    clock = within(event, event.clock - origin, "the clock")
    within(event, event.eps, "the eps")
    return event._replace(clock=clock)


def since_begin(event: LogEvent, counter: int, bases: Mapping[int, int]) -> int:
    """The counter since the latest start or join of its device, at which it was as `bases` says."""
    base = counter if event.word in ("start", "join") else bases.get(event.device, counter)
    if counter < base:
        raise event.refuse(f"CounterFalls: the counter is {base - counter} ps less than at the start or join")
    return counter - base


class Recorder:
    """Writes the schedule. `origin` is picoseconds, or None for the one before the first reference.

    With `from_life` each counter counts from the latest start or join of its device. Up to `most_waiting` lines are
    written at once, and then counted.
    """

    def __init__(
        self, topology: Topology, plans: Sequence[Plan], text: TextIO, origin: Optional[int], from_life: bool,
        with_losses: bool, counted: Callable[[int], None], most_waiting: int = 1,
    ) -> None:
        self._fleet = JudgedFleet(topology, plans)
        # The line of a tick, an ask or a receipt that nothing refuses, which then happens; or "" for all others.
        self._usual_line = self._fleet.usual
        self._text, self._from_life, self._with_losses, self._counted = text, from_life, with_losses, counted
        self._waiting: List[str] = []
        self._most_waiting = most_waiting
        self._bases: Dict[int, int] = {}
        self._last: Optional[int] = None
        self._ended = False
        self._given_origin = origin
        self.origin = 0
        self.events = self.losses = 0

    def record(self, logs: Iterable[Iterable[LogEvent]]) -> None:
        merge = Merge(logs, self._fleet.message_of)
        first = merge.first_reference()
        if first is None:
            raise ToolError("the logs have no event")
        self.origin = origin_before(first) if self._given_origin is None else self._given_origin
        merge.drive(self._usual)
        if not self._ended:
            self._say(Event("end", self._last or 0))
        self._write_waiting()

    def _usual(self, event: LogEvent) -> Optional[Refusal]:
        """Offers an event: a tick, an ask or a receipt that nothing refuses in a short way, and every other by `_offer`."""
        counter = event.counter
        if event.word not in USUAL or counter is None or self._ended:
            return self._offer(event)
        ref = event.ref - self.origin
        if not 0 <= ref <= MOST_NUMBER:
            return self._offer(event)
        if self._fleet.book.earliest < ref:
            self._lose_before(ref)
        if self._from_life:
            counter -= self._bases.get(event.device, counter)
        is_within = 0 <= counter <= MOST_NUMBER and self.events < MOST_EVENTS
        line = self._usual_line(event, ref, counter) if is_within else ""
        if not line:
            return self._offer(event)
        self._last = ref
        self.events += 1
        waiting = self._waiting
        waiting.append(line)
        if len(waiting) >= self._most_waiting:
            self._write_waiting()
        return None

    def _offer(self, event: LogEvent) -> Optional[Refusal]:
        if self._ended:
            raise event.refuse("AfterEnd: there was an end before")
        ref = event.ref - self.origin
        if not 0 <= ref <= MOST_NUMBER:
            within(event, ref, "the reference")
        if self._fleet.book.has_expired(ref):
            self._lose_before(ref)
        if event.clock is not None:
            event = placed(event, self.origin)
        counter = event.counter
        if counter is not None and (self._from_life or not 0 <= counter <= MOST_NUMBER):
            counter = within(event, since_begin(event, counter, self._bases) if self._from_life else counter, "the counter")
        answer = self._fleet.apply(event, ref, counter)
        if isinstance(answer, Refusal):
            return answer
        if event.word in ("start", "join"):
            self._bases[event.device] = event.counter or 0
        self._last, self._ended = ref, event.word == "end"
        self._tell(event, answer)
        return None

    def _lose_before(self, ref: int) -> None:
        for lost in self._fleet.lost_before(ref):
            if self._with_losses:
                self._tell_loss(lost)
                self.losses += 1

    def _tell(self, event: LogEvent, said: Event) -> None:
        """An event of a log has happened, which the schedule says so."""
        self._say(said)

    def _tell_loss(self, lost: Event) -> None:
        """A message is lost that no log has as lost."""
        self._say(lost)

    def _say(self, event: Event) -> None:
        self._count()
        self._write(event_line(event))

    def _count(self) -> None:
        """The schedule gets one event more."""
        if self.events == MOST_EVENTS:
            raise ToolError(f"the logs have more than {MOST_EVENTS} events, which is as many as a schedule may have")
        self.events += 1

    def _write(self, line: str) -> None:
        """Writes a line now, or with many others."""
        self._waiting.append(line)
        if len(self._waiting) >= self._most_waiting:
            self._write_waiting()

    def _write_waiting(self) -> None:
        self._text.write("".join(self._waiting))
        self._counted(len(self._waiting))
        self._waiting.clear()
