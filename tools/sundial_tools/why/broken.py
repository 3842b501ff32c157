"""Lines of a replay: reports, broken premises, alarms. docs/PREMISES.md and docs/REPLAY.md."""

from __future__ import annotations

from typing import Callable, Iterator, List, Optional

from sundial_tools.fleet.device import BACKUP, PRIMARY
from sundial_tools.outputs import OutputLine
from sundial_tools.schedule import Event
from sundial_tools.topology import Topology
from sundial_tools.why.course import Course, Followed
from sundial_tools.why.said import Names, time

PREMISE = {
    "start": "A clock was set further off than its EPS says.",
    "drift": "The counter of a device left its rate.",
    "delay": "A message took less than `min` or more than `max` of its link.",
    "tick": "A device looked at its own timer too late, or a member was never started.",
    "loss": "More rounds in a row were lost than `loss` allows.",
    "domain": "More failed than one fault domain has, since the last renewal.",
    "renew": "A renewal left its order.",
}
CHANGE = {
    "start": "the source of the clock; or a larger EPS in the recording.",
    "drift": "look at the oscillator and its temperature; or a larger `ppm` or `grain` of the device.",
    "delay": "look at queues on the link; or wider bounds. `sundial twoway` computes bounds from exchanges.",
    "tick": "look at the load of the device; or a larger `tick`.",
    "loss": "look at the links of these rounds; or a larger `loss`.",
    "domain": "list things that fail together as a domain, and plan anew; or renew sooner after a failure.",
    "renew": "bring the next plan in by the order that docs/PREMISES.md tells.",
}
ALARM = {"loop": "tick, loss or domain", "roots": "tick, loss, domain or renew", "interval": "start, drift or delay"}


class Replayed:
    """Says what a line of a replay means. `course` is its schedule, where it is there."""

    def __init__(self, topology: Topology, course: Optional[Course]) -> None:
        self.topology, self.course, self.names = topology, course, Names(topology)

    def _event(self, number: int) -> Optional[Event]:
        return self.course.event(number) if self.course else None

    def _where(self, number: int) -> Iterator[str]:
        text = self.course.text(number) if self.course else None
        if self.course and text is not None:
            yield f"{self.course.path}, line {number}: {text.decode('utf-8', 'replace')}"

    def report(self, line: OutputLine) -> Iterator[str]:
        number, name, clock, eps = (line.fields[it] for it in ("line", "device", "clock", "eps"))
        yield f"{name} says: the time is {clock} ps, and off by at most {time(eps)}."
        event = self._event(number)
        if event and event.word == "ask":
            off = clock - event.ref
            yield f"The recording says {event.ref} ps, so it is off by {time(abs(off))}: {'right' if abs(off) <= eps else 'wrong'}."

    def broken(self, line: OutputLine) -> Iterator[str]:
        number, premise = line.fields["line"], line.fields["premise"]
        yield f"The network did not keep what it promised: `{premise}`. {PREMISE.get(premise, '')}"
        yield from self._where(number)
        event = self._event(number)
        followed = self.course.followed(number) if self.course else None
        if event and followed and premise in PREMISE:
            yield f"{followed.watch.explain(premise, event, number).text}."
        yield f"Change: {CHANGE.get(premise, '')}"

    def alarm(self, line: OutputLine) -> Iterator[str]:
        kind = line.kind.split(" ")[1]
        number = line.fields["line"]
        says: Callable[[OutputLine, int], Iterator[str]] = {"loop": self._loop, "roots": self._roots, "interval": self._interval}[kind]
        yield from says(line, number)
        yield f"It follows from an earlier `broken` line: look at {ALARM[kind]}. Without one there is no alarm; that is proved."

    def _after(self, number: int) -> Optional[Followed]:
        followed = self.course.followed(number) if self.course else None
        if followed:
            followed.take()
        return followed

    def _loop(self, line: OutputLine, number: int) -> Iterator[str]:
        yield "Live devices follow each other in a circle, and hear nothing new."
        yield from self._where(number)
        followed = self._after(number)
        circle: List[str] = []
        device = self.topology.device_numbers.get(line.fields["device"]) if followed else None
        while followed and device is not None and self.names.device(device) not in circle:
            circle.append(self.names.device(device))
            device = _parent(followed, device)
        if circle:
            yield f"The circle: {' - '.join([*circle, circle[0]])}."

    def _roots(self, line: OutputLine, number: int) -> Iterator[str]:
        yield f"{line.fields['device']} and {line.fields['other']} both act as root."
        yield from self._where(number)
        followed = self._after(number)
        for name in (line.fields["device"], line.fields["other"]) if followed else ():
            taken = followed.took_over.get(self.topology.device_numbers.get(name, -1)) if followed else None
            if taken:
                yield f"{name} took over at line {taken}: it had heard nothing for its two waits."

    def _interval(self, line: OutputLine, number: int) -> Iterator[str]:
        yield f"The report of {line.fields['device']} is wrong: the time was {line.fields['ref']} ps, outside its interval."
        yield from self._where(number)


def _parent(followed: Followed, device: int) -> Optional[int]:
    """Whom a device follows, if it follows somebody."""
    state = followed.fleet.up.get(device)
    row = state.plan.rows.get(device) if state and state.plan else None
    if state is None or row is None or state.mode not in (PRIMARY, BACKUP):
        return None
    hop = row.primary if state.mode == PRIMARY else row.backup
    return hop.parent if hop else None
