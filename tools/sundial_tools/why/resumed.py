"""What `sundialctl resume` says of a schedule and an opening: docs/WATCH.md, Certify an opening."""

from __future__ import annotations

from typing import Callable, Dict, Iterator, NamedTuple, Optional, Tuple

from sundial_tools.fleet.device import MODES
from sundial_tools.fleet.fleet import Fleet
from sundial_tools.outputs import OutputLine
from sundial_tools.topology import Topology
from sundial_tools.why.course import Course
from sundial_tools.why.said import Names, time

# What each fact means, and what to change. {0} is the device, link or message of the line.
FACTS: Dict[str, Tuple[str, str]] = {
    "network": ("The two have not as many devices and links.", "name the topology of both."),
    "window": ("A window is open in one of the two: a renewal is under way.", "cut before the `stage`, or after the last `seal`."),
    "time": ("The latest events of the two have two references.", "the last line of the opening has the REF of the last one of the schedule."),
    "plan": ("Another plan is in force.", "name behind `/` the plans from the one in force on."),
    "end": ("One of the two has ended.", "an `end` in both, or in none."),
    "messages": ("The schedule has sent another number of messages.", "compare its numbering of messages with docs/FLEET.md."),
    "opening-sends": ("The opening sends a message.", "start the root at the counter at which it sent last, so that no tick of the opening sends."),
    "message": ("{0} of the schedule is on its way.", "cut where no message is."),
    "up": ("{0} is up in one of the two alone.", "a `start` in the opening for each device that is up at the cut, and for no other."),
    "device": ("{0} is failed in one of the two alone.", "a `fail` in the opening for what is failed at the cut, and for nothing else."),
    "link": ("{0} is failed in one of the two alone.", "a `fail` in the opening for what is failed at the cut, and for nothing else."),
    "counter": ("The latest counters of {0} differ.", "the last line of {0} in the opening has its counter of the cut."),
    "duty": ("{0} has another duty.", "cut where each device follows the plan in force, and name behind `/` the plans from that one on."),
    "given": ("{0} holds another duty of the next plan, or only one holds any.", "cut where no duty is given and not yet taken up."),
    "mode": ("{0} follows another parent, or only one acts as root.", "cut where each member follows its primary parent, and the root of the plan acts."),
    "sealed": ("{0} is sealed in one of the two alone.", "cut where no window is open."),
    "rates": ("The oscillator of {0} has other rates.", "name one topology for both."),
    "stamp": ("{0} accepted another round last.", "cut just before the root sends, where each member has the latest round."),
    "last": ("{0} waits since another counter.", "start {0} at the counter at which it heard last."),
    "sent": ("{0} sent at another counter as root.", "start {0} at the counter at which it sent last."),
    "estimate": ("{0} would report another time, or another EPS.", "the clock and EPS of its last `start` or `fix` in the opening."),
    "broken": ("A premise broke in the opening.", "`sundial replay` of the opening with an `end` names the premise and the line."),
    "drift": ("The readings of {0} in the opening allow less than those of the schedule: `drift` could break too early.", "start {0} at a reading of its present life that allows more."),
    "tick": ("The latest tick of {0} is earlier in the opening: `tick` could break too early.", "a tick of {0} in the opening, where it ticked last."),
    "awaited": ("{0} is a member of the first plan of the opening, which neither starts it nor has it fail: `tick` could break too early.", "a `start` or a `fail` of {0} in the opening."),
    "untouched": ("{0} began or failed in the schedule, and does neither in the opening.", "a `start` or a `fail` of {0} in the opening."),
    "failed-device": ("{0} has failed since the latest closing, in one of the two alone.", "a `fail` in the opening for what failed since then, and for nothing else."),
    "failed-link": ("{0} has failed since the latest closing, in one of the two alone.", "a `fail` in the opening for what failed since then, and for nothing else."),
}


class End(NamedTuple):
    """A fleet at the end of a text, with the latest reference and the latest counter of each device."""

    fleet: Fleet
    ref: int
    counters: Dict[int, int]


class Resumed:
    """Says what a line of resume means, with both values where both texts and their plans can be followed."""

    def __init__(self, topology: Topology, schedule: Optional[Course], opening: Optional[Course]) -> None:
        self._names, self._schedule, self._opening = Names(topology), schedule, opening
        self._values: Dict[str, Callable[[End, int], Optional[str]]] = {
            "time": lambda end, _: str(end.ref), "plan": lambda end, _: f"plan {end.fleet.in_force} of those that are named",
            "counter": lambda end, device: _told(end.counters.get(device)), "mode": _mode, "stamp": _stamp,
            "last": lambda end, device: _register(end, device, "heard"), "sent": lambda end, device: _register(end, device, "sent"),
            "estimate": _estimate,
        }

    def agree(self, line: OutputLine) -> Iterator[str]:
        lines, opening = line.fields["lines"], line.fields["opening"]
        yield (f"The opening of {opening} lines stands for the schedule of {lines}: later events are accepted or refused alike "
               "behind both, with the same alarms and reports.")
        yield f"A line number of a later event is greater by {lines - opening} in the whole."

    def differ(self, line: OutputLine) -> Iterator[str]:
        fact, number = line.fields["fact"], line.fields.get("number")
        meaning, change = FACTS[fact]
        name = self._named(line.fields.get("thing"), number)
        yield f"The opening does not stand for the schedule. {meaning.format(name)}"
        if fact == "message":
            yield from self._message(number)
        elif fact in self._values:
            yield from self._both(self._values[fact], 0 if number is None else number)
        yield f"Change: {change.format(name)}"

    def _named(self, thing: Optional[str], number: Optional[int]) -> str:
        if thing == "message":
            return f"Message {number}"
        return self._names.link(number) if thing == "link" else self._names.device(number)

    def _both(self, value: Callable[[End, int], Optional[str]], number: int) -> Iterator[str]:
        said = []
        for course in self._schedule, self._opening:
            end = _end(course)
            said.append(value(end, number) if end else None)
        if None not in said and said[0] != said[1]:
            yield f"At the end of the schedule: {said[0]}. At the end of the opening: {said[1]}."

    def _message(self, number: Optional[int]) -> Iterator[str]:
        end = _end(self._schedule)
        flight = end.fleet.book.get(number) if end and number is not None else None
        if flight:
            yield (f"{self._names.device(flight.sender)} sent it at REF {flight.sent} to {self._names.device(flight.receiver)} "
                   f"over {self._names.link(flight.link)}, and it can come until {flight.last}.")


def _end(course: Optional[Course]) -> Optional[End]:
    """The end of a text, or None where it is not there or is not followed here."""
    if course is None or not course.plans:
        return None
    fleet, ref, counters = Fleet(course.topology, course.plans), 0, {}
    try:
        for number in range(1, len(course.lines) + 1):
            event = course.event(number)
            if event is None:
                return None
            fleet.happen(event)
            ref = event.ref
            if event.device is not None and event.counter is not None:
                counters[event.device] = event.counter
    except (KeyError, IndexError, TypeError):
        return None
    return End(fleet, ref, counters)


def _told(value: Optional[int]) -> Optional[str]:
    return None if value is None else str(value)


def _register(end: End, device: int, name: str) -> Optional[str]:
    state = end.fleet.up.get(device)
    return None if state is None else _told(getattr(state, name))


def _mode(end: End, device: int) -> Optional[str]:
    state = end.fleet.up.get(device)
    return None if state is None else MODES[state.mode]


def _stamp(end: End, device: int) -> Optional[str]:
    state = end.fleet.up.get(device)
    return None if state is None else f"term {state.stamp[0]}, round {state.stamp[1]}"


def _estimate(end: End, device: int) -> Optional[str]:
    counter = end.counters.get(device)
    report = None if counter is None else end.fleet.report(device, counter)
    return None if report is None else f"{report[0]} ps with an EPS of {time(report[1])}"
