"""The line of a schedule, or of exchanges, that stands behind a printed line."""

from __future__ import annotations

from typing import Any, Callable, Dict, Iterable, Iterator, Optional, Sequence, Union

from sundial_tools.errors import ToolError
from sundial_tools.fleet.fleet import Fleet
from sundial_tools.fleet.lineage import Came, Judged, Lineages, Reading, Set, Told
from sundial_tools.fleet.who import Watch
from sundial_tools.outputs import OutputLine
from sundial_tools.plan import Plan
from sundial_tools.schedule import FIELDS, Event, parse_event
from sundial_tools.topology import Topology


class Behind:
    """Goes through a text once, forward, to each line that is asked for."""

    def __init__(self, lines: Iterable[str], source: str) -> None:
        self._lines: Iterator[str] = iter(lines)
        self._source = source
        # Is shown each line that is passed or reached, with its number.
        self.reached: Callable[[str, int], None] = lambda text, number: None
        self._number = 0
        self._text = ""

    def line(self, number: int) -> Optional[str]:
        """The line of that number, from 1, or None where the text has ended before it."""
        if number < self._number:
            raise ToolError(f"the output is out of order: line {number} comes after line {self._number}", self._source)
        while self._number < number:
            text = next(self._lines, None)
            if text is None:
                return None
            self._text, self._number = text[:-1] if text.endswith("\n") else text, self._number + 1
            self.reached(self._text, self._number)
        return self._text


class _History:
    """What the fabric did up to the line that was reached: its event is still to come."""

    def __init__(self, topology: Topology, plans: Sequence[Plan], source: str) -> None:
        self._fleet, self._source = Fleet(topology, plans), source
        self.watch, self._lineages = Watch(self._fleet), Lineages(self._fleet)
        self._next: Optional[Event] = None

    def reach(self, text: str, number: int) -> None:
        try:
            if self._next is not None:
                happened = self._fleet.happen(self._next)
                self.watch.after(self._next, number - 1, happened)
                self._lineages.after(self._next, number - 1, happened)
            self._next = parse_event(text, self._source, number)
            self.watch.before(self._next)
        except (KeyError, IndexError, TypeError):
            reason = "no replay of these plans accepts this line, and the output does not refuse it"
            raise ToolError(reason, self._source, number - 1) from None

    def lineage(self, event: Event, line: int) -> Optional[Told]:
        """That of the report for which the event asks, which comes next."""
        if event.device is None or event.counter is None:
            return None
        lineage = self._lineages.held(event.device, Reading(line, event.ref, event.counter))
        return None if lineage is None else Told(self._fleet.topology, lineage)


class Events:
    """Adds REF and the event to the lines that have an N, and to reports their lineage where it is asked for."""

    def __init__(
        self, schedule: Behind, topology: Optional[Topology], plans: Sequence[Plan], source: str, with_lineage: bool = False
    ) -> None:
        self._schedule, self._topology, self._source, self._with_lineage = schedule, topology, source, with_lineage
        self._history = None if topology is None or not plans else _History(topology, plans, source)
        if self._history is not None:
            schedule.reached = self._history.reach

    def add(self, line: OutputLine) -> Dict[str, Any]:
        number = line.fields["line"]
        text = self._schedule.line(number)
        if line.kind == "input schedule":
            return {} if text is None else {"text": text}
        if text is None:
            raise ToolError(f"the schedule has no line {number}: it is not that of this output", self._source)
        event = parse_event(text, self._source, number)
        self._agree(line, event, number)
        return {"ref": event.ref, "event": self._named(event), **_derived(line, event), **self._who(line, event), **self._lineage(line, event)}

    def _who(self, line: OutputLine, event: Event) -> Dict[str, Any]:
        """Who broke a premise, where the plans are known."""
        if line.kind != "broken" or self._history is None:
            return {}
        cause = self._history.watch.explain(line.fields["premise"], event, line.fields["line"])
        said: Dict[str, Any] = {"devices": list(cause.devices), "links": list(cause.links)}
        said.update({"allowed": cause.allowed} if cause.allowed is not None else {})
        said.update({"seen": cause.seen} if cause.seen is not None else {})
        return {"who": {**said, "text": cause.text}}

    def _lineage(self, line: OutputLine, event: Event) -> Dict[str, Any]:
        """What the interval of a report rests on."""
        if line.kind != "report" or self._history is None or not self._with_lineage:
            return {}
        told = self._history.lineage(event, line.fields["line"])
        if told is None:
            return {}
        parts = [_part(told, one) for one in told.judged]
        return {"lineage": {"devices": told.devices, "links": told.links, "honest": told.is_honest, "parts": parts, "text": told.text()}}

    def _agree(self, line: OutputLine, event: Event, number: int) -> None:
        """Refuses a schedule that cannot be the one of the output."""
        reported = line.kind in ("report", "begin", "ended", "disorder", "alarm interval")
        if reported and event.word != "ask":
            raise ToolError(f"line {number} is no ask: it is not the schedule of this output", self._source, number)
        if line.kind != "report" or self._topology is None or event.device is None:
            return
        if event.device >= len(self._topology.devices):
            raise ToolError(f"there is no device {event.device} in the topology", self._source, number)
        asked = self._topology.devices[event.device].name
        if asked != line.fields["device"]:
            raise ToolError(
                f"the ask is of {asked}, and the report of {line.fields['device']}: it is not the schedule of this output",
                self._source, number,
            )

    def _named(self, event: Event) -> Dict[str, Any]:
        named: Dict[str, Any] = {"word": event.word}
        for key in FIELDS[event.word]:
            named[key] = getattr(event, key)
        if self._topology is not None and event.device is not None:
            named["device"] = name_of(self._topology, "device", event.device)
        if self._topology is not None and event.thing is not None and event.number is not None:
            named["name"] = name_of(self._topology, event.thing, event.number)
        return named


def name_of(topology: Topology, thing: str, number: int) -> Union[str, int]:
    """The name of a device or link, or its number where the topology has none such."""
    names = [topology.devices[number].name] if thing == "device" and number < len(topology.devices) else []
    names += [topology.links[number].name] if thing == "link" and number < len(topology.links) else []
    return names[0] if names else number


def _part(told: Told, one: Judged) -> Dict[str, Any]:
    """A part of a lineage: what it allows, in picoseconds, and what was seen."""
    part = one.part
    judged = {"allowed": one.allowed, "seen": one.seen, "honest": one.is_honest}
    if isinstance(part, Set):
        return {"part": part.word, "line": part.line, "device": told.device(part.device), **judged}
    if isinstance(part, Came):
        ends = {"sender": told.device(part.flight.sender), "device": told.device(part.flight.receiver)}
        return {"part": "came", "line": part.line, **ends, "link": told.link(part.flight), "least": one.least, **judged}
    return {"part": "held", "line": part.end.line, "since": part.begin.line, "device": told.device(part.device), **judged}


def _derived(line: OutputLine, event: Event) -> Dict[str, Any]:
    """How far the clock of a report is off its reference."""
    if line.kind != "report":
        return {}
    return {"off": line.fields["clock"] - event.ref, "inside": abs(line.fields["clock"] - event.ref) <= line.fields["eps"]}
