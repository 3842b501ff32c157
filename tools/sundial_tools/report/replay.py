"""Reads a schedule beside the output of `sundial replay` or `sundial order` over it, line by line."""

from __future__ import annotations

from dataclasses import dataclass, field
from typing import Dict, Iterable, Iterator, List, NamedTuple, Optional, Sequence, Tuple

from sundial_tools.errors import ToolError
from sundial_tools.fleet.fleet import Fleet
from sundial_tools.fleet.lineage import Lineages, Reading, Told
from sundial_tools.fleet.who import Cause, Watch
from sundial_tools.outputs import OutputLine, read_output
from sundial_tools.plan import Plan
from sundial_tools.report.series import Peaks, Percentiles, Report, Reports
from sundial_tools.report.tracks import Tracks
from sundial_tools.safe_write import Progress
from sundial_tools.schedule import Event, event_line, read_schedule
from sundial_tools.topology import Topology

MOST_MARKS = 4000
LANES = ("failure", "move", "takeover", "plan", "broken", "alarm")
LANE_OF = {
    "fail": "failure", "mend": "failure", "join": "failure", "move": "move", "takeover": "takeover", "stage": "plan", "commit": "plan",
    "close": "plan", "broken": "broken", "alarm": "alarm", "disorder": "alarm",
}
RARE = frozenset(("fail", "mend", "join", "stage", "commit"))
# The state of a track after what happened, and by the mode of a device.
STATE_OF = {"move": "backup", "takeover": "acting", "enter": "primary"}
TRACK_OF = ("primary", "backup", "acting", "waiting")


class Mark(NamedTuple):
    """Something that happened at a line of the schedule. `ref` is the time from the first event."""

    kind: str
    ref: int
    line: int
    text: str
    device: Optional[int] = None


@dataclass
class Replay:
    """`marks` and `mark_counts` are by lane; of very many marks in a lane the first ones are kept. All times are from the first
    event, which is at the reference `origin`; None where there is no event."""

    peaks: Peaks = field(default_factory=Peaks)
    reports: Reports = field(default_factory=Reports)
    percentiles: Dict[int, Percentiles] = field(default_factory=dict)
    worst_off: Dict[int, Report] = field(default_factory=dict)
    marks: Dict[str, List[Mark]] = field(default_factory=lambda: {lane: [] for lane in LANES})
    mark_counts: Dict[str, int] = field(default_factory=lambda: dict.fromkeys(LANES, 0))
    events: int = 0
    origin: Optional[int] = None
    last: int = 0
    refusal: Optional[str] = None
    refused_plan: Optional[OutputLine] = None
    refused_text: str = ""
    causes: List[Tuple[Mark, Cause]] = field(default_factory=list)
    alarms: List[Mark] = field(default_factory=list)
    # What is not honest in the lineage of a wrong report, by its line.
    unsound: Dict[int, str] = field(default_factory=dict)
    wrong: int = 0
    tracks: Optional[Tracks] = None


class ReplayReader:
    """`with_causes` says who broke each premise: needed where the output has such lines."""

    def __init__(self, topology: Topology, plans: Sequence[Plan], schedule: str, output: str, with_causes: bool = True) -> None:
        self._topology, self._schedule, self._output = topology, schedule, output
        self._names = [device.name for device in topology.devices]
        self._fleet = Fleet(topology, plans)
        self._watch = Watch(self._fleet) if with_causes else None
        self._tracks, self._lineages = Tracks(topology), Lineages(self._fleet)
        self._replay = Replay(tracks=self._tracks)
        self._lines: Iterator[Tuple[int, OutputLine]] = iter(())
        self._next: Optional[Tuple[int, OutputLine]] = None
        self._text_read = ""

    def read(self, schedule: Iterable[str], output: Iterable[str]) -> Replay:
        self._lines = enumerate(read_output(self._kept(output), self._output), 1)
        self._advance()
        if self._next is None:
            raise ToolError("the output is empty", self._output)
        if self._next[1].kind.startswith("refused"):
            self._replay.refused_plan, self._replay.refused_text = self._next[1], self._text_read
            return self._replay
        with Progress(self._schedule) as progress:
            for number, event in read_schedule(schedule, self._schedule):
                if self._stops_at(number):
                    break
                self._event(number, event)
                progress.step()
        if self._replay.refusal is None:
            self._ends()
        self._tracks.end(self._replay.last)
        return self._replay

    def _kept(self, output: Iterable[str]) -> Iterator[str]:
        for line in output:
            self._text_read = line.rstrip("\n")
            yield line

    def _advance(self) -> None:
        self._next = next(self._lines, None)

    def _wrong(self, reason: str) -> ToolError:
        return ToolError(reason, self._output, self._next[0] if self._next else None)

    def _stops_at(self, number: int) -> bool:
        """Whether the output says that this line of the schedule was refused."""
        if self._next is None or self._next[1].kind != "input schedule" or self._next[1].fields["line"] != number:
            return False
        self._replay.refusal = f"input schedule {number} {self._next[1].fields['reason']}"
        self._advance()
        if self._next is not None:
            raise self._wrong("a line after the refusal of the schedule")
        return True

    def _event(self, number: int, event: Event) -> None:
        device, counter, replay = event.device, event.counter, self._replay
        if (device is not None and device >= len(self._names)) or event.thing is not None:
            self._known(number, event)
        if replay.origin is None:
            replay.origin = event.ref
        if self._since(event) < replay.last:
            raise self._not_accepted(number, event)
        replay.events, replay.last = number, self._since(event)
        said = self._fleet.report(device, counter) if counter is not None and device is not None else None
        if event.word in RARE:
            self._mark(event.word, number, event, self._text(event), device if event.thing != "device" else event.number)
        try:
            if self._watch is not None:
                self._watch.before(event)
                self._explain(number, event, self._watch)
            happened = self._fleet.happen(event)
            if self._watch is not None:
                self._watch.after(event, number, happened)
        except (KeyError, IndexError):
            raise self._not_accepted(number, event) from None
        if counter is not None and device is not None:
            self._drawn(event, device, counter, said, happened)
        if happened or event.word not in ("tick", "recv", "ask"):
            self._track(event, happened)
            self._lineages.after(event, number, happened)
        if happened in LANE_OF:
            closes = device is None or happened == "close"
            text = "the window closes" if closes else f"{happened} {self._names[device or 0]}"
            self._mark(happened, number, event, text, None if closes else device)
        if event.word == "ask" or self._is_of(number):
            self._told(number, event, said)

    def _is_of(self, number: int) -> bool:
        """Whether the next line of the output belongs to this line of the schedule."""
        return self._next is not None and self._next[1].fields.get("line") == number

    def _since(self, event: Event) -> int:
        return event.ref - (self._replay.origin or 0)

    def _known(self, number: int, event: Event) -> None:
        most = {"device": len(self._names), "link": len(self._topology.links)}
        for kind, value in ("device", event.device), (event.thing or "", event.number):
            if value is not None and value >= most.get(kind, 0):
                raise ToolError(f"the topology has no {kind} {value}", self._schedule, number)

    def _not_accepted(self, number: int, event: Event) -> ToolError:
        reason = f"no replay accepts this line here, and {self._output} does not refuse it: {event_line(event)[:-1]}"
        return ToolError(reason, self._schedule, number)

    def _drawn(self, event: Event, device: int, counter: int, said: Optional[Tuple[int, int]], happened: str) -> None:
        """Keeps the eps before and after an event for the curve of its device."""
        is_set = happened in ("accept", "enter") or event.word in ("start", "join", "fix")
        after = self._fleet.report(device, counter) if is_set else said
        if after is not None:
            before = after if said is None or event.word in ("start", "join") else said
            self._replay.peaks.add(device, self._since(event), before[1], after[1])

    def _text(self, event: Event) -> str:
        if event.number is not None:
            name = self._names[event.number] if event.thing == "device" else self._topology.links[event.number].name
            return f"{event.word} {event.thing} {name}"
        return event.word if event.device is None else f"{event.word} {self._names[event.device]}"

    def _mark(self, kind: str, line: int, event: Event, text: str, device: Optional[int] = None) -> Mark:
        lane, mark = LANE_OF[kind], Mark(kind, self._since(event), line, text, device)
        self._replay.mark_counts[lane] += 1
        if len(self._replay.marks[lane]) < MOST_MARKS:
            self._replay.marks[lane].append(mark)
        return mark

    def _track(self, event: Event, happened: str) -> None:
        """Keeps the modes of devices over time."""
        word, device, tracks, since = event.word, event.device, self._tracks, self._since(event)
        if happened == "accept" and device is not None:
            tracks.heard(device, since)
        elif happened in STATE_OF and device is not None:
            tracks.set(device, STATE_OF[happened], since)
        elif word in ("start", "join", "commit") and device is not None:
            tracks.set(device, TRACK_OF[self._fleet.devices[device].mode], since)
        elif word == "fail" and event.thing == "device" and event.number is not None:
            tracks.set(event.number, "down", since)

    def _explain(self, number: int, event: Event, watch: Watch) -> None:
        """Who breaks premises with this event, which comes next. The lines that say so are the next of the output."""
        while self._next is not None and self._is_of(number) and self._next[1].kind == "broken":
            premise = self._next[1].fields["premise"]
            mark = self._mark("broken", number, event, f"broken {number} {premise}", event.device)
            self._replay.causes.append((mark, watch.explain(premise, event, number)))
            self._advance()

    def _told(self, number: int, event: Event, said: Optional[Tuple[int, int]]) -> None:
        """The lines of the output that belong to this line of the schedule."""
        reported = False
        while self._next is not None and self._is_of(number) and self._next[1].kind != "input schedule":
            line = self._next[1]
            if line.kind == "report":
                self._report(number, event, said, line)
                reported = True
            elif line.kind == "broken":
                self._mark("broken", number, event, f"broken {number} {line.fields['premise']}")
            elif line.kind.startswith("alarm"):
                device = self._topology.device_numbers.get(line.fields["device"])
                self._replay.alarms.append(self._mark("alarm", number, event, _alarm(line), device))
            elif line.kind == "disorder":
                self._mark("disorder", number, event, f"disorder {number} {line.fields['begin']}")
            self._advance()
        if event.word == "ask" and not reported:
            raise ToolError("the output has no report of this ask: is it the output of this schedule?", self._schedule, number)

    def _report(self, number: int, event: Event, said: Optional[Tuple[int, int]], line: OutputLine) -> None:
        device, clock, eps, replay = event.device, line.fields["clock"], line.fields["eps"], self._replay
        if event.word != "ask" or device is None or self._names[device] != line.fields["device"]:
            raise self._wrong(f"line {number} of the schedule is no ask of {line.fields['device']}")
        if said != (clock, eps):
            raise self._wrong(f"the report is not that of these plans and this schedule: {said} was expected")
        lineage = self._lineages.held(device, Reading(number, event.ref, event.counter or 0))
        report = Report(number, device, self._since(event), clock - event.ref + self._since(event), eps, lineage)
        if report.is_wrong and lineage is not None and replay.wrong < MOST_MARKS:
            replay.unsound[number] = Told(self._topology, lineage).unsound()
        replay.wrong += report.is_wrong
        replay.reports.add(report)
        replay.percentiles.setdefault(device, Percentiles()).add(eps)
        worst = replay.worst_off.setdefault(device, report)
        if abs(report.off) * max(1, worst.eps) > abs(worst.off) * max(1, eps):
            replay.worst_off[device] = report

    def _ends(self) -> None:
        if self._next is None:
            raise ToolError("the output is cut short: it has no line done", self._output)
        if self._stops_at(self._replay.events + 1):
            return
        line = self._next[1]
        found = (self._replay.events, self._replay.reports.count)
        if line.kind != "done" or (line.fields["first"], line.fields["second"]) != found:
            raise self._wrong(f"the schedule has {found[0]} events and {found[1]} reports: is it the output of this schedule?")


def _alarm(line: OutputLine) -> str:
    kind, fields = line.kind.split(" ")[1], line.fields
    more = fields.get("other", fields.get("ref"))
    return f"alarm {fields['line']} {kind} {fields['device']}" + (f" {more}" if more is not None else "")
