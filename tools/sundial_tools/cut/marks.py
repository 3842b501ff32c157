"""What an opening has to bring back of the events before it: docs/WATCH.md."""

from __future__ import annotations

from typing import Any, Dict, List, NamedTuple, Set, Tuple

from sundial_tools.fleet.device import Device
from sundial_tools.fleet.drift import Drift
from sundial_tools.fleet.fleet import Fleet
from sundial_tools.schedule import Event

Thing = Tuple[str, int]


class Mark(NamedTuple):
    """A line of the schedule, with clock and eps of the device at that moment."""

    line: int
    ref: int
    counter: int
    clock: int
    eps: int


class Marks:
    """Is told each event behind it, with what it brought.

    Where some ticks and receipts were told to `read` alone, it is to `forget` where devices heard.
    """

    def __init__(self, fleet: Fleet) -> None:
        self.fleet = fleet
        # Where each device heard last, or sent last as root; and where its estimate was set last.
        self.of: Dict[int, Mark] = {}
        self.set_lines: Dict[int, int] = {}
        self.drifts: Dict[int, Drift] = {}
        # What failed since the latest closing, with the reference of its latest failure; and what has failed since before
        # that, of each time between two closings.
        self.failed_since: Dict[Thing, int] = {}
        self.failed_before: List[List[Thing]] = []
        # Which of *start*, *drift* and *loss* are known to have broken: an opening need not keep what they look at.
        self.broken: Set[str] = set()

    def forget(self) -> None:
        self.of.clear()
        self.set_lines.clear()

    def after(self, line: int, event: Event, done: str) -> None:
        word, device = event.word, event.device
        if word == "recv":
            if done:
                state = self._state(event)
                self._set(line, event, state.clock, state.base)
        elif word == "tick":
            if done in ("send", "takeover"):
                self._mark(line, event)
        elif word in ("start", "join"):
            self._set(line, event, event.clock or 0, event.eps or 0)
        elif word == "fix" and device is not None:
            self.set_lines[device] = line
        elif word == "commit" and done == "lead":
            self._mark(line, event)
        self.glance(event, done)

    def read(self, device: int, ref: int, counter: int) -> None:
        """A device has read its counter."""
        if not self.drifts[device].read(ref, counter):
            self.broken.add("drift")

    def glance(self, event: Event, done: str) -> None:
        """Keeps what is kept of each event, also where no cut is near."""
        word, device, counter = event.word, event.device, event.counter
        if device is not None and counter is not None:
            if word in ("start", "join"):
                self.drifts[device] = Drift(self.fleet.topology.devices[device], event.ref, counter)
            else:
                self.read(device, event.ref, counter)
        if event.clock is not None and abs(event.clock - event.ref) > (event.eps or 0):
            self.broken.add("start")
        if word == "fail":
            thing = event.thing or "", event.number or 0
            self.failed_since[thing] = event.ref
            self.failed_before = [[it for it in phase if it != thing] for phase in self.failed_before]
        if done == "close":
            self._close()

    def _close(self) -> None:
        fleet = self.fleet
        phases = [*self.failed_before, sorted(self.failed_since)]
        left = [[it for it in phase if it[1] in (fleet.failed_devices if it[0] == "device" else fleet.failed_links)] for phase in phases]
        self.failed_before, self.failed_since = [phase for phase in left if phase], {}

    def state(self) -> Dict[str, Any]:
        """What has to be kept of it over a cut, as data."""
        return {
            "drifts": {number: [*it.fast_at[:2], *it.slow_at[:2]] for number, it in self.drifts.items()},
            "since": [[*thing, ref] for thing, ref in self.failed_since.items()], "before": self.failed_before,
            "broken": sorted(self.broken),
        }

    def resume(self, state: Dict[str, Any]) -> None:
        """Takes up what was kept."""
        for number, (ref, counter, *slow) in state["drifts"].items():
            self.drifts[int(number)] = drift = Drift(self.fleet.topology.devices[int(number)], ref, counter)
            drift.read(*slow)
        self.failed_since = {(kind, number): ref for kind, number, ref in state["since"]}
        self.failed_before = [[(kind, number) for kind, number in phase] for phase in state["before"]]
        self.broken = set(state["broken"])

    def _state(self, event: Event) -> Device:
        return self.fleet.devices[event.device or 0]

    def _mark(self, line: int, event: Event) -> None:
        counter = event.counter or 0
        clock, eps = self._state(event).report(counter)
        self.of[event.device or 0] = Mark(line, event.ref, counter, clock, eps)

    def _set(self, line: int, event: Event, clock: int, eps: int) -> None:
        device = event.device or 0
        self.of[device] = Mark(line, event.ref, event.counter or 0, clock, eps)
        self.set_lines[device] = line
