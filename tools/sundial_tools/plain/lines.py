"""The lines of a replay: docs/REPLAY.md, Lines."""

from __future__ import annotations

from typing import Dict, Iterable, Iterator, List, Optional, Sequence

from sundial_tools.errors import ToolError
from sundial_tools.plain.history import History, Step
from sundial_tools.plain.premises import Premises
from sundial_tools.plain.refusals import refusal
from sundial_tools.plan import Plan
from sundial_tools.schedule import Event, parse_event
from sundial_tools.topology import Topology

MOST_LINE = 4096
DONE, REFUSED, BROKEN = 0, 3, 7


class Replay:
    """Takes the lines of a schedule. `status` is that of a run which ends with the latest line taken."""

    def __init__(self, topology: Topology, plans: Sequence[Plan]) -> None:
        self.history, self.premises = History(topology, plans), Premises()
        self.status = DONE
        self._loop: List[int] = []
        self._roots: List[int] = []

    def lines(self, schedule: Iterable[bytes]) -> Iterator[str]:
        """What is printed over a schedule, line by line."""
        number = 0
        for number, line in enumerate(schedule, 1):
            event, reason = _read(line[:-1] if line.endswith(b"\n") else line)
            reason = reason or (refusal(self.history, event) if event else None)
            if reason or event is None:
                yield self._refused(number, reason or "")
                return
            yield from self._taken(number, event)
        if self.history.of("end"):
            yield f"done {number} {len(self.history.of('ask'))}"
        else:
            yield self._refused(number + 1, "NoEnd")

    def _refused(self, number: int, reason: str) -> str:
        self.status = REFUSED
        return f"input schedule {number} {reason}"

    def _taken(self, number: int, event: Event) -> Iterator[str]:
        bad = [f"broken {number} {premise}" for premise in self.premises.breaks(self.history, event)]
        step = self.history.add(event)
        bad += [f"alarm {number} {alarm}" for alarm in self._alarms()]
        told, wrong = self._told(step)
        if bad or wrong:
            self.status = BROKEN
        yield from [*bad, *told, *wrong]

    def _alarms(self) -> Iterator[str]:
        """The alarms of a loop and of two roots, where there were none before."""
        counted = self.history.counted()
        loop = on_a_loop({it: self._parent(it) for it in counted})
        roots = [it for it in counted if self.history.past(it).acts]
        if loop and not self._loop:
            yield f"loop {self._name(loop[0])}"
        if len(roots) >= 2 > len(self._roots):
            yield f"roots {self._name(roots[0])} {self._name(roots[1])}"
        self._loop, self._roots = loop, roots

    def _told(self, step: Step) -> "tuple[List[str], List[str]]":
        """The report of an ask, and the alarm where its interval does not have the reference."""
        event = step.event
        if event.word != "ask" or event.device is None:
            return [], []
        clock, eps = self.history.past(event.device).report(event.counter)
        name = self._name(event.device)
        wrong = [] if abs(clock - event.ref) <= eps else [f"alarm {step.number} interval {name} {event.ref}"]
        return [f"report {step.number} {name} {clock} {eps}"], wrong

    def _parent(self, device: int) -> Optional[int]:
        hop = self.history.past(device).hop
        return hop.parent if hop else None

    def _name(self, device: int) -> str:
        return self.history.topology.devices[device].name


def on_a_loop(parents: Dict[int, Optional[int]]) -> List[int]:
    """The devices from which their parents lead back to them, ascending. A device without an entry leads nowhere."""
    return [device for device in sorted(parents) if _comes_back(parents, device)]


def _comes_back(parents: Dict[int, Optional[int]], device: int) -> bool:
    at: Optional[int] = device
    for _ in parents:
        at = parents.get(at) if at is not None else None
        if at == device:
            return True
    return False


def _read(line: bytes) -> "tuple[Optional[Event], Optional[str]]":
    """The event of a line, or why its form is refused."""
    if len(line) > MOST_LINE:
        return None, "LongLine"
    try:
        # (each byte becomes a letter, so a byte that is no text is no word and no digit)
        return parse_event(line.decode("latin-1")), None
    except ToolError as fault:
        return None, fault.reason.partition(":")[0]
