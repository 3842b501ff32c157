"""From the events of logs to those of a schedule that is watched, and cut where a cut is due."""

from __future__ import annotations

from typing import Any, Callable, Dict, Optional, Sequence, cast

from sundial_tools.cut.cutter import NEVER, Cutter, rounds_before
from sundial_tools.cut.opening import Opening
from sundial_tools.plan import Plan
from sundial_tools.record.events import LogEvent
from sundial_tools.record.fleet import JudgedFleet, Refusal
from sundial_tools.record.recorder import Recorder
from sundial_tools.schedule import Event
from sundial_tools.topology import Topology


class Hooks:
    """Who is told: a cut before an event; each event before it happens, also one that no log has; what it brought."""

    cut: Callable[[Opening], None]
    coming: Callable[[Event], None]
    found: Callable[[Event], None]
    happened: Callable[[str], None]
    is_due: Callable[[int, int], bool]

    def is_near(self, line: int) -> bool:
        """Whether a cut may be due soon behind this line. Else nothing is kept for an opening."""
        return True

    def is_late(self, line: int) -> bool:
        """Whether a cut is wished so much that a premise may be named again after it."""
        return False


class Watched(JudgedFleet):
    """A fleet whose events are told to the hooks. `line` is that of the next event, from 1."""

    # All is kept for an opening, since this reference.
    _is_near, _near_since = True, -NEVER

    def __init__(self, topology: Topology, plans: Sequence[Plan], hooks: Hooks) -> None:
        super().__init__(topology, plans)
        self.hooks = hooks
        self.cutter = Cutter(self.fleet, self.is_due, lambda line: hooks.is_late(line))
        self.line = 1
        self.latest: Optional[Event] = None

    def is_due(self, line: int, ref: int) -> bool:
        return ref >= self._near_since + rounds_before(self._topology) and self.hooks.is_due(line, ref)

    def happens(self, event: Event) -> None:
        hooks = self.hooks
        is_near = hooks.is_near(self.line)
        if is_near and not self._is_near:
            self.cutter.begin()
            self._near_since = event.ref
        self._is_near = is_near
        opening = self.cutter.before(self.line, event) if is_near else None
        if opening is not None:
            # (as in a run that begins here)
            self.cutter.begin()
            hooks.cut(opening)
        hooks.coming(event)
        done = self.fleet.happen(event)
        self._passed(event, done)

    def is_lost(self, event: Event) -> None:
        """A message that was taken out of the book is told as lost. No log has it."""
        self.hooks.found(event)
        self._passed(event, "")

    def _passed(self, event: Event, done: str) -> None:
        if self._is_near:
            self.cutter.after(self.line, event, done)
        else:
            self.cutter.marks.glance(event, done)
        self.line, self.latest = self.line + 1, event
        self.hooks.happened(done)


class Feed(Recorder):
    """A recorder whose schedule goes to hooks."""

    def __init__(self, topology: Topology, plans: Sequence[Plan], origin: Optional[int], from_life: bool, hooks: Hooks) -> None:
        super().__init__(topology, plans, cast(Any, None), origin, from_life, True, lambda _: None)
        self.fleet = self._fleet = Watched(topology, plans, hooks)

    @property
    def last(self) -> Optional[int]:
        """The reference of the latest event, as the logs have it."""
        return None if self._last is None else self._last + self.origin

    @property
    def schedule_last(self) -> int:
        return self._last or 0

    @property
    def ended(self) -> bool:
        return self._ended

    def offer(self, event: LogEvent) -> Optional[Refusal]:
        return self._offer(event)

    def restore(self, event: Event, raw: Optional[int]) -> None:
        """An event of an earlier run. `raw` is the counter of a start or join as its log has it."""
        self.fleet.restore(event)
        if event.device is not None and raw is not None:
            self._bases[event.device] = raw
        self._last, self._ended = event.ref, event.word == "end"
        self.events += 1

    def state(self) -> Dict[str, Any]:
        """What has to be kept of it at a cut, as data."""
        fleet = self.fleet
        return {
            **fleet.state(), "marks": fleet.cutter.marks.state(), "line": fleet.line, "bases": self._bases, "last": self._last,
            "origin": self.origin, "events": self.events, "losses": self.losses,
        }

    def resume(self, state: Dict[str, Any]) -> None:
        """Takes up what was kept."""
        self.fleet.resume(state)
        self.fleet.cutter.marks.resume(state["marks"])
        self._bases = {int(device): counter for device, counter in state["bases"].items()}
        self.fleet.line, self._last, self.origin = state["line"], state["last"], state["origin"]
        self.events, self.losses = state["events"], state["losses"]

    def _say(self, event: Event) -> None:
        if event is not self.fleet.latest:
            self.fleet.is_lost(event)
        self.events += 1
