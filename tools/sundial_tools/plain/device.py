"""What one device is and does, from the list of its events: docs/DEVICE.md and docs/RULES.md, Estimates and reports."""

from __future__ import annotations

from functools import cached_property
from typing import TYPE_CHECKING, Callable, List, NamedTuple, Optional, Sequence, Tuple

from sundial_tools.plan import Hop, Plan, Row
from sundial_tools.schedule import Event
from sundial_tools.topology import Topology

if TYPE_CHECKING:
    from sundial_tools.plain.history import Message, Step

MILLION = 1_000_000


class Turn(NamedTuple):
    """What an event was for its device: whether it acted as root before, and what it did."""

    acted: bool = False
    enters: bool = False
    accepts: bool = False
    moves: bool = False
    takes_over: bool = False
    emits: bool = False


def grow(ppm: int, elapsed: int) -> int:
    """By how much an uncertainty grows while a counter advances."""
    return -(-ppm * elapsed // MILLION)


class Past:
    """The events of a device since its latest start or join, in order, and what they say of it."""

    def __init__(self, topology: Topology, plans: Sequence[Plan], device: int, steps: "List[Step]") -> None:
        self.topology, self.plans, self.device, self.steps = topology, plans, device, steps

    def latest(self, test: "Callable[[Step], bool]") -> "Optional[Step]":
        return next((step for step in reversed(self.steps) if test(step)), None)

    def since_entry(self, test: "Callable[[Step], bool]") -> "Optional[Step]":
        """The latest event after the entry that passes the test."""
        found = self.latest(test)
        return found if found and found.number > self.entry.number else None

    @cached_property
    def entry(self) -> "Step":
        """The latest of its start, its join, its commit and its entering receipts."""
        found = self.latest(lambda step: step.event.word in ("start", "join", "commit") or step.turn.enters)
        assert found, "a device is called only after its start or join"
        return found

    @cached_property
    def epoch(self) -> int:
        """The number of the plan that it follows, and 0 where it has joined and has no duty."""
        words = {"start": self.entry.in_force, "join": 0}
        return words.get(self.entry.event.word, self.entry.staged or 0)

    @property
    def plan(self) -> Optional[Plan]:
        return self.plans[self.epoch - 1] if self.epoch else None

    @property
    def row(self) -> Optional[Row]:
        return self.plan.rows.get(self.device) if self.plan else None

    @property
    def is_root(self) -> bool:
        return self.plan is not None and self.plan.root == self.device

    @property
    def is_backup_root(self) -> bool:
        return self.plan is not None and self.plan.backup_root == self.device and not self.is_root

    @cached_property
    def is_sealed(self) -> bool:
        """It was started or joined, or it was sealed since its entry."""
        return self.entry.event.word in ("start", "join") or self.since_entry(lambda step: step.event.word == "seal") is not None

    @cached_property
    def was_given(self) -> bool:
        """It was given its duty of the next plan since its entry."""
        return self.since_entry(lambda step: step.event.word == "give") is not None

    @cached_property
    def heard(self) -> int:
        """Its counter at its latest start, join or accepted receipt."""
        return self._counter_at(lambda step: step.event.word in ("start", "join") or step.turn.accepts)

    @cached_property
    def sent(self) -> int:
        """Its counter at its latest start, emission, or commit made while it did not act."""
        return self._counter_at(lambda step: step.event.word in ("start", "join") or step.turn.emits or begins_term(step))

    def _counter_at(self, test: "Callable[[Step], bool]") -> int:
        found = self.latest(test)
        assert found and found.event.counter is not None
        return found.event.counter

    @cached_property
    def move(self) -> "Optional[Step]":
        """The tick at which it moved to its backup parent."""
        return self.since_entry(lambda step: step.turn.moves)

    @cached_property
    def acts(self) -> bool:
        """It acts as root."""
        entered_as_root = self.entry.event.word == "commit" or (self.entry.event.word == "start" and self.is_root)
        return entered_as_root or self.since_entry(lambda step: step.turn.takes_over) is not None

    @cached_property
    def hop(self) -> Optional[Hop]:
        """Its present parent, and the link to it."""
        if self.acts or self.row is None:
            return None
        return self.row.backup if self.move else self.row.primary

    @cached_property
    def stamp(self) -> Tuple[int, int]:
        """The term and the round that it saw last."""
        term, number = 0, 0
        for step in self.steps:
            if step.turn.accepts and step.message:
                term, number = step.message.stamp
            elif step.turn.takes_over:
                term, number = term + 1, 1
            elif step.turn.emits:
                number += 1
            elif begins_term(step):
                term, number = term + 1, 0
        return term, number

    @cached_property
    def estimate(self) -> Tuple[int, int, int]:
        """A clock, its uncertainty, and the counter at which they were set."""
        step = self.latest(lambda step: step.event.word in ("start", "join", "fix") or step.turn.accepts)
        assert step and step.event.counter is not None
        if step.message:
            bounds = self.topology.links[step.message.link].towards(self.device)
            return step.message.clock + bounds.mid, step.message.eps + bounds.half, step.event.counter
        assert step.event.clock is not None and step.event.eps is not None
        return step.event.clock, step.event.eps, step.event.counter

    def report(self, counter: Optional[int]) -> Tuple[int, int]:
        """The clock and the uncertainty that it says at a counter."""
        clock, base, begin = self.estimate
        elapsed = (counter or 0) - begin
        rates = self.topology.devices[self.device]
        return clock + elapsed, base + rates.grain + grow(rates.ppm, elapsed)


def begins_term(step: "Step") -> bool:
    """A commit of a device that did not act."""
    return step.event.word == "commit" and not step.turn.acted


def turn_of(past: Past, event: Event, staged: Optional[int], message: "Optional[Message]") -> Turn:
    """What an event is for a device with this past, while the plan of this number is staged."""
    if event.word == "tick":
        return _tick(past, event.counter or 0)
    if message:
        enters = _enters(past, staged, message)
        return Turn(acted=past.acts, enters=enters, accepts=enters or _accepts(past, message))
    return Turn(acted=past.acts)


def _tick(past: Past, counter: int) -> Turn:
    if past.acts:
        return Turn(acted=True, emits=counter - past.sent >= past.topology.period)
    takes_over = _takes_over(past, counter)
    return Turn(moves=_moves(past, counter), takes_over=takes_over, emits=takes_over)


def _moves(past: Past, counter: int) -> bool:
    """It is sealed, has not moved since its start or entering receipt, and has heard nothing for its wait."""
    entered = past.entry.event.word == "start" or past.entry.turn.enters
    if past.plan is None or past.is_root or past.move or not entered or not past.is_sealed:
        return False
    if past.is_backup_root:
        return counter - past.heard >= past.plan.wait_first
    return past.row is not None and past.row.backup is not None and counter - past.heard >= past.plan.wait


def _takes_over(past: Past, counter: int) -> bool:
    """The backup root has moved, and has heard nothing since for its second wait."""
    if past.plan is None or not past.is_backup_root or past.move is None:
        return False
    return counter - max(past.heard, past.move.event.counter or 0) >= past.plan.wait_second


def _enters(past: Past, staged: Optional[int], message: "Message") -> bool:
    """A message of the staged plan over its primary link there, after it was given its duty."""
    if staged is None or message.epoch != staged or not past.was_given:
        return False
    row = past.plans[staged - 1].rows.get(past.device)
    return row is not None and row.primary.link == message.link


def _accepts(past: Past, message: "Message") -> bool:
    """A message of its plan over the link to its present parent, with a newer stamp."""
    return past.hop is not None and past.hop.link == message.link and message.epoch == past.epoch and message.stamp > past.stamp
