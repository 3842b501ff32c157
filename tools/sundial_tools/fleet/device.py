"""One device, as it is called: docs/DEVICE.md, and docs/RULES.md, Estimates and reports."""

from __future__ import annotations

from typing import List, Optional, Tuple

from sundial_tools.fleet.book import Flight
from sundial_tools.plan import Plan
from sundial_tools.topology import Bounds

Stamp = Tuple[int, int]
PRIMARY, BACKUP, ACTING, IDLE = range(4)
MODES = ("primary", "backup", "acting", "joined")
MILLION = 1_000_000


class Device:
    """The registers of a device.

    `epoch` is the place of its plan, from 1, and 0 after a join; `given` that of the plan of which it was given its
    duty. `clock`, `base` and `counter` are the estimate: what was set, how far off it may be, and when.
    """

    __slots__ = (
        "number", "ppm", "grain", "epoch", "plan", "given", "given_plan", "mode", "sealed", "stamp", "heard", "sent",
        "clock", "base", "counter",
    )

    def __init__(
        self, number: int, rates: Tuple[int, int], epoch: int, plan: Optional[Plan], counter: int, clock: int, eps: int
    ) -> None:
        self.number, (self.ppm, self.grain) = number, rates
        self.epoch, self.plan, self.given = epoch, plan, 0
        self.given_plan: Optional[Plan] = None
        self.mode = IDLE if plan is None else ACTING if number == plan.root else PRIMARY
        self.sealed = True
        self.stamp: Stamp = (0, 0)
        self.heard = self.sent = counter
        self.clock, self.base, self.counter = clock, eps, counter

    def report(self, counter: int) -> Tuple[int, int]:
        """Clock and eps that it reports at this counter, in picoseconds."""
        passed = counter - self.counter
        return self.clock + passed, self.base + self.grain - (-self.ppm * passed // MILLION)

    def set_clock(self, counter: int, clock: int, eps: int) -> None:
        self.clock, self.base, self.counter = clock, eps, counter

    def tick(self, counter: int, period: int) -> str:
        """What it does: send, move, takeover (it sends too), or nothing."""
        if self.mode == ACTING:
            if counter - self.sent < period:
                return ""
            self.stamp, self.sent = (self.stamp[0], self.stamp[1] + 1), counter
            return "send"
        plan = self.plan
        if not self.sealed or plan is None:
            return ""
        silence = counter - self.heard
        if self.number == plan.backup_root:
            return self._backup_root_waits(counter, silence, plan)
        if self.mode == PRIMARY and silence >= plan.wait:
            row = plan.rows.get(self.number)
            if row is not None and row.backup is not None:
                self.mode = BACKUP
                return "move"
        return ""

    def _backup_root_waits(self, counter: int, silence: int, plan: Plan) -> str:
        if self.mode == PRIMARY and silence >= plan.wait_first:
            self.mode, self.heard = BACKUP, counter
            return "move"
        if self.mode == BACKUP and silence >= plan.wait_second:
            self.mode, self.stamp, self.sent = ACTING, (self.stamp[0] + 1, 1), counter
            return "takeover"
        return ""

    def receive(self, counter: int, flight: Flight, bounds: Bounds) -> str:
        """What it does: enter the plan of the message, accept (both send on), or nothing."""
        done = "accept"
        if self.given and flight.epoch == self.given and flight.link == _primary_link(self.given_plan, self.number):
            self.epoch, self.plan, self.given, self.given_plan = self.given, self.given_plan, 0, None
            self.mode, self.sealed, done = PRIMARY, False, "enter"
        elif flight.epoch != self.epoch or flight.link != self.parent_link() or flight.stamp <= self.stamp:
            return ""
        self.stamp, self.heard, self.counter = flight.stamp, counter, counter
        mid = (bounds.min + bounds.max) // 2
        self.clock, self.base = flight.clock + mid, flight.eps + bounds.max - mid
        return done

    def parent_link(self) -> Optional[int]:
        """The link over which it hears."""
        row = self.plan.rows.get(self.number) if self.plan is not None else None
        if row is None:
            return None
        if self.mode == PRIMARY:
            return row.primary.link
        return row.backup.link if self.mode == BACKUP and row.backup is not None else None

    def state(self) -> List[int]:
        """The registers as data, of a device that was given no duty that it has not taken up."""
        return [self.number, self.epoch, self.mode, int(self.sealed), *self.stamp, self.heard, self.sent, self.clock, self.base, self.counter]

    def resume(self, state: List[int]) -> None:
        """Takes up what was kept of a device of this number and plan."""
        _, self.epoch, self.mode, sealed, term, place, self.heard, self.sent, self.clock, self.base, self.counter = state
        self.sealed, self.stamp = bool(sealed), (term, place)

    def give(self, epoch: int, plan: Plan) -> None:
        self.given, self.given_plan = epoch, plan

    def commit(self, counter: int) -> bool:
        """It leads the plan of which it was given its duty. Answers whether it acts only since now."""
        self.epoch, self.plan, self.given, self.given_plan = self.given, self.given_plan, 0, None
        self.sealed = False
        if self.mode == ACTING:
            return False
        self.mode, self.stamp, self.sent = ACTING, (self.stamp[0] + 1, 0), counter
        return True


def _primary_link(plan: Optional[Plan], number: int) -> Optional[int]:
    row = plan.rows.get(number) if plan is not None else None
    return None if row is None else row.primary.link
