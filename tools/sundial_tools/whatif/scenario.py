"""A schedule that is drawn: what the devices of a fabric do, with the failures and renewals that one asks for.

Every premise of docs/PREMISES.md holds in it but those that are asked to break. The devices are those of
sundial_tools/fleet.
"""

from __future__ import annotations

import heapq
import random
from typing import Any, Callable, Dict, List, NamedTuple, Optional, Sequence, Set, Tuple

from sundial_tools.errors import ToolError
from sundial_tools.fleet.book import Flight
from sundial_tools.fleet.device import ACTING, Device
from sundial_tools.fleet.fleet import Fleet
from sundial_tools.plan import Plan
from sundial_tools.schedule import Event, event_line
from sundial_tools.things import joined_to
from sundial_tools.topology import Bounds, Topology
from sundial_tools.units import few
from sundial_tools.whatif.clocks import FAST, SLOW, STEADY, Clock
from sundial_tools.whatif.wishes import Failure, Lost, Span, Wishes, Wrong, us

MOST_EVENTS = 2**26
# A tick comes after this part of `tick` at the least, and after all of it at the most.
TICK_PARTS = 8
MOST_SHOWN = 6
Thing = Tuple[str, int]


class Settings(NamedTuple):
    """Times are picoseconds. `ask` 0 asks nobody. One message in `lossy` is lost, none where that is 0."""

    until: int
    ask: int
    seed: int
    delays: str
    clocks: str
    base: int
    hold: int
    fixes: bool
    over: int
    lossy: int


class Happening(NamedTuple):
    """Something that people want to know, and at which line it stands. `is_move` marks a move to a backup."""

    ref: int
    line: int
    text: str
    is_move: bool = False


class Report(NamedTuple):
    line: int
    ref: int
    device: int
    clock: int
    eps: int


class Scenario:
    """Draws one schedule. `happenings` and `reports` are there after `run`."""

    def __init__(
        self, topology: Topology, plans: Sequence[Plan], renewals: Sequence[int], wishes: Wishes, settings: Settings,
        step: Callable[[], None] = lambda: None,
    ) -> None:
        """`renewals` has the moments at which plan 2, 3 and so on are brought in."""
        self.topology, self.plans, self.settings, self._wishes, self._step = topology, plans, settings, wishes, step
        self._renewals = renewals
        self.fleet = Fleet(topology, plans)
        self._drawn = random.Random(settings.seed)
        self._clocks = self._draw_clocks()
        self._queue: List[Tuple[int, int, Callable[[int, Any], None], Any]] = []
        self._order = 0
        self._write: Callable[[str], object] = len
        self.lines = 0
        self.happenings: List[Happening] = []
        self.reports: List[Report] = []
        # When each device moved to its backup first.
        self.moves: Dict[int, int] = {}
        # The greatest age of an acting root's estimate, and the line of the first stage.
        self.held, self.first_stage = 0, 0
        self._lives: Dict[int, int] = {}
        self._failed_since: Set[Thing] = set()
        self._last_failure: Optional[int] = None
        self._once: Set[Lost] = set()
        self._spoiled: Set[Tuple[int, int]] = set()
        # The open window: what is still to be given, whether something was mended in it, and whether seals were ordered.
        self._ungiven: Set[int] = set()
        self._mended = self._sealing = self._refused = False
        self._mends: List[Failure] = []
        self._waiting: List[int] = []

    def run(self, write: Callable[[str], object]) -> None:
        """Writes the lines of the schedule, with their newlines."""
        self._write = write
        settings, members = self.settings, sorted(self.fleet.members[0])
        if len(members) * (settings.until // max(1, self.topology.tick) + 1) > MOST_EVENTS:
            ticks = f"{len(members)} devices tick every {us(self.topology.tick)}"
            raise ToolError(f"{ticks}: until {us(settings.until)} that is too much for one schedule")
        for device in members:
            self._begin("start", 0, device)
        for mend in self._wishes.mends:
            self._push(mend.at, self._mend_wished, mend)
        for failure in self._wishes.failures:
            self._push(failure.at, self._fail, failure)
        for wrong in self._wishes.wrong:
            self._push(wrong.at, self._go_wrong, wrong)
        for place, at in enumerate(self._renewals, 2):
            self._push(at, self._open, place)
        if settings.ask:
            self._push(settings.ask, self._ask_all, None)
        while self._queue and self._queue[0][0] <= settings.until:
            ref, _, action, what = heapq.heappop(self._queue)
            action(ref, what)
        self._happen(Event("end", settings.until))
        self._left_open()

    # Beneath all

    def _go_wrong(self, ref: int, wrong: Wrong) -> None:
        self._clocks[wrong.device].go_wrong(ref, wrong.ppm)

    def _push(self, ref: int, action: Callable[[int, Any], None], what: Any) -> None:
        self._order += 1
        heapq.heappush(self._queue, (ref, self._order, action, what))

    def _happen(self, event: Event) -> str:
        self.lines += 1
        self._step()
        self._write(event_line(event))
        done = self.fleet.happen(event)
        for flight in self.fleet.sent_now:
            self._fly(flight)
        if event.counter is not None and event.device is not None:
            state = self.fleet.up.get(event.device)
            if state is not None and state.mode == ACTING:
                self.held = max(self.held, event.counter - state.counter)
        if done == "close":
            self._closed(event.ref)
        return done

    def _note(self, ref: int, text: str) -> None:
        self.happenings.append(Happening(ref, self.lines, text))

    def _draw_clocks(self) -> List[Clock]:
        roots = {plan.root for plan in self.plans} | {plan.backup_root for plan in self.plans}
        clocks = []
        for device in self.topology.devices:
            kind = STEADY if self.settings.clocks == "random" else SLOW if device.number in roots else FAST
            pace = self._drawn.randint(-device.ppm * 1000, device.ppm * 1000)
            clocks.append(Clock(device, kind, pace, self._drawn.randrange(10**9), self._drawn))
        return clocks

    def _name(self, device: int) -> str:
        return self.topology.devices[device].name

    def _names(self, devices: Sequence[int]) -> str:
        return few([self._name(it) for it in devices], MOST_SHOWN)

    # Devices

    def _begin(self, word: str, ref: int, device: int) -> None:
        """A start or a join, and its ticks from then on."""
        counter = self._clocks[device].begin(ref)
        self._happen(Event(word, ref, device=device, counter=counter, clock=self._clock_near(ref), eps=self.settings.base))
        self._lives[device] = self._lives.get(device, 0) + 1
        self._push(ref + self._drawn.randint(1, self.topology.tick), self._tick, (device, self._lives[device]))

    def _clock_near(self, ref: int) -> int:
        return max(0, ref + self._drawn.randint(-self.settings.base, self.settings.base))

    def _tick(self, ref: int, what: Tuple[int, int]) -> None:
        device, life = what
        state = self.fleet.up.get(device)
        if state is None or self._lives[device] != life:
            return
        counter = self._clocks[device].at(ref)
        if state.mode == ACTING and 2 * (counter - state.counter) > self.settings.hold:
            self._fix(ref, device, counter)
        silence = counter - state.heard
        done = self._happen(Event("tick", ref, device=device, counter=counter))
        if done == "move":
            self._note_move(ref, state, silence)
        elif done == "takeover":
            self._fix(ref, device, counter)
            after = f", {us(ref - self._last_failure)} after the failure" if self._last_failure is not None else ""
            self._note(ref, f"{self._name(device)} has heard nothing for another {us(silence)}: it takes over as root{after}")
            self._try_commit(ref)
        self._push(ref + self.topology.tick - self._drawn.randrange(self.topology.tick // TICK_PARTS + 1), self._tick, what)

    def _note_move(self, ref: int, state: Device, silence: int) -> None:
        row = state.plan.rows.get(state.number) if state.plan is not None else None
        if row is not None and row.backup is not None:
            to = f"{self._name(row.backup.parent)} over {self.topology.links[row.backup.link].name}"
            text = f"{self._name(state.number)} has heard nothing for {us(silence)}: it moves to its backup, {to}"
            self.happenings.append(Happening(ref, self.lines, text, is_move=True))
            self.moves.setdefault(state.number, ref)

    def _fix(self, ref: int, device: int, counter: int) -> None:
        """An acting root is set from outside, while it can be."""
        if self.settings.fixes:
            clock = self._clock_near(ref)
            self._happen(Event("fix", ref, device=device, counter=counter, clock=clock, eps=self.settings.base))

    def _ask_all(self, ref: int, _: Any) -> None:
        for device in sorted(self.fleet.up):
            counter = self._clocks[device].at(ref)
            self._happen(Event("ask", ref, device=device, counter=counter))
            said = self.fleet.report(device, counter)
            if said is not None:
                self.reports.append(Report(self.lines, ref, device, *said))
        self._push(ref + self.settings.ask, self._ask_all, None)

    # Messages

    def _fly(self, flight: Flight) -> None:
        bounds = self.topology.links[flight.link].towards(flight.receiver)
        moment = flight.sent + self._delay(flight, bounds)
        self._push(moment, self._lose if self._is_lost(flight) else self._receive, flight)

    def _delay(self, flight: Flight, bounds: Bounds) -> int:
        for late in self._wishes.late:
            if late.link == flight.link and self._in_span(late.span, flight, late):
                return late.delay
        if self.settings.delays == "least":
            return bounds.min
        return bounds.max if self.settings.delays == "greatest" else self._drawn.randint(bounds.min, bounds.max)

    def _in_span(self, span: Span, flight: Flight, wish: Any) -> bool:
        if span.until is not None:
            return span.since <= flight.sent <= span.until
        if flight.sent < span.since or wish in self._once:
            return False
        self._once.add(wish)
        return True

    def _is_lost(self, flight: Flight) -> bool:
        wished = any(it.link == flight.link and self._in_span(it.span, flight, it) for it in self._wishes.lost)
        drawn = bool(self.settings.lossy) and self._drawn.randrange(self.settings.lossy) == 0
        if wished or (drawn and self._may_be_spoiled(flight.stamp)):
            self._spoiled.add(flight.stamp)
            return True
        return False

    def _may_be_spoiled(self, stamp: Tuple[int, int]) -> bool:
        """With this round no more of one term are spoiled in a row than the topology allows."""
        term, number = stamp
        first = last = number
        while (term, first - 1) in self._spoiled:
            first -= 1
        while (term, last + 1) in self._spoiled:
            last += 1
        return last - first < self.topology.loss

    def _receive(self, ref: int, flight: Flight) -> None:
        if self.fleet.book.get(flight.number) is None:
            return
        device = flight.receiver
        event = Event("recv", ref, device=device, counter=self._clocks[device].at(ref), message=flight.number)
        if self._happen(event) == "enter":
            self._try_seal(ref)

    def _lose(self, ref: int, flight: Flight) -> None:
        if self.fleet.book.get(flight.number) is not None:
            self._happen(Event("lose", ref, message=flight.number))

    # Failures

    def _fail(self, ref: int, failure: Failure) -> None:
        things: List[Thing] = [("device", it) for it in failure.named.devices if it not in self.fleet.failed_devices]
        things += [("link", it) for it in failure.named.links if it not in self.fleet.failed_links]
        self._may_fail(failure, things)
        up = [number for kind, number in things if kind == "device" and number in self.fleet.up]
        self._last_failure = ref
        self._note(ref, f"{failure.named.text} fails" + (f": {self._names(up)}" if failure.named.kind == "listed" and up else ""))
        for kind, number in things:
            self._failed_since.add((kind, number))
            self._happen(Event("fail", ref, thing=kind, number=number))

    def _may_fail(self, failure: Failure, things: List[Thing]) -> None:
        failed, said = self._failed_since | set(things), f"{failure.named.text} at {us(failure.at)}"
        if len(failed) > 1 and "domain" not in self._wishes.allowed and not any(
            failed <= {("device", it) for it in domain.devices} | {("link", it) for it in domain.links}
            for domain in self.topology.domains
        ):
            raise ToolError(
                f"{said}: what fails here and what failed before is in no one domain, and no renewal has closed in between. "
                "That breaks the premise domain: say --allow domain to see it, or renew in between"
            )
        if self.fleet.staged and (self._mended or self.fleet.committed) and "renew" not in self._wishes.allowed:
            after = "a commit" if self.fleet.committed else "a mend"
            raise ToolError(
                f"{said}: it fails after {after}, before that renewal has closed. That breaks the premise renew: "
                "say --allow renew to see it"
            )

    def _mend_wished(self, ref: int, mend: Failure) -> None:
        if self.fleet.staged and not self.fleet.committed:
            self._mend(ref, mend.named.devices, mend.named.links)
        else:
            self._mends.append(mend)

    def _mend(self, ref: int, devices: Sequence[int], links: Sequence[int]) -> None:
        things: List[Thing] = [("device", it) for it in devices if it in self.fleet.failed_devices]
        things += [("link", it) for it in links if it in self.fleet.failed_links]
        for kind, number in things:
            self._mended = True
            self._happen(Event("mend", ref, thing=kind, number=number))
        if things:
            names = [self._name(it) if kind == "device" else self.topology.links[it].name for kind, it in things]
            self._note(ref, f"mended: {few(names, MOST_SHOWN)}")

    # Renewals

    def _open(self, ref: int, place: int) -> None:
        if self.fleet.staged:
            self._note(ref, f"plan {place} waits until the window of plan {self.fleet.staged} closes")
            self._waiting.append(place)
            return
        fleet, plan = self.fleet, self.plans[place - 1]
        self._mended = self._sealing = self._refused = False
        self._happen(Event("stage", ref))
        self.first_stage = self.first_stage or self.lines
        self._note(ref, f"plan {place} is staged: root {self._name(plan.root)}, backup root {self._name(plan.backup_root)}")
        for mend in self._mends:
            self._mend(ref, mend.named.devices, mend.named.links)
        self._mends.clear()
        members = sorted(fleet.members[place - 1])
        # (the commit wants all members up, and no link failed that the plan has)
        self._mend(ref, [it for it in members if it in fleet.failed_devices], sorted(fleet.failed_links - set(plan.absent_links)))
        new = [it for it in members if it not in fleet.up or it not in fleet.members[fleet.in_force - 1]]
        for device in new:
            self._begin("join", ref, device)
        if new:
            self._note(ref, f"{self._names(new)} joined")
        self._ungiven = set(members)
        for number, device in enumerate(members):
            self._push(ref + self.settings.over * number // len(members), self._give, (place, device))

    def _give(self, ref: int, what: Tuple[int, int]) -> None:
        place, device = what
        if self.fleet.staged == place and device in self.fleet.up:
            self._happen(Event("give", ref, device=device))
            self._ungiven.discard(device)
            self._try_commit(ref)
        elif self.fleet.staged == place:
            self._note(ref, f"{self._name(device)} of plan {place} is down, so that plan is not committed")

    def _try_commit(self, ref: int) -> None:
        """Commits as soon as all members have their duty and the root of the staged plan acts."""
        fleet = self.fleet
        if not fleet.staged or fleet.committed or self._ungiven or self._refused:
            return
        root = self.plans[fleet.staged - 1].root
        state = fleet.up.get(root)
        if state is None or state.mode != ACTING:
            if not any("waits until" in it.text and it.text.startswith(f"plan {fleet.staged} ") for it in self.happenings):
                self._note(ref, f"plan {fleet.staged} waits until {self._name(root)} acts as root")
            return
        fault = self._commit_fault()
        if fault and "renew" not in self._wishes.allowed:
            self._refused = True
            self._note(ref, f"plan {fleet.staged} is not committed, since that would break the premise renew: {fault}")
            return
        self._happen(Event("commit", ref, device=root, counter=self._clocks[root].at(ref)))
        self._note(ref, f"{self._name(root)} commits plan {fleet.staged}")
        self._try_seal(ref)

    def _commit_fault(self) -> str:
        fleet = self.fleet
        plan, members = self.plans[fleet.staged - 1], fleet.members[fleet.staged - 1]
        down = sorted(members - set(fleet.up))
        if down:
            return f"{self._names(down)} of that plan is down"
        failed = sorted(fleet.failed_links - set(plan.absent_links))
        if failed:
            return f"the link {self.topology.links[failed[0]].name} has failed, and the plan does not leave it out"
        gone = {device.number for device in self.topology.devices if device.number not in fleet.up}
        left = sorted(it for it in joined_to(self.topology, [plan.root], gone, fleet.failed_links) if it not in members)
        if left:
            names = self._names(left)
            return f"{names} is left out by that plan, and is up and joined to its root: let it fail before, or plan with it"
        return ""

    def _try_seal(self, ref: int) -> None:
        fleet = self.fleet
        if not fleet.staged or not fleet.committed or self._sealing:
            return
        members = sorted(fleet.members[fleet.staged - 1] & set(fleet.up))
        if all(fleet.up[it].epoch == fleet.staged for it in members):
            self._sealing = True
            self._note(ref, f"all {len(members)} members follow plan {fleet.staged}")
            for number, device in enumerate(members):
                self._push(ref + self.settings.over * number // len(members), self._seal, (fleet.staged, device))

    def _seal(self, ref: int, what: Tuple[int, int]) -> None:
        place, device = what
        if self.fleet.staged == place and device in self.fleet.up:
            self._happen(Event("seal", ref, device=device))

    def _closed(self, ref: int) -> None:
        self._failed_since.clear()
        self._note(ref, f"plan {self.fleet.in_force} is in force")
        if self._waiting:
            self._push(ref, self._open, self._waiting.pop(0))

    def _left_open(self) -> None:
        until = self.settings.until
        if self.fleet.staged:
            self._note(until, f"plan {self.fleet.staged} is still not in force")
        for mend in self._mends:
            self._note(until, f"{mend.named.text} was not mended: no window was open from {us(mend.at)} on")
