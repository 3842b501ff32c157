"""Where a cut is right, and the opening of the part behind it: docs/WATCH.md."""

from __future__ import annotations

import heapq
from bisect import bisect
from math import gcd
from typing import Any, Dict, Iterable, Iterator, List, NamedTuple, Optional, Sequence, Tuple

from sundial_tools.cut.marks import Mark, Marks, Thing
from sundial_tools.fleet.book import Flight
from sundial_tools.fleet.device import ACTING, MILLION, PRIMARY, Device
from sundial_tools.fleet.drift import Drift
from sundial_tools.fleet.fleet import Fleet
from sundial_tools.fleet.spoiled import Spoiled
from sundial_tools.schedule import Event, event_line, parse_event
from sundial_tools.topology import Device as Rates

FIRST = -1.0


class Refused(Exception):
    """Why there is no cut here."""


class Kept(NamedTuple):
    """An event that an opening may need, with its line, and the message that it received. One that was computed stands
    between two lines."""

    line: float
    event: Event
    flight: Optional[Flight] = None


class Opening(NamedTuple):
    """The events that bring the fleet back into its state at a cut.

    The plan in force is that of `epoch`, and comes `copies` times more before it. Behind the opening the numbers of messages
    are less by `less`. `way` is how it was made.
    """

    events: List[Event]
    epoch: int
    copies: int
    less: int
    way: str

    @property
    def first_ref(self) -> int:
        return self.events[0].ref

    def of(self, event: Event) -> Event:
        """An event of the schedule, as it stands behind the opening."""
        return event if event.message is None else event._replace(message=event.message - self.less)

    def state(self) -> Dict[str, Any]:
        """The opening as data."""
        return {**self._asdict(), "events": [event_line(it)[:-1] for it in self.events]}


def opening_of_state(state: Dict[str, Any]) -> Opening:
    """The opening of its data."""
    events = [parse_event(it) for it in state["events"]]
    return Opening(events, state["epoch"], state["copies"], state["less"], state["way"])


# Where a cut is right


def judge(marks: Marks, spoiled: Spoiled, ref: int) -> None:
    """Raises Refused where the fleet is not settled and quiet right before an event at `ref`."""
    fleet = marks.fleet
    if fleet.staged:
        raise Refused("a window is open")
    if fleet.book.is_busy(ref) or spoiled.open:
        raise Refused("a message is on its way")
    root = fleet.up.get(fleet.plan.root)
    if root is None:
        raise Refused("the root of the plan in force is down")
    members = fleet.members[fleet.in_force - 1]
    for device, state in fleet.up.items():
        if device not in members or state.epoch != fleet.in_force:
            raise Refused("a device is up that the plan in force leaves out")
        if state.mode != (ACTING if state is root else PRIMARY):
            raise Refused("a device is on its backup, or the backup root acts")
        if state.given or not state.sealed:
            raise Refused("a duty is given, or a device is not sealed")
        if state.stamp != root.stamp:
            raise Refused("a device has not heard the latest round")
    if len(fleet.up) + sum(device in members for device in fleet.failed_devices) < len(members):
        raise Refused("a member is neither up nor failed")


def judge_exact(marks: Marks, spoiled: Spoiled) -> None:
    """Raises Refused where what an opening cannot bring back may count behind it."""
    if "loss" not in marks.broken and marks.fleet.up[marks.fleet.plan.root].stamp in spoiled.rounds:
        raise Refused("a message of the latest round was lost or late")


# The two ways


def opening_of_marks(marks: Marks, kept: Sequence[Kept], is_exact: bool) -> Opening:
    """Each member starts where it heard last: no message is sent in the opening."""
    if marks.failed_before:
        raise Refused("something has failed since before the latest renewal")
    fleet = marks.fleet
    starts = {device: marks.of[device] for device in fleet.up if device in marks.of}
    return _Telling(marks, starts, _since(kept, starts), (), is_exact).opening("marks")


def opening_of_rounds(marks: Marks, rounds: Sequence[Mark], kept: Sequence[Kept], is_exact: bool) -> Opening:
    """The latest rounds are told again: one, and where something has failed since before renewals, one for each at least."""
    why = Refused("too few rounds since something else happened")
    for first in range(len(rounds) - max(2, len(marks.failed_before) + 1), -1, -1):
        try:
            return _opening_since(marks, rounds[first:], kept, is_exact)
        except Refused as fault:
            why = fault
    raise why


def _opening_since(marks: Marks, rounds: Sequence[Mark], kept: Sequence[Kept], is_exact: bool) -> Opening:
    """The root starts where it sent the first of these rounds, and each other member at its latest tick up to a `tick` later."""
    base, *again = rounds
    root, last = marks.fleet.plan.root, base.ref + marks.fleet.topology.tick
    ticks = (it for it in kept if it.event.word == "tick" and it.event.device != root)
    starts = {
        it.event.device or 0: Mark(int(it.line), it.event.ref, it.event.counter or 0, it.event.ref, 0)
        for it in ticks if base.line < it.line < again[0].line and it.event.ref <= last
    }
    starts[root] = base
    return _Telling(marks, starts, _since(kept, starts), [it.line for it in again], is_exact).opening("rounds")


def _since(kept: Sequence[Kept], starts: Dict[int, Mark]) -> List[Kept]:
    """What the devices read since their starts."""
    return [it for it in kept if it.event.device in starts and it.line > starts[it.event.device].line]


class _Telling:
    """Puts an opening together over a fleet of its own, and compares that with the one at the cut.

    `rounds` are the lines of the emissions that are told. Windows open and close before them.
    """

    def __init__(self, marks: Marks, starts: Dict[int, Mark], since: List[Kept], rounds: Sequence[int], is_exact: bool) -> None:
        self._marks, self._whole, self._is_exact = marks, marks.fleet, is_exact
        self._must_be_honest = is_exact and "start" not in marks.broken
        self._judge_starts(starts)
        self._starts, self._rounds = starts, rounds
        self._first = self._latest = min(mark.ref for mark in starts.values())
        # What failed since before a renewal is told before a window that goes over to a copy of the plan.
        self._before, self._windows = marks.failed_before, 0
        copies = len(self._before)
        topology, plan = self._whole.topology, self._whole.plan
        self._fleet, self._events = Fleet(topology, [plan] * (copies + 1)), []  # type: Fleet, List[Event]
        self._spoiled = Spoiled(self._fleet)
        # Members that failed since the latest closing, though a window of before it needs them.
        failed = self._whole.failed_devices & self._whole.members[self._whole.in_force - 1]
        self._stand_ins = {it for it in failed if copies and ("device", it) in marks.failed_since}
        self._due: List[Tuple[int, int, int]] = []
        told = [*since, *(Kept(mark.line, Event("start", mark.ref, device, *mark[2:])) for device, mark in starts.items())]
        readings: Dict[int, List[Kept]] = {device: [] for device in starts}
        for it in sorted(told, key=lambda it: it.line):
            readings[it.event.device or 0].append(it)
        told += [it for device in starts for it in self._computed(device, readings[device])]
        if not copies:
            told += self._failures()
        self._told = sorted(told, key=lambda it: (it.event.ref, it.line))

    def opening(self, way: str) -> Opening:
        self._fail(self._before[0] if self._before else ())
        for device in self._stand_ins:
            self._say(Event("start", self._first, device, self._first, self._first, 0))
            self._expect(self._first + self._whole.topology.tick, device, 0)
        for it in self._told:
            self._let_stand_ins(it.event.ref)
            if it.line in self._rounds:
                self._close()
                self._go_over(it.event)
            self._say(it.event if it.event.word != "recv" else self._receipt(it.event, it.flight))
        self._close()
        if self._windows < len(self._before):
            raise Refused("a device missed too many of the latest rounds")
        self._judge_alike()
        whole = self._whole
        return Opening(self._events, whole.in_force, len(self._marks.failed_before), whole.messages - self._fleet.messages, way)

    def _say(self, event: Event) -> None:
        self._events.append(event)
        self._latest = event.ref
        self._spoiled.before(event)
        self._fleet.happen(event)
        self._spoiled.after(event)
        for flight in self._fleet.sent_now:
            if flight.receiver in self._stand_ins and flight.link == self._whole.plan.rows[flight.receiver].primary.link:
                self._expect(flight.due, flight.receiver, flight.number)

    # What is told

    def _receipt(self, event: Event, flight: Optional[Flight]) -> Event:
        """A receipt of a message that is sent in the opening, and else an ask, which reads the counter, too."""
        number = None
        if flight is not None and self._rounds:
            place = flight.stamp[1] - self._whole.up[self._whole.plan.root].stamp[1] + len(self._rounds)
            epoch = self._fleet.staged or self._fleet.in_force
            number = self._fleet.book.find((flight.receiver, flight.link, epoch, (0, place)))
        return event._replace(word="ask", message=None) if number is None else event._replace(message=number)

    def _failures(self) -> Iterator[Kept]:
        """What failed since the latest closing. A device that is not started is awaited no longer than a `tick`."""
        for (kind, number), ref in self._marks.failed_since.items():
            last = self._first + self._whole.topology.tick if kind == "device" else ref
            yield Kept(FIRST, Event("fail", max(self._first, min(ref, last)), thing=kind, number=number))

    def _close(self) -> None:
        """Closes the window where all have entered: what has failed is older then."""
        fleet = self._fleet
        if not fleet.staged or any(message for _, _, message in self._due) or any(it.epoch != fleet.staged for it in fleet.up.values()):
            return
        for device in sorted(fleet.up):
            self._say(Event("seal", self._latest, device))
        self._windows += 1
        self._fail(self._before[self._windows] if self._windows < len(self._before) else sorted(self._marks.failed_since))

    def _go_over(self, emission: Event) -> None:
        """Opens the next window to a copy of the plan, before a round is told."""
        if self._windows == len(self._before):
            self._stand_ins, self._due = set(), []
        elif not self._fleet.staged:
            self._say(Event("stage", emission.ref))
            for device in sorted(self._fleet.up):
                self._say(Event("give", emission.ref, device))
            self._say(Event("commit", emission.ref, emission.device, emission.counter))

    def _fail(self, things: Iterable[Thing]) -> None:
        for kind, number in things:
            self._say(Event("fail", self._latest, thing=kind, number=number))

    def _expect(self, ref: int, device: int, message: int) -> None:
        heapq.heappush(self._due, (ref, device, message))

    def _let_stand_ins(self, ref: int) -> None:
        """What stand-ins do up to this reference: they tick, and hear over their primary links."""
        while self._due and self._due[0][0] <= ref:
            at, device, message = heapq.heappop(self._due)
            self._say(Event("recv" if message else "tick", at, device, at, message=message or None))
            if not message:
                self._expect(at + self._whole.topology.tick, device, 0)

    # What is computed

    def _computed(self, device: int, readings: List[Kept]) -> List[Kept]:
        """A fix of the root, and up to two asks of each device, between readings that are told."""
        told, drift = list(readings), self._marks.drifts[device]
        if device == self._whole.plan.root:
            self._add(told, self._fixes(device, told), "no counter gives the root's estimate")
        slower, faster = drift.rates
        points = [(it.event.ref, it.event.counter or 0) for it in told]
        for at, rate, has in (
            (drift.fast_at, slower, any(slower * counter - MILLION * ref == drift.fast for ref, counter in points)),
            (drift.slow_at, faster, any(MILLION * ref - faster * counter == drift.slow for ref, counter in points)),
        ):
            if not has and "drift" not in self._marks.broken:
                self._add(told, self._asks(device, told, at, rate), "no counter has the rate of a device so far")
        return [it for it in told if it not in readings]

    def _add(self, told: List[Kept], candidates: Optional[Iterator[Kept]], why: str) -> None:
        """Adds the first candidate with which the readings of a device keep its rate, in the order of their lines."""
        for it in candidates or ():
            place = bisect(told, it.line, key=lambda one: one.line)
            if "drift" in self._marks.broken or _keep_rate(self._whole.topology.devices[it.event.device or 0], [*told[:place], it, *told[place:]]):
                told.insert(place, it)
                return
        if candidates is not None:
            raise Refused(why)

    def _fixes(self, root: int, readings: Sequence[Kept]) -> Optional[Iterator[Kept]]:
        """Fixes of the root, behind which it reports as before: its estimate is older than its start. None where it is not.

        They stand at counters at which `ppm` parts of the time since the estimate are whole picoseconds: the growth up to there
        and the growth since then add up. Whole microseconds come first, since `sundialctl resume` advances estimates by these.
        """
        mark, state = self._starts[root], self._whole.devices[root]
        if self._marks.set_lines.get(root, 0) > mark.line or (state.counter == mark.counter and state.base == mark.eps):
            return None
        return (
            fix for step in (MILLION, MILLION // gcd(state.ppm, MILLION)) for before, after in zip(readings, readings[1:])
            for fix in self._fixes_between(state, before, after, step)
        )

    def _fixes_between(self, state: Device, before: Kept, after: Kept, step: int) -> Iterator[Kept]:
        drift, first, last = self._marks.drifts[state.number], before.event.counter or 0, after.event.counter or 0
        first_ref, last_ref = before.event.ref, after.event.ref
        start = first + (state.counter - first) % step
        for counter in range(start, min(last + 1, start + 3 * step), step):
            passed = counter - state.counter
            clock, eps = state.clock + passed, state.base + state.ppm * passed // MILLION
            least, most = drift.hull(counter)
            least, most = max(least, first_ref), min(most, last_ref)
            if self._must_be_honest:
                least, most = max(least, clock - eps), min(most, clock + eps)
            ref = first_ref + ((last_ref - first_ref) * (counter - first) // (last - first) if last > first else 0)
            if least <= most:
                yield Kept(before.line + 0.5, Event("fix", max(least, min(ref, most)), state.number, counter, clock, eps))

    def _asks(self, device: int, readings: Sequence[Kept], at: Tuple[int, int, int], rate: int) -> Iterator[Kept]:
        """Asks on the line of this rate through a reading that is not told. Of two readings that are told, the latest comes first."""
        (ref, counter, _), part = at, gcd(MILLION, rate)
        steps = rate // part, MILLION // part
        for before, after in reversed(list(zip(readings, readings[1:]))):
            first = max(-((ref - before.event.ref) // steps[0]), -((counter - (before.event.counter or 0)) // steps[1]))
            last = min((after.event.ref - ref) // steps[0], ((after.event.counter or 0) - counter) // steps[1])
            if first <= last:
                yield Kept((before.line + after.line) / 2, Event("ask", ref + last * steps[0], device, counter + last * steps[1]))

    # Whether it is right

    def _judge_starts(self, starts: Dict[int, Mark]) -> None:
        refs = [mark.ref for mark in starts.values()]
        if len(starts) < len(self._whole.up):
            raise Refused("a device has not ticked since the root sent")
        if max(refs) - min(refs) > self._whole.topology.tick:
            raise Refused("a member heard long before the others")
        if self._must_be_honest and any(abs(mark.clock - mark.ref) > mark.eps for mark in starts.values()):
            raise Refused("an estimate is wrong by more than its EPS")

    def _judge_alike(self) -> None:
        """Raises Refused where the fleet behind the opening is another one than that at the cut."""
        whole, mine = self._whole, self._fleet
        root = mine.up.get(whole.plan.root)
        alike = root is not None and mine.up.keys() == whole.up.keys() and mine.in_force == len(mine.plans) and not mine.staged
        alike = alike and (mine.failed_devices, mine.failed_links) == (whole.failed_devices, whole.failed_links)
        if not alike or root is None or any(not _are_alike(whole.up[it], state, root) for it, state in mine.up.items()):
            raise Refused("the opening brings back another state")
        spoiled = self._spoiled
        if self._is_exact and "loss" not in self._marks.broken and (spoiled.is_broken or spoiled.open or root.stamp in spoiled.rounds):
            raise Refused("the opening loses too many messages")


def _keep_rate(rates: Rates, readings: Sequence[Kept]) -> bool:
    """Whether each reading keeps the rate of its device with all before it."""
    (ref, counter), *others = ((it.event.ref, it.event.counter or 0) for it in readings)
    drift = Drift(rates, ref, counter)
    return all(drift.read(*other) for other in others)


def _are_alike(one: Device, other: Device, root: Device) -> bool:
    """Whether two devices do and report the same. `root` is that of the other one."""
    moment = (one.sent, other.sent) if other is root else (one.heard, other.heard)
    return (
        moment[0] == moment[1] and other.mode == one.mode and other.sealed and not other.given and other.stamp == root.stamp
        and one.clock - one.counter == other.clock - other.counter
        and MILLION * one.base - one.ppm * one.counter == MILLION * other.base - other.ppm * other.counter
    )
