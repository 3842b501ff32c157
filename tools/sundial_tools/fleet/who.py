"""Who broke a premise: its devices and links, what the premise allows, and what was seen. docs/PREMISES.md has the rules.

`sundial` says which premise broke, and at which line. This says why, from the events before that line.
"""

from __future__ import annotations

from typing import Callable, Dict, NamedTuple, Optional, Set, Tuple

from sundial_tools.fleet.device import ACTING, MILLION
from sundial_tools.fleet.drift import Drift
from sundial_tools.fleet.fleet import Fleet
from sundial_tools.fleet.spoiled import Spoiled
from sundial_tools.schedule import Event
from sundial_tools.units import few

Thing = Tuple[str, int]
MOST_NAMES = 6


class Cause(NamedTuple):
    """`allowed` and `seen` are picoseconds, or counts of rounds or of domains. The text says which."""

    premise: str
    devices: Tuple[str, ...]
    links: Tuple[str, ...]
    allowed: Optional[int]
    seen: Optional[int]
    text: str


class Watch:
    """Follows the events of a schedule beside a fleet: `before` an event, then `explain`, then `after` it."""

    def __init__(self, fleet: Fleet) -> None:
        self._fleet, self._topology = fleet, fleet.topology
        self._explain: Dict[str, Callable[[Event, int], Cause]] = {
            "start": self._start, "drift": self._drift, "delay": self._delay, "tick": self._tick, "loss": self._loss,
            "domain": self._domain, "renew": self._renew,
        }
        self._drifts: Dict[int, Drift] = {}
        self._alive: Dict[int, Tuple[int, int]] = {}
        self._touched: Set[int] = set()
        self._first: Optional[int] = None
        self._failed: Dict[Thing, int] = {}
        self._spoiled = Spoiled(fleet)
        self._staged_once = self._mended = self._sealed = False
        self._given: Dict[int, int] = {}
        self._joins: Dict[int, int] = {}

    # Beside the fleet

    def before(self, event: Event) -> None:
        """Notes the messages that are overdue with this event."""
        if self._first is None:
            self._first = event.ref
        self._spoiled.before(event)

    def explain(self, premise: str, event: Event, line: int) -> Cause:
        """Why the premise broke with this event, which comes next."""
        return self._explain[premise](event, line)

    def after(self, event: Event, line: int, happened: str) -> None:
        """Keeps what later events are judged by. The fleet has taken the event."""
        word, device = event.word, event.device
        if device is not None and event.counter is not None:
            if word in ("start", "join"):
                self._drifts[device] = Drift(self._topology.devices[device], event.ref, event.counter, line)
            self._drifts[device].read(event.ref, event.counter, line)
            if word in ("start", "join", "tick"):
                self._alive[device] = event.ref, line
        self._spoiled.after(event)
        if word not in ("tick", "ask", "recv"):
            self._after_rare(event, line)
        if happened == "close":
            self._failed.clear()

    def _after_rare(self, event: Event, line: int) -> None:
        word, device = event.word, event.device
        if word in ("start", "join") and device is not None:
            self._touched.add(device)
            if word == "join":
                self._joins[device] = line
        elif word == "give" and device is not None:
            self._given[device] = line
        elif word == "stage":
            self._staged_once, self._mended, self._sealed = True, False, False
            self._given, self._joins = {}, {}
        elif word == "seal":
            self._sealed = True
        elif word in ("fail", "mend") and event.thing is not None and event.number is not None:
            thing = event.thing, event.number
            self._mended = self._mended or word == "mend"
            if word == "fail":
                self._failed.setdefault(thing, line)
                if thing[0] == "device":
                    self._touched.add(thing[1])

    # The premises

    def _cause(
        self, premise: str, devices: "list[int]", links: "list[int]", allowed: Optional[int], seen: Optional[int], text: str
    ) -> Cause:
        return Cause(
            premise, tuple(self._device(one) for one in devices), tuple(self._link(one) for one in links), allowed, seen, text
        )

    def _device(self, number: int) -> str:
        return self._topology.devices[number].name

    def _link(self, number: int) -> str:
        return self._topology.links[number].name

    def _thing(self, thing: Thing) -> str:
        return f"the {thing[0]} {self._device(thing[1]) if thing[0] == 'device' else self._link(thing[1])}"

    def _start(self, event: Event, line: int) -> Cause:
        device, off = event.device or 0, abs((event.clock or 0) - event.ref)
        text = (
            f"{self._device(device)} was set by {event.word} to a clock that is {off:,} ps off its reference, "
            f"and its eps is {event.eps or 0:,} ps"
        )
        return self._cause("start", [device], [], event.eps, off, text)

    def _drift(self, event: Event, line: int) -> Cause:
        device = event.device or 0
        rates = self._topology.devices[device]
        if device not in self._drifts:
            return self._cause("drift", [device], [], None, None, f"the counter of {self._device(device)} breaks the drift rule")
        ref, counter, since = self._drifts[device].worst(event.ref, event.counter or 0)
        counted, passed = (event.counter or 0) - counter, event.ref - ref
        allowed, seen = rates.ppm * counted // MILLION + rates.grain, abs(counted - passed)
        text = (
            f"the counter of {self._device(device)} advanced by {counted:,} ps since line {since}, while {passed:,} ps "
            f"passed: {seen:,} ps apart, and {rates.ppm} ppm with a grain of {rates.grain:,} ps allow {allowed:,} ps"
        )
        return self._cause("drift", [device], [], allowed, seen, text)

    def _delay(self, event: Event, line: int) -> Cause:
        flight = self._fleet.book.get(event.message or 0)
        device = event.device or 0
        if flight is None:
            return self._cause("delay", [device], [], None, None, f"{self._device(device)} received a message of no known sending")
        bounds, age = self._topology.links[flight.link].towards(device), event.ref - flight.sent
        text = (
            f"a message of {self._device(flight.sender)} reached {self._device(device)} over {self._link(flight.link)} after "
            f"{age:,} ps, and the link takes {bounds.min:,} to {bounds.max:,} ps"
        )
        allowed = bounds.max if age > bounds.max else bounds.min
        return self._cause("delay", [flight.sender, device], [flight.link], allowed, age, text)

    def _tick(self, event: Event, line: int) -> Cause:
        fleet, most = self._fleet, self._topology.tick
        plans = [fleet.in_force] + ([fleet.staged] if fleet.staged else [])
        watched = set().union(*(fleet.members[plan - 1] for plan in plans)) & set(fleet.up)
        silent = {one: event.ref - self._alive[one][0] for one in watched if event.ref - self._alive[one][0] > most}
        first = self._first if self._first is not None else event.ref
        missing = [one for one in fleet.members[0] if one not in self._touched] if event.ref - first > most else []
        if silent:
            devices = sorted(silent, key=lambda one: (-silent[one], one))
            seen = silent[devices[0]]
            text = f"{self._names(devices)} did not tick for {seen:,} ps (since line {self._alive[devices[0]][1]}), "
        else:
            devices, seen = sorted(missing), event.ref - first
            text = f"{self._names(devices)} had not started {seen:,} ps after the first event, "
        return self._cause("tick", devices, [], most, seen, text + f"and at most {most:,} ps are allowed")

    def _loss(self, event: Event, line: int) -> Cause:
        allowed = self._topology.loss
        spoiled = self._spoiled.rounds
        rounds = next((run for run in map(self._spoiled.run, reversed(spoiled)) if len(run) > allowed), [])
        flights = [flight for stamp in rounds for flight in spoiled[stamp]]
        links = list(dict.fromkeys(flight.link for flight in flights))
        devices = list(dict.fromkeys(flight.receiver for flight in flights))
        if not rounds:
            return self._cause("loss", [], [], allowed, None, "more rounds in a row were spoiled than are allowed")
        term, first, last = rounds[0][0], rounds[0][1], rounds[-1][1]
        lost = "; ".join(
            f"round {stamp[1]} to {self._names([flight.receiver for flight in spoiled[stamp]])} over "
            f"{self._links([flight.link for flight in spoiled[stamp]])}" for stamp in rounds[:4]
        )
        text = (
            f"{len(rounds)} rounds in a row of term {term} were spoiled, {first} to {last}, and at most {allowed} may be. "
            f"Messages that did not come in time: {lost}"
        )
        return self._cause("loss", devices, links, allowed, len(rounds), text)

    def _domain(self, event: Event, line: int) -> Cause:
        things = dict(self._failed)
        if event.thing is not None and event.number is not None:
            things.setdefault((event.thing, event.number), line)
        devices = [number for kind, number in things if kind == "device"]
        links = [number for kind, number in things if kind == "link"]
        listed = ", ".join(f"{self._thing(thing)} at line {at}" for thing, at in things.items())
        text = f"{len(things)} things failed since the latest closing, and no one domain has them all: {listed}"
        return self._cause("domain", devices, links, 1, None, text)

    def _renew(self, event: Event, line: int) -> Cause:
        device = [] if event.device is None else [event.device]
        if event.word == "start":
            return self._cause("renew", device, [], None, None, f"{self._names(device)} started after a stage")
        if event.word == "join":
            text = f"{self._names(device)} joined, and it is of the plan in force and had neither started nor failed"
            return self._cause("renew", device, [], None, None, text)
        if event.word == "fail":
            thing: Thing = (event.thing or "device", event.number or 0)
            devices, links = ([thing[1]], []) if thing[0] == "device" else ([], [thing[1]])
            after = "a commit" if self._fleet.committed else "a mend"
            return self._cause("renew", devices, links, None, None, f"{self._thing(thing)} failed after {after} of an open window")
        if event.word == "seal":
            return self._early_seal()
        return self._early_commit(event)

    def _early_seal(self) -> Cause:
        fleet = self._fleet
        late = sorted(
            number for number, state in fleet.up.items()
            if number in fleet.members[fleet.staged - 1] and state.epoch != fleet.staged
        )
        text = f"the first seal came before all members had entered the staged plan: {self._names(late)} had not"
        return self._cause("renew", late, [], None, None, text)

    def _early_commit(self, event: Event) -> Cause:
        fleet, device = self._fleet, event.device or 0
        state = fleet.up.get(device)
        if state is None or state.mode != ACTING:
            text = f"{self._device(device)} made the commit, and it did not act as root"
            return self._cause("renew", [device], [], None, None, text)
        plan, members = fleet.plans[fleet.staged - 1], fleet.members[fleet.staged - 1]
        unready = [number for number in sorted(members) if not self._is_ready(number)]
        if unready:
            text = f"the commit came before all members were up, joined where they are new, and given their duty: {self._names(unready)}"
            return self._cause("renew", unready, [], None, None, text)
        links = sorted(fleet.failed_links - set(plan.absent_links))
        if links:
            text = f"the staged plan does not leave out what has failed: {self._links(links)}"
            return self._cause("renew", [], links, None, None, text)
        left = sorted(number for number in fleet.up if number not in members)
        text = f"devices that the staged plan leaves out are up and still joined to its root: {self._names(left)}"
        return self._cause("renew", left, [], None, None, text)

    def _is_ready(self, number: int) -> bool:
        if number not in self._fleet.up or number not in self._given:
            return False
        if number in self._joins:
            return self._given[number] > self._joins[number]
        return number in self._fleet.members[self._fleet.in_force - 1]

    def _names(self, devices: "list[int]") -> str:
        return few([self._device(number) for number in dict.fromkeys(devices)], MOST_NAMES)

    def _links(self, links: "list[int]") -> str:
        return few([self._link(number) for number in dict.fromkeys(links)], MOST_NAMES)
