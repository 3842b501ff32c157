"""The lineage of a report: which clocks and which links its interval rests on. man/sundial-lines.5 has the words.

The report contains its reference where its own lineage is honest: the clock that was set, from which its estimate
descends, was within its eps; each device that held the estimate kept its drift meanwhile; and each message that carried
it kept the bounds of its link. What else is wrong in the fabric does not touch it (`lineage_contains`, docs/PROVED.md).
"""

from __future__ import annotations

from typing import Dict, List, NamedTuple, Optional, Tuple, Union

from sundial_tools.fleet.book import Flight
from sundial_tools.fleet.device import MILLION
from sundial_tools.fleet.fleet import Fleet
from sundial_tools.schedule import Event
from sundial_tools.topology import Topology

# So many lineages of messages are kept beside those that are on their way.
MOST_SPARE = 1024


class Reading(NamedTuple):
    """A counter that was read: at which line, and at which reference."""

    line: int
    ref: int
    counter: int


class Set(NamedTuple):
    """A start, a join or a fix set the clock of the device."""

    word: str
    device: int
    line: int
    ref: int
    clock: int
    eps: int


class Held(NamedTuple):
    """The device held the estimate from one reading to another, and then sent or reported it."""

    device: int
    begin: Reading
    end: Reading


class Came(NamedTuple):
    """The estimate came with a message, which was received at the line."""

    flight: Flight
    line: int
    ref: int


Part = Union[Set, Held, Came]


class Lineage(NamedTuple):
    """The latest part, and the lineage before it. Lineages share what they have in common."""

    part: Part
    before: "Optional[Lineage]"

    def parts(self) -> List[Part]:
        """All parts, from the clock that was set to the report."""
        found: List[Part] = []
        here: Optional[Lineage] = self
        while here is not None:
            found.append(here.part)
            here = here.before
        return found[::-1]


class Lineages:
    """Follows the accepted events beside a fleet: `after` each of them, as soon as the fleet has taken it."""

    def __init__(self, fleet: Fleet) -> None:
        self._fleet = fleet
        # How the estimate of a device descends, and at which reading it was set.
        self._of_device: Dict[int, Tuple[Reading, Lineage]] = {}
        # Where what a message carries came from, by its number.
        self._of_flight: Dict[int, Lineage] = {}

    def after(self, event: Event, line: int, happened: str) -> None:
        """`happened` is what the fleet answered. A tick, an ask or a receipt with an empty answer may be left out."""
        word, device, counter = event.word, event.device, event.counter
        if device is None or counter is None:
            return
        if word in ("start", "join", "fix"):
            part = Set(word, device, line, event.ref, event.clock or 0, event.eps or 0)
            self._of_device[device] = Reading(line, event.ref, counter), Lineage(part, None)
        elif word == "recv":
            self._receive(device, Reading(line, event.ref, counter), bool(happened))
        elif word == "tick" and self._fleet.sent_now:
            self._keep(self.held(device, Reading(line, event.ref, counter)))

    def held(self, device: int, end: Reading) -> Optional[Lineage]:
        """The lineage of what the device sends of itself, or reports, at a reading."""
        known = self._of_device.get(device)
        return None if known is None else Lineage(Held(device, known[0], end), known[1])

    def _receive(self, device: int, reading: Reading, is_accepted: bool) -> None:
        flight = self._fleet.received
        if flight is None:
            return
        before = self._of_flight.pop(flight.number, None)
        if is_accepted and before is not None:
            lineage = Lineage(Came(flight, reading.line, reading.ref), before)
            self._of_device[device] = reading, lineage
            # (a relay sends what it has just set, in the same event: its oscillator is no part of the lineage)
            self._keep(lineage)

    def _keep(self, lineage: Optional[Lineage]) -> None:
        if lineage is None:
            return
        for flight in self._fleet.sent_now:
            self._of_flight[flight.number] = lineage
        book = self._fleet.book
        if len(self._of_flight) > 2 * len(book) + MOST_SPARE:
            self._of_flight = {number: kept for number, kept in self._of_flight.items() if book.get(number) is not None}


class Judged(NamedTuple):
    """A part with what it allows and what was seen, in picoseconds: of a delay `least` to `allowed`, else 0 to `allowed`."""

    part: Part
    least: int
    allowed: int
    seen: int
    is_honest: bool


class Told:
    """A lineage in names, judged part by part."""

    def __init__(self, topology: Topology, lineage: Lineage) -> None:
        self._topology = topology
        self.judged = [self._judge(part) for part in lineage.parts()]

    @property
    def is_honest(self) -> bool:
        return all(one.is_honest for one in self.judged)

    @property
    def devices(self) -> List[str]:
        """The devices whose clocks have to be honest, in the order of the lineage."""
        return list(dict.fromkeys(self.device(one.part.device) for one in self.judged if not isinstance(one.part, Came)))

    @property
    def links(self) -> List[str]:
        return list(dict.fromkeys(self.link(one.part.flight) for one in self.judged if isinstance(one.part, Came)))

    def texts(self) -> List[str]:
        """Each part in words. One that is not honest says so."""
        return [self._text(one) + ("" if one.is_honest else ": not honest") for one in self.judged]

    def text(self) -> str:
        return "; ".join(self.texts())

    def unsound(self) -> str:
        """The parts that are not honest, in words."""
        return "; ".join(self._text(one) for one in self.judged if not one.is_honest)

    def device(self, number: int) -> str:
        return self._topology.devices[number].name

    def link(self, flight: Flight) -> str:
        return self._topology.links[flight.link].name

    def _judge(self, part: Part) -> Judged:
        if isinstance(part, Set):
            off = abs(part.clock - part.ref)
            return Judged(part, 0, part.eps, off, off <= part.eps)
        if isinstance(part, Came):
            bounds, age = self._topology.links[part.flight.link].towards(part.flight.receiver), part.ref - part.flight.sent
            return Judged(part, bounds.min, bounds.max, age, bounds.min <= age <= bounds.max)
        rates = self._topology.devices[part.device]
        counted, passed = part.end.counter - part.begin.counter, part.end.ref - part.begin.ref
        # (a whole number is at most this where the drift rule is kept)
        allowed = rates.ppm * counted // MILLION + rates.grain
        return Judged(part, 0, allowed, abs(counted - passed), abs(counted - passed) <= allowed)

    def _text(self, one: Judged) -> str:
        part = one.part
        if isinstance(part, Set):
            return f"line {part.line}: {part.word} set {self.device(part.device)} {one.seen:,} ps off, with an eps of {one.allowed:,} ps"
        if isinstance(part, Came):
            return (
                f"line {part.line}: over {self.link(part.flight)} to {self.device(part.flight.receiver)} in {one.seen:,} ps, "
                f"and the link takes {one.least:,} to {one.allowed:,} ps"
            )
        return (
            f"line {part.end.line}: {self.device(part.device)} held it for {part.end.counter - part.begin.counter:,} ps since line "
            f"{part.begin.line}, its counter {one.seen:,} ps off, and its drift allows {one.allowed:,} ps"
        )
