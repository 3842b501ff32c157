"""Which rounds are spoiled: docs/PREMISES.md, loss."""

from __future__ import annotations

import heapq
from typing import Dict, List, Tuple

from sundial_tools.fleet.book import Flight
from sundial_tools.fleet.fleet import Fleet
from sundial_tools.schedule import Event

Stamp = Tuple[int, int]
# Spoiled rounds that are remembered: more than *loss* can be.
MOST_ROUNDS = 256


class Spoiled:
    """Is told each event `before` it and `after` it. It knows of the messages that were sent since the first event that it was told."""

    def __init__(self, fleet: Fleet) -> None:
        self._fleet = fleet
        # What was sent and not received, and not judged yet.
        self.open: Dict[int, Flight] = {}
        self._by_due: List[Tuple[int, int]] = []
        # The messages that spoiled each of the latest rounds.
        self.rounds: Dict[Stamp, List[Flight]] = {}
        # More were spoiled in a row than *loss* allows.
        self.is_broken = False

    def before(self, event: Event) -> None:
        """Judges the messages that are overdue with this event."""
        if event.word == "fail":
            for flight in list(self.open.values()):
                if event.number in ((flight.sender, flight.receiver) if event.thing == "device" else (flight.link,)):
                    del self.open[flight.number]
        elif event.word == "recv" and event.message is not None:
            self.open.pop(event.message, None)
        while self._by_due and self._by_due[0][0] < event.ref:
            late = self.open.pop(heapq.heappop(self._by_due)[1], None)
            if late is not None:
                self._spoil(late)

    def after(self, event: Event) -> None:
        # (a loss that no log has comes between two events, and sends nothing)
        for flight in self._fleet.sent_now if event.word != "lose" else ():
            self.open[flight.number] = flight
            heapq.heappush(self._by_due, (flight.due, flight.number))

    def run(self, stamp: Stamp) -> List[Stamp]:
        """The spoiled rounds in a row around this one."""
        term, first = stamp
        while (term, first - 1) in self.rounds:
            first -= 1
        last = first
        while (term, last) in self.rounds:
            last += 1
        return [(term, number) for number in range(first, last)]

    def _spoil(self, flight: Flight) -> None:
        self.rounds.setdefault(flight.stamp, []).append(flight)
        self.is_broken |= len(self.run(flight.stamp)) > self._fleet.topology.loss
        while len(self.rounds) > MOST_ROUNDS:
            del self.rounds[next(iter(self.rounds))]
