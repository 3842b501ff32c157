"""The messages that are on their way."""

from __future__ import annotations

import heapq
from typing import Dict, Iterator, List, NamedTuple, Optional, Tuple

Key = Tuple[int, int, int, Tuple[int, int]]
# Later than each reference.
NEVER = 1 << 200


class Flight(NamedTuple):
    """A message that reaches. `sent` is the reference of its sending, `due` and `last` those until when it comes in
    time, and until when it can be received at all. Times are picoseconds."""

    last: int
    number: int
    sender: int
    receiver: int
    link: int
    epoch: int
    stamp: Tuple[int, int]
    clock: int
    eps: int
    sent: int
    due: int

    @property
    def key(self) -> Key:
        """How logs name it."""
        return self.receiver, self.link, self.epoch, self.stamp


class Book:
    """Keeps flights until they are spent. What it holds grows with what is on its way alone."""

    # No message that it holds has its last moment before this one. (a book of an earlier run may not know yet)
    earliest = 0

    def __init__(self) -> None:
        self._flights: Dict[int, Flight] = {}
        self._by_key: Dict[Key, List[int]] = {}
        self._by_last: List[Tuple[int, int]] = []
        self.earliest = NEVER

    def __len__(self) -> int:
        return len(self._flights)

    def add(self, flight: Flight) -> None:
        number = flight.number
        self._flights[number] = flight
        self._by_key.setdefault((flight.receiver, flight.link, flight.epoch, flight.stamp), []).append(number)
        heapq.heappush(self._by_last, (flight.last, number))
        if flight.last < self.earliest:
            self.earliest = flight.last

    def find(self, key: Key) -> Optional[int]:
        """The number of the message, the greatest where there are several."""
        numbers = self._by_key.get(key)
        return numbers[-1] if numbers else None

    def get(self, number: int) -> Optional[Flight]:
        return self._flights.get(number)

    def spend(self, number: int) -> Optional[Flight]:
        """Takes a message out, where it is on its way."""
        flight = self._flights.pop(number, None)
        if flight is not None:
            key = (flight.receiver, flight.link, flight.epoch, flight.stamp)
            numbers = self._by_key[key]
            if len(numbers) == 1:
                del self._by_key[key]
            else:
                numbers.remove(number)
        return flight

    def has_expired(self, ref: int) -> bool:
        """Whether the first of all last moments is before `ref`, be it of a message that is on its way or not."""
        return self.earliest < ref

    def is_busy(self, ref: int) -> bool:
        """Whether a message is on its way that can still be received at `ref`."""
        return any(flight.last >= ref for flight in self._flights.values())

    def expired(self, ref: int) -> Iterator[Flight]:
        """Takes out each flight whose last moment is before `ref`, in order."""
        while self._by_last and self._by_last[0][0] < ref:
            number = heapq.heappop(self._by_last)[1]
            self.earliest = self._by_last[0][0] if self._by_last else NEVER
            if number in self._flights:
                flight = self.spend(number)
                if flight is not None:
                    yield flight
        self.earliest = self._by_last[0][0] if self._by_last else NEVER

    def sweep(self, thing: str, number: int) -> None:
        """Spends what is on its way to a device or over a link that fails."""
        for flight in list(self._flights.values()):
            if number == (flight.receiver if thing == "device" else flight.link):
                self.spend(flight.number)
