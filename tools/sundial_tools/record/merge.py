"""One order of the events of several logs: by reference, and among equals by what can come next."""

from __future__ import annotations

import heapq
from typing import Callable, Iterable, Iterator, List, Optional, Tuple

from sundial_tools.record.events import LogEvent
from sundial_tools.record.fleet import Refusal

RANKS = {
    word: rank
    for rank, word in enumerate(
        ("start", "recv", "fix", "tick", "stage", "mend", "join", "give", "commit", "seal", "lose", "ask", "fail", "end")
    )
}
RECEIPT = RANKS["recv"]
Head = Tuple[int, int, int, int, LogEvent]


def _refuse(event: LogEvent, refusal: Refusal) -> None:
    raise event.refuse(refusal)


class Merge:
    """Offers the first events of all logs. Within a log the order of its lines stays.

    Events of one reference are tried by their rank, then by device (receipts by message), then by the order of the
    logs. One that is refused is tried again after each other one.
    """

    def __init__(self, logs: Iterable[Iterable[LogEvent]], message_of: Callable[[LogEvent], int]) -> None:
        self._logs: List[Iterator[LogEvent]] = [iter(log) for log in logs]
        self._message_of = message_of
        self._heads: List[Head] = []
        for place in range(len(self._logs)):
            self._pass_on(place, True)

    def first_reference(self) -> Optional[int]:
        return self._heads[0][0] if self._heads else None

    def drive(
        self, offer: Callable[[LogEvent], Optional[Refusal]], refused: Callable[[LogEvent, Refusal], None] = _refuse
    ) -> None:
        """Offers each event until all are accepted. One that cannot come is given to `refused`, which raises or passes it over."""
        aside: List[Head] = []
        first_refusal = Refusal()
        heads = self._heads
        while heads:
            head = heads[0]
            is_taken = head[1] == RECEIPT and self._is_shared(head)
            if is_taken:
                head = self._least_receipt()
            refusal = offer(head[4])
            if refusal is None:
                self._pass_on(head[3], is_taken)
                if aside:
                    self._put_back(aside)
                continue
            if not is_taken:
                heapq.heappop(heads)
            if not aside:
                first_refusal = refusal
            aside.append(head)
            if not heads or heads[0][0] != head[0]:
                first = aside.pop(0)
                refused(first[-1], first_refusal)
                self._pass_on(first[3], True)
                self._put_back(aside)

    def _put_back(self, aside: List[Head]) -> None:
        for waiting in aside:
            heapq.heappush(self._heads, waiting)
        aside.clear()

    def _pass_on(self, place: int, is_taken: bool) -> None:
        """The next event of a log, in place of its head, which is the first one still or is taken out already."""
        event = next(self._logs[place], None)
        if event is None:
            if not is_taken:
                heapq.heappop(self._heads)
            return
        head = event.ref, RANKS[event.word], event.device, place, event
        if is_taken:
            heapq.heappush(self._heads, head)
        else:
            heapq.heapreplace(self._heads, head)

    def _is_shared(self, head: Head) -> bool:
        """Whether another receipt has the reference of the first head, which is a receipt."""
        heads, first = self._heads, head[:2]
        return len(heads) > 1 and (heads[1][:2] == first or (len(heads) > 2 and heads[2][:2] == first))

    def _least_receipt(self) -> Head:
        """Takes out the receipt with the least message, of those at the first reference."""
        first = self._heads[0][:2]
        same: List[Head] = []
        while self._heads and self._heads[0][:2] == first:
            same.append(heapq.heappop(self._heads))
        numbers = [(self._message_of(one[-1]) or 1 << 62, place) for place, one in enumerate(same)]
        chosen = same.pop(min(numbers)[1])
        for other in same:
            heapq.heappush(self._heads, other)
        return chosen
