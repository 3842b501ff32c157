"""Pairs syncs with delay requests: each request with the sync before it or behind it, whichever was held shorter.

sync, then request: the time transmitter begins, and the receiver holds from the arrival of the sync on.
request, then sync: the receiver begins, and the time transmitter holds from the arrival of the request on.
"""

from __future__ import annotations

from collections import deque
from typing import Callable, Deque, Dict, Iterable, Iterator, NamedTuple, Optional, Tuple

from sundial_tools.exchanges.exchange import Exchange, LeftOut
from sundial_tools.exchanges.ptp_events import DelayRequest, PtpEvent, Sync

# How many syncs are kept, and how many events a request waits for the sync behind it.
MOST_WAITING = 64
ONE_NANOSECOND = 1 << 16


class Port(NamedTuple):
    """The devices at the two ends of a link, by number: who sends syncs, and who receives them."""

    transmitter: int
    receiver: int


class Pairing:
    """The pairs of one peer, one event after the other. Memory is flat."""

    def __init__(self, port: Port, left_out: LeftOut) -> None:
        self._port, self._left_out = port, left_out
        self._syncs: Deque[Sync] = deque(maxlen=MOST_WAITING)
        self._requests: Deque[DelayRequest] = deque()
        self._sequences: Dict[type, int] = {}
        self._used: Deque[int] = deque(maxlen=MOST_WAITING)
        self.used_syncs = 0

    def take(self, event: PtpEvent) -> Iterator[Exchange]:
        if not self._fits(event):
            return
        if isinstance(event, Sync):
            self._syncs.append(event)
        else:
            self._requests.append(event)
        while self._requests and (self._has_later_sync(self._requests[0]) or len(self._requests) > MOST_WAITING):
            yield from self._pair(self._requests.popleft())

    def end(self) -> Iterator[Exchange]:
        while self._requests:
            yield from self._pair(self._requests.popleft())

    def _fits(self, event: PtpEvent) -> bool:
        if abs(event.correction) >= ONE_NANOSECOND:
            self._left_out.add("a transparent clock stood between, and corrected it", event.line)
            return False
        if self._sequences.get(type(event)) == event.sequence:
            self._left_out.add("the same message again", event.line)
            return False
        self._sequences[type(event)] = event.sequence
        return True

    def _has_later_sync(self, request: DelayRequest) -> bool:
        return bool(self._syncs) and self._syncs[-1].sent >= request.arrived

    def _pair(self, request: DelayRequest) -> Iterator[Exchange]:
        pairs = [pair for pair in (self._behind_sync(request), self._before_sync(request)) if pair is not None]
        if not pairs:
            self._left_out.add("a delay request without a sync near it", request.line)
            return
        exchange, sync = min(pairs, key=lambda pair: pair[0].hold)
        if sync.line not in self._used:
            self._used.append(sync.line)
            self.used_syncs += 1
        yield exchange

    def _behind_sync(self, request: DelayRequest) -> Optional[Tuple[Exchange, Sync]]:
        before = [sync for sync in self._syncs if sync.arrived <= request.sent and sync.sent <= request.arrived]
        if not before:
            return None
        sync = max(before, key=lambda sync: sync.arrived)
        times = (sync.sent, sync.arrived, request.sent, request.arrived)
        return Exchange(request.line, self._port.transmitter, *times), sync

    def _before_sync(self, request: DelayRequest) -> Optional[Tuple[Exchange, Sync]]:
        behind = [sync for sync in self._syncs if sync.sent >= request.arrived and sync.arrived >= request.sent]
        if not behind:
            return None
        sync = min(behind, key=lambda sync: sync.sent)
        times = (request.sent, request.arrived, sync.sent, sync.arrived)
        return Exchange(request.line, self._port.receiver, *times), sync


class Pairings:
    """The pairs of all peers, and the counts of what came. `port_of` names the port of a peer, or None."""

    def __init__(self, port_of: Callable[[str, int], Optional[Port]], left_out: LeftOut) -> None:
        self._port_of, self._left_out = port_of, left_out
        self._of: Dict[str, Pairing] = {}
        self.syncs = self.requests = 0

    def pairs(self, events: Iterable[PtpEvent]) -> Iterator[Tuple[str, Exchange]]:
        """The exchanges, each with its peer."""
        for event in events:
            self.syncs += isinstance(event, Sync)
            self.requests += isinstance(event, DelayRequest)
            pairing = self._pairing(event)
            if pairing is not None:
                for exchange in pairing.take(event):
                    yield event.peer, exchange
        for peer, pairing in self._of.items():
            for exchange in pairing.end():
                yield peer, exchange

    def _pairing(self, event: PtpEvent) -> Optional[Pairing]:
        if event.peer not in self._of:
            port = self._port_of(event.peer, event.line)
            if port is None:
                self._left_out.add(f"from {event.peer}, for which no --peer names a link", event.line)
                return None
            self._of[event.peer] = Pairing(port, self._left_out)
        return self._of[event.peer]

    @property
    def used_syncs(self) -> int:
        return sum(pairing.used_syncs for pairing in self._of.values())
