"""Counters that keep to the drift rule, whatever pace one wishes for: docs/RULES.md, Numbers."""

from __future__ import annotations

import random
from typing import Optional, Tuple

from sundial_tools.topology import Device

MILLION, BILLION = 1_000_000, 1_000_000_000
STEADY, FAST, SLOW = "steady", "fast", "slow"


class Clock:
    """The counter of one device. References are asked for in order.

    `pace` says how a steady counter runs: parts in 10**9 by which it is faster than the reference. What one life allows
    is known from two numbers: how far ahead and how far behind its readings were at the least (both times a million).
    """

    def __init__(self, device: Device, kind: str, pace: int, origin: int, drawn: random.Random) -> None:
        self._ppm, self._grain, self._kind, self._pace, self._origin = device.ppm, device.grain, kind, pace, origin
        self._drawn = drawn
        self._ref = self._last = self._ahead = self._behind = 0
        self._alive = False
        self._wrong: Optional[Tuple[int, int, int]] = None

    def begin(self, ref: int) -> int:
        """The counter at a start or a join: no earlier reading counts."""
        self._alive = True
        return self._keep(ref, max(self._last, self._steady(ref)), first=True)

    def at(self, ref: int) -> int:
        """The counter at a reference of this life."""
        if ref == self._ref:
            return self._last
        if self._wrong is not None:
            since, counter, ppm = self._wrong
            return self._keep(ref, max(self._last, counter + (ref - since) * (MILLION + ppm) // MILLION))
        least, most = self._allowed(ref)
        wanted = least if self._kind == SLOW else most if self._kind == FAST else self._steady(ref) + self._jitter()
        return self._keep(ref, min(max(wanted, least), most))

    def go_wrong(self, ref: int, ppm: int) -> None:
        """From here on it runs at this pace, whatever the topology says."""
        self._wrong = ref, self.at(ref) if self._alive else self._steady(ref), ppm

    def _steady(self, ref: int) -> int:
        return self._origin + ref + ref * self._pace // BILLION

    def _jitter(self) -> int:
        return self._drawn.randint(-(self._grain // 4), self._grain // 4)

    def _allowed(self, ref: int) -> Tuple[int, int]:
        """The least and the greatest counter that keep the drift rule with each reading of this life, and do not fall."""
        room = self._grain * MILLION
        most = (ref * MILLION + self._ahead + room) // (MILLION - self._ppm)
        least = -((self._behind + room - ref * MILLION) // (MILLION + self._ppm))
        return max(least, self._last), most

    def _keep(self, ref: int, counter: int, first: bool = False) -> int:
        ahead = counter * (MILLION - self._ppm) - ref * MILLION
        behind = ref * MILLION - counter * (MILLION + self._ppm)
        self._ahead = ahead if first else min(self._ahead, ahead)
        self._behind = behind if first else min(self._behind, behind)
        self._ref, self._last = ref, counter
        return counter
