"""Which readings of a device keep its rate: docs/PREMISES.md, drift."""

from __future__ import annotations

from typing import Tuple

from sundial_tools.fleet.device import MILLION
from sundial_tools.topology import Device


class Drift:
    """The readings of a device since its start that a later one must keep its rate with: those with the two least offsets.

    `fast` is least where the counter was slowest so far, `slow` where it was fastest. `rates` are 10^6 less ppm, and more.
    A reading has its line where that is said.
    """

    __slots__ = ("rates", "_grain", "fast", "fast_at", "slow", "slow_at")

    def __init__(self, rates: Device, ref: int, counter: int, line: int = 0) -> None:
        self.rates, self._grain = (MILLION - rates.ppm, MILLION + rates.ppm), MILLION * rates.grain
        self.fast, self.slow = self.rates[0] * counter - MILLION * ref, MILLION * ref - self.rates[1] * counter
        self.fast_at = self.slow_at = ref, counter, line

    def read(self, ref: int, counter: int, line: int = 0) -> bool:
        """Takes a reading. Answers whether it keeps the rate with all before it."""
        fast, slow = self.rates[0] * counter - MILLION * ref, MILLION * ref - self.rates[1] * counter
        keeps = fast <= self.fast + self._grain and slow <= self.slow + self._grain
        if fast <= self.fast:
            self.fast, self.fast_at = fast, (ref, counter, line)
        if slow <= self.slow:
            self.slow, self.slow_at = slow, (ref, counter, line)
        return keeps

    def hull(self, counter: int) -> Tuple[int, int]:
        """The first and the last reference at which a reading of this counter lowers neither offset."""
        return -((-self.slow - self.rates[1] * counter) // MILLION), (self.rates[0] * counter - self.fast) // MILLION

    def worst(self, ref: int, counter: int) -> Tuple[int, int, int]:
        """The earlier reading against which this one is furthest off."""
        fast, slow = self.rates[0] * counter - MILLION * ref, MILLION * ref - self.rates[1] * counter
        return self.fast_at if fast - self.fast >= slow - self.slow else self.slow_at
