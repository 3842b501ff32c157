"""Numbers over time in flat memory: the greatest of each interval, thinned reports, and percentiles."""

from __future__ import annotations

from collections import Counter
from typing import Dict, List, NamedTuple, Optional

from sundial_tools.fleet.lineage import Lineage

MOST_INTERVALS = 360
MOST_REPORTS = 3000
MOST_VALUES = 4096
DIGITS = 3


class Interval(NamedTuple):
    """The greatest value of an interval of time, and the one with which it ended."""

    peak: int
    last: int


class Peaks:
    """For each device what it had in each of up to 360 intervals of equal length; None where nothing happened."""

    def __init__(self) -> None:
        self.first: Optional[int] = None
        self.step = 1
        self.of: Dict[int, List[Optional[Interval]]] = {}

    def add(self, device: int, ref: int, before: int, after: int) -> None:
        """An event at `ref` found the value `before`, and left it at `after`."""
        if self.first is None:
            self.first = ref
        while (ref - self.first) // self.step >= MOST_INTERVALS:
            self._halve()
        place, intervals = (ref - self.first) // self.step, self.of.setdefault(device, [])
        if place >= len(intervals):
            intervals.extend([None] * (place + 1 - len(intervals)))
        known = intervals[place]
        peak = before if before > after else after
        # (made as a tuple, since the call of the class takes twice the time)
        intervals[place] = tuple.__new__(Interval, (peak if known is None or peak > known.peak else known.peak, after))

    def _halve(self) -> None:
        self.step *= 2
        for device, intervals in self.of.items():
            pairs = zip(intervals[::2], intervals[1::2] + [None] * (len(intervals) % 2))
            self.of[device] = [_joined(*pair) for pair in pairs]


def _joined(first: Optional[Interval], second: Optional[Interval]) -> Optional[Interval]:
    if first is None or second is None:
        return first or second
    return Interval(max(first.peak, second.peak), second.last)


class Report(NamedTuple):
    """A printed report: the line and the time of its ask, what the device said, both in picoseconds from the first event, and
    on what it rests."""

    line: int
    device: int
    ref: int
    clock: int
    eps: int
    lineage: Optional[Lineage] = None

    @property
    def off(self) -> int:
        return self.clock - self.ref

    @property
    def is_wrong(self) -> bool:
        return abs(self.off) > self.eps


class Reports:
    """The reports of each device. Past 3000 in all, of two neighbours the one with the greater eps is kept."""

    def __init__(self) -> None:
        self.of: Dict[int, List[Report]] = {}
        self.count = self._kept = 0

    def add(self, report: Report) -> None:
        self.of.setdefault(report.device, []).append(report)
        self.count += 1
        self._kept += 1
        if self._kept > 2 * MOST_REPORTS:
            self._halve()

    def kept(self) -> List[Report]:
        if self._kept > MOST_REPORTS:
            self._halve()
        return sorted((report for reports in self.of.values() for report in reports), key=lambda report: report.line)

    def _halve(self) -> None:
        before = self._kept
        for device, reports in self.of.items():
            pairs = (reports[place : place + 2] for place in range(0, len(reports), 2))
            self.of[device] = [max(pair, key=lambda report: (report.is_wrong, report.eps)) for pair in pairs]
        kept = sum(map(len, self.of.values()))
        # (one report a device is kept in any case)
        self._kept = kept if kept < before else 0


class Percentiles:
    """The values of one device. Past 4096 different ones they are rounded up to three digits."""

    def __init__(self) -> None:
        self._counts: Counter[int] = Counter()
        self.count, self.is_rounded = 0, False
        self.least: Optional[int] = None
        self.most = 0

    def add(self, value: int) -> None:
        self.count += 1
        self.least = value if self.least is None else min(self.least, value)
        self.most = max(self.most, value)
        self._counts[_rounded(value) if self.is_rounded else value] += 1
        if not self.is_rounded and len(self._counts) > MOST_VALUES:
            self.is_rounded, exact, self._counts = True, self._counts, Counter()
            for known, count in exact.items():
                self._counts[_rounded(known)] += count

    def at(self, percent: int) -> int:
        """The least value that this part of all values does not exceed."""
        wanted, seen = -(-self.count * percent // 100), 0
        for value in sorted(self._counts):
            seen += self._counts[value]
            if seen >= wanted:
                return min(value, self.most)
        return self.most


def _rounded(value: int) -> int:
    size: int = 10 ** max(0, len(str(value)) - DIGITS)
    return -(-value // size) * size
