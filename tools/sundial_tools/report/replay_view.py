"""What the panels of a replay share: their time, and the devices that have a line."""

from __future__ import annotations

from itertools import zip_longest
from typing import Dict, Iterable, List, Optional, Sequence, Tuple, cast

from sundial_tools.report.replay import Replay
from sundial_tools.report.series import Interval
from sundial_tools.topology import Topology
from sundial_tools.units import few, round_steps, unit_of

LINES = 12
# A panel is so wide in the units of its picture, whatever its width on the screen.
WIDE = 1000.0
# What is left free before the first event and after the last one: this part of the time between them.
EDGE = 120
MOST_TICKS = 8
# A line is dashed where it lies on one of those before it for more than one in so many intervals.
HIDDEN = 10
# Lines that nowhere differ by more than this part of the greatest eps are drawn as one.
LEAST_APART = 200


class ReplayView:
    """The devices that were widest have a line and a colour. Devices whose lines coincide share one."""

    def __init__(self, topology: Topology, replay: Replay, calm: Optional[Dict[int, int]] = None) -> None:
        self.topology, self.replay = topology, replay
        # By device, what no report of it exceeds while nothing has failed, where that is known.
        self.calm, self.reports = calm or {}, replay.reports.kept()
        # (marks and dots at the first and the last event are seen whole)
        edge = max(1, replay.last // EDGE)
        self.first, self.last = -edge, replay.last + edge
        # (of the lines that are drawn, which are dashed, so that those under them are seen)
        self.dashed: List[bool] = []
        self.lines: List[List[int]] = self._lines()
        self.colour: Dict[int, int] = {device: place for place, devices in enumerate(self.lines) for device in devices}

    def _lines(self) -> List[List[int]]:
        apart = max(map(self._peak, self.replay.peaks.of), default=0) / LEAST_APART
        found: List[Tuple[Drawn, List[int]]] = []
        for device in sorted(self.replay.peaks.of):
            drawn = Drawn(self.replay.peaks.of[device])
            same = next((devices for other, devices in found if other.coincides(drawn, apart)), None)
            if same is None:
                found.append((drawn, [device]))
            else:
                same.append(device)
        widest = sorted(found, key=lambda one: (-self._peak(one[1][0]), one[1][0]))[:LINES]
        widest.sort(key=lambda one: one[1])
        self.dashed = [any(drawn.hides(other, apart) for other, _ in widest[:place]) for place, (drawn, _) in enumerate(widest)]
        return [devices for _, devices in widest]

    def _peak(self, device: int) -> int:
        return max((found.peak for found in self.replay.peaks.of[device] if found is not None), default=0)

    def name(self, device: int) -> str:
        return self.topology.devices[device].name

    def names(self, devices: Iterable[int], most: int = 3) -> str:
        return few(list(map(self.name, devices)), most)

    def share(self, ref: float) -> float:
        """Where a time lies in the panels, from 0 to 1."""
        return min(1.0, max(0.0, (ref - self.first) / (self.last - self.first)))

    def x(self, ref: float) -> str:
        """Its place in a picture."""
        return f"{self.share(ref) * WIDE:.2f}".rstrip("0").rstrip(".")

    def middle(self, place: int) -> float:
        """The reference at which an interval of the lines is drawn."""
        begin = self.replay.peaks.first or 0
        return min(self.last, begin + (place + 0.5) * self.replay.peaks.step)

    def ticks(self) -> List[Tuple[float, str]]:
        """Round times for an axis: where, and what stands there."""
        size, unit = unit_of(max(abs(self.first), abs(self.last)))
        steps = round_steps(self.first / size, self.last / size, MOST_TICKS)
        return [(self.share(step * size), f"{step:g} {unit}" if step else "0") for step in steps]


class Drawn:
    """The line of a device as it is drawn: from where to where it goes at each place, and near it; None where it is not known."""

    def __init__(self, intervals: List["Interval | None"]) -> None:
        points = [found or (() if value is None else (value,)) for found, value in zip(intervals, evenly(intervals))]
        self._at = list(map(_span, points))
        self._near = [_span([value for near in points[max(0, place - 1) : place + 2] for value in near]) for place in range(len(points))]

    def coincides(self, other: "Drawn", apart: float) -> bool:
        """Whether the two lines are nowhere further from each other than that."""
        return self._follows(other, apart) and other._follows(self, apart)

    def hides(self, other: "Drawn", apart: float) -> bool:
        """Whether it lies on the other line for a part of it that counts."""
        return sum(at is not None and _lies(at, near, apart) for at, near in zip(self._at, other._near)) * HIDDEN > len(other._near)

    def _follows(self, other: "Drawn", apart: float) -> bool:
        return len(self._at) <= len(other._near) + 1 and all(at is None or _lies(at, near, apart) for at, near in zip(self._at, other._near))


def _span(values: Sequence[float]) -> Optional[Tuple[float, float]]:
    return (min(values), max(values)) if values else None


def _lies(at: Tuple[float, float], near: Optional[Tuple[float, float]], apart: float) -> bool:
    return near is not None and near[0] - apart <= at[0] and at[1] <= near[1] + apart


def evenly(intervals: List["Interval | None"]) -> List[Optional[float]]:
    """The greatest eps in each interval. Between two of its events the eps of a device grows evenly. Before its first
    event and behind its last one it is not known."""
    values: List[Optional[float]] = [None] * len(intervals)
    before: Optional[int] = None
    for place, interval in enumerate(intervals):
        if interval is None:
            continue
        if before is not None:
            begin = cast(Interval, intervals[before]).last
            for between in range(before + 1, place):
                values[between] = begin + (interval.peak - begin) * (between - before) / (place - before)
        values[place] = interval.peak
        before = place
    return values


def greatest(intervals: Iterable[List["Interval | None"]]) -> List[Optional[float]]:
    """The envelope: for each interval of time the greatest eps of all devices."""
    return [
        max((value for value in at_once if value is not None), default=None) for at_once in zip_longest(*map(evenly, intervals))
    ]
