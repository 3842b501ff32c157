"""Where the boxes of a drawn plan are, and how its hops go between them: one row a rank, and no hop goes behind a box."""

from __future__ import annotations

from typing import Dict, List, Tuple

from sundial_tools.report.fold import GAP, Box, Drawing, Edge, Point

RANK_GAP, MARGIN = 64.0, 14.0
# How far a curve between two boxes of one rank goes below them, how much further on each level, and at most.
SAG, LEVEL, MOST_SAG = 16.0, 12.0, 260.0
# Over how much of the side of a box its hops are spread, and how far from the middle of a gap between two boxes hops go down.
SPREAD, LANES = 0.9, (0.0, -4.0, 4.0, -7.0, 7.0)


def lay_out(drawing: Drawing) -> None:
    """Gives each box its place and each edge its route.

    Boxes of a row are at its top. Hops between two of them go below it, each on a level of its own. Hops over several rows
    go down between the boxes of those in the middle.
    """
    _Rows(drawing).lay_out()


class _Rows:
    def __init__(self, drawing: Drawing) -> None:
        self._drawing = drawing
        self._ranks: Dict[int, List[Box]] = {}
        for box in drawing.boxes:
            self._ranks.setdefault(box.rank, []).append(box)
        # By rank, where its boxes begin and where the lowest of them ends.
        self._tops: Dict[int, float] = {}
        self._floors: Dict[int, float] = {}
        self._levels: Dict[int, int] = {}
        self._lanes: Dict[Tuple[int, float], int] = {}

    def lay_out(self) -> None:
        drawing, top = self._drawing, MARGIN
        above = {edge.boxes[1]: drawing.boxes[edge.boxes[0]] for edge in drawing.edges if edge.kind == "primary"}
        widest = max(map(_row_width, self._ranks.values()))
        for rank in sorted(self._ranks):
            followed = [above[box.number].x for box in self._ranks[rank] if box.number in above]
            middle = sum(followed) / len(followed) if followed else MARGIN + widest / 2
            row = sorted(self._ranks[rank], key=lambda box: (above[box.number].x if box.number in above else 0.0, box.devices[0]))
            left = max(MARGIN, min(MARGIN + widest - _row_width(row), middle - _row_width(row) / 2))
            height = max(box.height for box in row)
            for box in row:
                box.x, box.y = left + (box.width + GAP) / 2, top + box.height / 2
                left += box.width + GAP
            self._ranks[rank], self._tops[rank], self._floors[rank] = row, top, top + height
            deepest = self._set_levels(rank)
            drawing.width, drawing.height = widest + 2 * MARGIN, top + height + MARGIN + deepest
            top += height + max(RANK_GAP, deepest + RANK_GAP * 0.7)
        ports = self._ports()
        drawing.routes = [
            self._below(edge, self._levels[place]) if place in self._levels else self._between(edge, ports[place, 0], ports[place, 1])
            for place, edge in enumerate(drawing.edges)
        ]

    def _ends(self, edge: Edge) -> Tuple[Box, Box]:
        parent, child = (self._drawing.boxes[number] for number in edge.boxes)
        return parent, child

    def _set_levels(self, rank: int) -> float:
        """Gives each hop within a rank the least level on which it meets no other, short ones first. Answers their depth."""
        ends = [(place, *self._ends(edge)) for place, edge in enumerate(self._drawing.edges)]
        spans = [(min(one.x, two.x), max(one.x, two.x), place) for place, one, two in ends if one.rank == rank == two.rank]
        taken: List[List[Tuple[float, float]]] = []
        for left, right, place in sorted(spans, key=lambda span: (span[1] - span[0], span)):
            free = (level for level, on in enumerate(taken) if all(end < left or right < begin for begin, end in on))
            level = self._levels[place] = next(free, len(taken))
            taken += [[]] if level == len(taken) else []
            taken[level].append((left, right))
        return _sag(len(taken) - 1) if taken else 0.0

    def _ports(self) -> Dict[Tuple[int, int], float]:
        """Where a hop between two ranks leaves the side of its parent (0) and of its child (1): spread over the side, in the
        order of where they lead, so that none hides another."""
        sides: Dict[Tuple[int, bool], List[Tuple[float, int, int]]] = {}
        for place, edge in enumerate(self._drawing.edges):
            parent, child = self._ends(edge)
            if parent.rank != child.rank:
                is_below = parent.rank < child.rank
                sides.setdefault((parent.number, is_below), []).append((child.x, place, 0))
                sides.setdefault((child.number, not is_below), []).append((parent.x, place, 1))
        ports: Dict[Tuple[int, int], float] = {}
        for (number, _), ends in sides.items():
            box = self._drawing.boxes[number]
            for order, (_, place, end) in enumerate(sorted(ends), 1):
                ports[place, end] = box.x + box.width * SPREAD * (order / (len(ends) + 1) - 0.5)
        return ports

    def _below(self, edge: Edge, level: int) -> List[Point]:
        """A Bezier curve below two boxes of one rank. Its lowest point is at three quarters of its handles."""
        parent, child = self._ends(edge)
        towards = 1.0 if parent.x < child.x else -1.0
        floor, sag = self._floors[parent.rank], _sag(level) * 4 / 3
        begin, end = parent.x + towards * 10, child.x - towards * 10
        curve = [(begin, floor), (begin + towards * 6, floor + sag), (end - towards * 6, floor + sag), (end, floor)]
        return _down(parent, begin, floor) + curve + _down(child, end, floor)[::-1]

    def _between(self, edge: Edge, begin: float, end: float) -> List[Point]:
        """From the lower side of the upper box to the upper side of the lower one, given from parent to child."""
        parent, child = self._ends(edge)
        return self._fall(parent, begin, child, end) if parent.rank < child.rank else self._fall(child, end, parent, begin)[::-1]

    def _fall(self, upper: Box, begin: float, lower: Box, end: float) -> List[Point]:
        """Curves between the rows, and straight lines down between the boxes of the rows that it passes."""
        x, floor = begin, self._floors[upper.rank]
        points = [*_down(upper, begin, floor), (begin, floor)]
        between = [rank for rank in sorted(self._ranks) if upper.rank < rank < lower.rank]
        for rank in between:
            lane = self._lane(rank, x + (end - x) * (rank - upper.rank) / (lower.rank - upper.rank))
            points += [*_curve((x, floor), (lane, self._tops[rank])), *[(lane, self._floors[rank])] * 3]
            x, floor = lane, self._floors[rank]
        return points + _curve((x, floor), (end, lower.y - lower.height / 2))

    def _lane(self, rank: int, x: float) -> float:
        """The gap of a row that is nearest to a place. Hops in one gap are beside each other."""
        row = self._ranks[rank]
        gaps = [row[0].x - (row[0].width + GAP) / 2, *(box.x + (box.width + GAP) / 2 for box in row)]
        gap = min(gaps, key=lambda place: abs(place - x))
        taken = self._lanes[rank, gap] = self._lanes.get((rank, gap), -1) + 1
        return gap + LANES[taken % len(LANES)]


def _sag(level: int) -> float:
    return min(SAG + LEVEL * level, MOST_SAG)


def _row_width(row: List[Box]) -> float:
    return sum(box.width + GAP for box in row)


def _curve(begin: Point, end: Point) -> List[Point]:
    """A curve that leaves and arrives straight down; without its first point."""
    bend = (end[1] - begin[1]) / 2
    return [(begin[0], begin[1] + bend), (end[0], end[1] - bend), end]


def _down(box: Box, x: float, floor: float) -> List[Point]:
    """What goes before a curve that begins at the floor of a row: straight down from a box that is lower than its row."""
    bottom = box.y + box.height / 2
    return [(x, bottom), (x, bottom), (x, floor)] if bottom < floor else []
