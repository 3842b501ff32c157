"""The boxes of a drawn plan: one a device where there is room, and else one for subtrees that stand alike.

Hosts fold into their leaf, alike leaves into one box, and alike pods into another, as far as the page needs it. The two roots
and the devices of a refusal are always drawn alone.
"""

from __future__ import annotations

import math
from dataclasses import dataclass, field
from functools import cached_property
from typing import Dict, FrozenSet, Iterator, List, NamedTuple, Tuple

from sundial_tools.plan import Plan
from sundial_tools.tree import Tree

# A row is at most so wide: at the least zoom its middle, where the root is, stays in sight on a narrow page.
WIDE, GAP = 930.0, 18.0
LEAST_MERGED = 3
CELL_WIDTH, CELL_HEIGHT, CHARACTER, BOLD, PADDING, HEAD = 44.0, 28.0, 7.2, 8.2, 8.0, 20.0
# Blocks within a box: what is between them, how high their names are, how wide a letter of them, and all of them at most.
UNIT_GAP, UNIT_HEAD, SMALL, MOST_WIDE = 8.0, 18.0, 6.3, 620.0
# How far apart the squares of a folded box are, by how many devices there are.
SQUARES = ((400, 12.0), (1500, 9.0), (1 << 20, 6.0))
Point = Tuple[float, float]


@dataclass
class Box:
    """Subtrees that are drawn as one, each with its head first, and where. `x` and `y` are the middle.

    A device is a square. Of several subtrees that are more than a device, each is a block with the name of its head.
    """

    number: int
    units: List[List[int]]
    rank: int
    label: str
    square: float
    named: int = 0
    x: float = 0.0
    y: float = 0.0

    @property
    def devices(self) -> List[int]:
        return [device for unit in self.units for device in unit]

    @property
    def is_single(self) -> bool:
        return len(self.units) == 1 and len(self.units[0]) == 1

    @property
    def has_blocks(self) -> bool:
        return len(self.units) > 1 and self._most > 1

    @cached_property
    def _most(self) -> int:
        return max(map(len, self.units))

    @cached_property
    def columns(self) -> int:
        """How many squares are beside each other in a block."""
        if self.has_blocks:
            return max(math.ceil(math.sqrt(2 * self._most)), math.ceil(self.named * SMALL / self.square))
        least = int(len(self.label) * BOLD / self.square)
        return max(least, math.ceil(math.sqrt(len(self.devices)) / 2)) if len(self.units) == 1 else 1

    @property
    def block(self) -> Point:
        """How wide and high a block is, with its name and what is between it and the next."""
        more, head = (UNIT_GAP, UNIT_HEAD) if self.has_blocks else (0.0, 0.0)
        return self.columns * self.square + more, -(-self._most // self.columns) * self.square + head

    @cached_property
    def across(self) -> int:
        """How many blocks are beside each other."""
        wide, high = self.block
        named = math.ceil(len(self.label) * BOLD / wide)
        return min(len(self.units), max(named, min(round(math.sqrt(2.5 * len(self.units) * high / wide)), int(MOST_WIDE / wide))))

    @property
    def width(self) -> float:
        named = max(CELL_WIDTH, len(self.label) * (CHARACTER if self.is_single else BOLD) + 2 * PADDING)
        return named if self.is_single else max(named, self.across * self.block[0] + 2 * PADDING)

    @property
    def height(self) -> float:
        return CELL_HEIGHT if self.is_single else HEAD + -(-len(self.units) // self.across) * self.block[1] + PADDING

    def places(self) -> Iterator[Tuple[int, int, Point]]:
        """Each device with its place within its subtree, and the upper left corner of its square."""
        left, top = self.x - self.width / 2 + PADDING, self.y - self.height / 2 + HEAD + 2
        wide, high = self.block
        for number, unit in enumerate(self.units):
            row, column = divmod(number, self.across)
            for place, device in enumerate(unit):
                down, along = divmod(place, self.columns)
                head = UNIT_HEAD - 4 if self.has_blocks else 0.0
                yield device, place, (left + column * wide + along * self.square, top + row * high + head + down * self.square)


class Edge(NamedTuple):
    """The primary or backup hops of the devices of one box to those of another. `boxes` are its two ends, parent first."""

    kind: str
    boxes: Tuple[int, int]
    parents: Tuple[int, ...]
    devices: Tuple[int, ...]
    links: Tuple[int, ...]


@dataclass
class Drawing:
    """Boxes and edges. `routes` has, by the place of an edge, the points of its Bezier curves."""

    boxes: List[Box]
    edges: List[Edge]
    routes: List[List[Point]] = field(default_factory=list)
    width: float = 0.0
    height: float = 0.0


class Fold(NamedTuple):
    """Subtrees of at most this height are units. Alike siblings among those of at most the height `merged` are one box; where
    it is `loose`, all siblings are."""

    height: int
    merged: int
    loose: bool = False


def draw(tree: Tree, alone: FrozenSet[int] = frozenset()) -> Drawing:
    """The boxes and edges of a plan, folded as little as the page needs, and not yet laid out."""
    folder = _Folder(tree, alone | {tree.plan.root, tree.plan.backup_root} | frozenset(tree.lost))
    boxes: List[Box] = []
    for fold in folder.folds():
        boxes = folder.boxes(fold)
        rows: Dict[int, float] = {}
        for box in boxes:
            rows[box.rank] = rows.get(box.rank, 0.0) + box.width + GAP
        if max(rows.values()) <= WIDE:
            break
    return Drawing(boxes, list(_edges(tree.plan, boxes)))


class _Folder:
    def __init__(self, tree: Tree, alone: FrozenSet[int]) -> None:
        self._tree, self._names = tree, [device.name for device in tree.topology.devices]
        self._square = next(size for most, size in SQUARES if len(tree.members) <= most)
        domains = tree.topology.domains
        self._rack = {device: domain.number for domain in reversed(domains) for device in domain.devices}
        # By device: how high its subtree is, or -1 where one of it is drawn alone; and a number for all that stand alike.
        self._height: Dict[int, int] = {}
        self._shape: Dict[int, int] = {}
        shapes: Dict[Tuple[object, ...], int] = {}
        for device in sorted(tree.members, key=lambda it: -tree.depths[it]):
            below = tree.children.get(device, ())
            heights = [self._height[child] for child in below]
            self._height[device] = -1 if device in alone or -1 in heights else max(heights, default=-1) + 1
            row = tree.plan.rows.get(device)
            key = (row is not None and row.backup is not None, *sorted(self._shape[child] for child in below))
            self._shape[device] = shapes.setdefault(key, len(shapes))

    def folds(self) -> Iterator[Fold]:
        highest = max(0, *self._height.values())
        for height in range(highest + 1):
            yield from (Fold(height, height - 1), Fold(height, height))
        yield Fold(highest, highest, True)

    def boxes(self, fold: Fold) -> List[Box]:
        boxes: List[Box] = []
        waiting = [self._tree.plan.root, *self._tree.lost]
        while waiting:
            device = waiting.pop(0)
            boxes.append(Box(len(boxes), [[device]], self._tree.depths[device], self._names[device], self._square))
            heads: Dict[Tuple[object, ...], List[int]] = {}
            for child in self._tree.children.get(device, ()):
                if 0 <= self._height[child] <= fold.height:
                    heads.setdefault(self._key(child, fold), []).append(child)
                else:
                    waiting.append(child)
            for alike in heads.values():
                for group in [alike] if len(alike) >= LEAST_MERGED else [[it] for it in alike]:
                    boxes.append(self._box(len(boxes), group))
        return boxes

    def _key(self, device: int, fold: Fold) -> Tuple[object, ...]:
        if fold.loose:
            return ()
        row = self._tree.plan.rows[device]
        alike = (self._shape[device], row.backup.parent if row.backup else None)
        return alike if self._height[device] <= fold.merged else (device,)

    def _box(self, number: int, heads: List[int]) -> Box:
        # (devices of one rack stand beside each other)
        heads = sorted(heads, key=lambda it: (self._rack.get(it, len(self._rack)), it))
        units = [self._tree.below(head) for head in heads]
        label = self._names[heads[0]]
        if len(heads) > 1:
            label = f"{label} +{len(heads) - 1}" if len(units[0]) == 1 else f"{len(heads)} alike"
        return Box(number, units, self._tree.depths[heads[0]], label, self._square, max(len(self._names[head]) for head in heads))


def _edges(plan: Plan, boxes: List[Box]) -> Iterator[Edge]:
    box_of = {device: box.number for box in boxes for device in box.devices}
    for kind in "primary", "backup":
        for box in boxes:
            ends: Dict[int, List[Tuple[int, int, int]]] = {}
            for device in box.devices:
                row = plan.rows.get(device)
                hop = None if row is None else row.primary if kind == "primary" else row.backup
                if hop is not None and box_of.get(hop.parent, box.number) != box.number:
                    ends.setdefault(box_of[hop.parent], []).append((hop.parent, device, hop.link))
            for parent, hops in ends.items():
                parents, devices, links = zip(*hops)
                yield Edge(kind, (parent, box.number), tuple(sorted(set(parents))), devices, links)
