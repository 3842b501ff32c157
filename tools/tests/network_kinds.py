"""Small and middling networks of many kinds, to decide whether they have a plan: all small graphs, and networks drawn by a seed."""

from __future__ import annotations

import itertools
from random import Random
from typing import Callable, Dict, FrozenSet, Iterator, List, NamedTuple, Set, Tuple

from decided import Group, Network, Pair

DEEP = 64
Graph = FrozenSet[Pair]


# All connected graphs, one of each shape.


def connected_graphs(most: int) -> Iterator[Tuple[int, Graph]]:
    """Those of 2 to `most` devices. One of them without its last device is connected, too, for each shape."""
    shapes: Set[Graph] = {frozenset([(0, 1)])}
    for count in range(2, most + 1):
        yield from ((count, shape) for shape in sorted(shapes, key=sorted))
        grown = (_with_device(shape, count, near) for shape in shapes for near in _subsets(count))
        shapes = {_first_shape(graph, count + 1) for graph in grown} if count < most else set()


def _subsets(count: int) -> Iterator[Tuple[int, ...]]:
    return itertools.chain.from_iterable(itertools.combinations(range(count), size) for size in range(1, count + 1))


def _with_device(graph: Graph, count: int, near: Tuple[int, ...]) -> Graph:
    return graph | {(it, count) for it in near}


def _first_shape(graph: Graph, count: int) -> Graph:
    """The least of the graphs that are this one with other numbers, of those that keep the order of the devices' marks."""
    near: List[Set[int]] = [set() for _ in range(count)]
    for one, other in graph:
        near[one].add(other)
        near[other].add(one)
    marks: List[Tuple[object, ...]] = [()] * count
    for _ in range(3):
        marks = _ranked([(marks[it], *sorted(marks[other] for other in near[it])) for it in range(count)])
    classes = [[it for it in range(count) if marks[it] == mark] for mark in sorted(set(marks))]
    orders = itertools.product(*map(itertools.permutations, classes))
    return frozenset(min(sorted(_numbered(graph, list(itertools.chain(*order)))) for order in orders))


def _ranked(marks: List[Tuple[object, ...]]) -> List[Tuple[object, ...]]:
    places = {mark: (place,) for place, mark in enumerate(sorted(set(marks)))}  # type: ignore[type-var]
    return [places[mark] for mark in marks]


def _numbered(graph: Graph, order: List[int]) -> Iterator[Pair]:
    place = {device: number for number, device in enumerate(order)}
    return ((min(ends), max(ends)) for ends in ((place[one], place[other]) for one, other in graph))


# Networks that are drawn.


class Draft:
    """Links while they are drawn. `upper` are the first devices, where they alone may be candidates."""

    def __init__(self, random: Random, count: int) -> None:
        self.random, self.count, self.upper = random, count, count
        self.ends: List[Pair] = []

    def link(self, one: int, other: int) -> None:
        self.ends.append((min(one, other), max(one, other)))

    def ring(self, devices: List[int]) -> None:
        for one, other in zip(devices, devices[1:] + devices[:1]):
            self.link(one, other)

    def tree(self) -> None:
        for device in range(1, self.count):
            self.link(self.random.randrange(device), device)

    def chords(self, count: int, parallel: bool = False) -> None:
        """Links between two devices each. Without `parallel` they have none yet, where such two are found."""
        for _ in range(count):
            pairs = (tuple(sorted(self.random.sample(range(self.count), 2))) for _ in range(20))
            one, other = next((pair for pair in pairs if parallel or pair not in self.ends), (0, 1))
            self.link(one, other)

    def group(self, devices: int, links: int) -> Group:
        def some(count: int, most: int) -> FrozenSet[int]:
            return frozenset(self.random.sample(range(count), min(count, self.random.randint(0, most))))

        return Group(some(self.count, devices), some(len(self.ends), links))

    def network(self, depth: int, roots: int, groups: int = 0) -> Network:
        listed = [self.group(2, 3) for _ in range(groups)]
        chosen = sorted(self.random.sample(range(self.upper), min(self.upper, roots)))
        return Network(self.count, depth, tuple(chosen), tuple(self.ends), tuple(it for it in listed if it != ((), ())))


def ring(random: Random, count: int) -> Draft:
    draft = Draft(random, count)
    draft.ring(list(range(count)))
    draft.chords(random.randint(0, count // 2), random.random() < 0.2)
    return draft


def tree(random: Random, count: int) -> Draft:
    draft = Draft(random, count)
    draft.tree()
    draft.chords(random.randint(count // 3, count), random.random() < 0.2)
    return draft


def mesh(random: Random, count: int) -> Draft:
    """About three links for each device."""
    draft = Draft(random, count)
    draft.tree()
    few = [it for it in range(count) if sum(it in ends for ends in draft.ends) < 3]
    while len(few) > 1:
        draft.link(*random.sample(few, 2))
        few = [it for it in range(count) if sum(it in ends for ends in draft.ends) < 3]
    return draft


def grid(random: Random, count: int) -> Draft:
    wide = random.choice([2, 3, 4, 5])
    draft = Draft(random, max(2, count // wide) * wide)
    for device in range(draft.count):
        if (device + 1) % wide:
            draft.link(device, device + 1)
        if device + wide < draft.count:
            draft.link(device, device + wide)
    for _ in range(random.choice([0, 0, 1, 2])):
        draft.ends.pop(random.randrange(len(draft.ends)))
    return draft


def torus(random: Random, count: int) -> Draft:
    wide = random.choice([3, 4])
    high = max(3, count // 2 // wide)
    draft = Draft(random, wide * high)
    for device in range(draft.count):
        row, column = divmod(device, wide)
        draft.link(device, row * wide + (column + 1) % wide)
        draft.link(device, (row + 1) % high * wide + column)
    return draft


def leaf_spine(random: Random, count: int) -> Draft:
    """Spines first. A leaf has two or three of them, now and then one."""
    draft, spines = Draft(random, count), random.randint(2, 4)
    draft.upper = spines
    for leaf in range(spines, count):
        for spine in random.sample(range(spines), random.choice([1, *[min(2, spines)] * 3, min(3, spines)])):
            draft.link(spine, leaf)
    return draft


def rings(random: Random, count: int) -> Draft:
    """Rings that share a device or two with the one before, or are joined to it by one link or two."""
    draft, last = Draft(random, count), [0, 1, 2]
    draft.ring(last)
    free = 3
    while free < count:
        size = min(count - free, random.randint(1, 6))
        added, joint = list(range(free, free + size)), random.sample(last, random.choice([1, 2, 2, 2]))
        if random.random() < 0.3:
            for it in joint:
                draft.link(it, random.choice(added))
            draft.ring(added) if size > 2 else [draft.link(*pair) for pair in zip(added, added[1:])]
        else:
            for one, other in zip([joint[0], *added], [*added, joint[-1]]):
                draft.link(one, other)
        last, free = sorted({*joint, *added}), free + size
    draft.chords(random.choice([0, 0, 1, count // 4]))
    return draft


def tiers(random: Random, count: int) -> Draft:
    """Cores, pairs of switches that have both cores or all, and pairs of leaves below each pair."""
    draft = Draft(random, count)
    draft.upper = cores = random.choice([2, 3])
    for first in range(cores, count, 4):
        upper = [it for it in (first, first + 1) if it < count]
        for switch in upper:
            for core in random.sample(range(cores), random.choice([cores, cores, 2, 1])):
                draft.link(core, switch)
        for leaf in (it for it in (first + 2, first + 3) if it < count):
            for switch in upper:
                draft.link(switch, leaf)
    return draft


KINDS: Dict[str, Callable[[Random, int], Draft]] = {
    "ring": ring, "tree": tree, "mesh": mesh, "grid": grid, "torus": torus, "leaf-spine": leaf_spine, "rings": rings, "tiers": tiers,
}


class Drawn(NamedTuple):
    kind: str
    network: Network


def small_rings() -> Iterator[Drawn]:
    """Rings of 3 to 12 devices, with no chord up to four that are spread over it."""
    for count, chords in itertools.product(range(3, 13), range(5)):
        draft = ring(Random(0), count)
        draft.ends = draft.ends[:count]
        for chord in range(chords):
            one = chord * count // max(1, chords) // 2
            draft.link(one, (one + count // 2) % count)
        if len(set(draft.ends)) == len(draft.ends):
            yield Drawn("chords", Network(count, DEEP, tuple(range(count)), tuple(draft.ends)))


def graphs() -> Iterator[Drawn]:
    for count, graph in connected_graphs(7):
        yield Drawn("graph", Network(count, DEEP, tuple(range(count)), tuple(sorted(graph))))


def small(seeds: range) -> Iterator[Drawn]:
    """Random networks of 4 to 8 devices with domains, a depth and candidates. Some are not connected."""
    for seed in seeds:
        random = Random(seed)
        draft = Draft(random, random.randint(4, 8))
        draft.tree()
        draft.chords(random.randint(0, draft.count), random.random() < 0.3)
        if random.random() < 0.04:
            draft.ends.pop(0)
        roots = 1 if random.random() < 0.02 else random.randint(2, draft.count)
        yield Drawn("small", draft.network(random.randint(2, 6), roots, random.randint(0, 3)))


def middling(seeds: range) -> Iterator[Drawn]:
    """Networks of 10 to 40 devices, of each kind in turn."""
    for seed in seeds:
        random, kind = Random(1000 + seed), list(KINDS)[seed % len(KINDS)]
        draft = KINDS[kind](random, random.randint(10, 40))
        depth = random.choice([DEEP, 12, 8, 6])
        yield Drawn(kind, draft.network(depth, random.randint(2, 4), random.choice([0, 0, 1, 2, 3])))


def all_drawn() -> Iterator[Drawn]:
    return itertools.chain(middling(range(240)), small(range(600)), small_rings(), graphs())
