"""Networks with their exact answer: which pairs of candidates have a plan with nothing left out. data/decided.txt has them.

A line has seven words: KIND DEVICES DEPTH ROOTS LINKS DOMAINS PAIRS. A device is a letter, a link two of them. A domain is
its devices, `:` and the numbers of its links with `.` between; domains are separated by `/`. PAIRS is `none`, `all`, or
hexadecimal: one bit for each ordered pair of candidates, the first pair the highest; or `first:` and the first pair that has a plan, where
the others were not decided. A list with nothing is `-`.
"""

from __future__ import annotations

import functools
import itertools
import string
from typing import FrozenSet, Iterable, Iterator, List, NamedTuple, Tuple

from support import DATA

from sundial_tools.plan import Hop
from sundial_tools.topology import Bounds, Device, Domain, Link, Topology

LETTERS = string.ascii_lowercase + string.ascii_uppercase
PERIOD, TICK, DELAYS = 100_000_000, 10_000_000, Bounds(100, 1000)
NOTHING, NONE, ALL, FIRST = "-", "none", "all", "first:"
Pair = Tuple[int, int]


class Group(NamedTuple):
    """What a fault domain has."""

    devices: FrozenSet[int]
    links: FrozenSet[int]


class Network(NamedTuple):
    """Devices and links are numbers from 0. `groups` are the listed domains, `roots` the candidates. The period is mostly long
    enough for every depth."""

    count: int
    depth: int
    roots: Tuple[int, ...]
    ends: Tuple[Pair, ...]
    groups: Tuple[Group, ...] = ()
    period: int = PERIOD

    @property
    def devices(self) -> range:
        return range(self.count)

    @property
    def pairs(self) -> List[Pair]:
        """The ordered pairs of candidates: root and backup root."""
        return list(itertools.permutations(self.roots, 2))

    @property
    def domains(self) -> List[Group]:
        """All that may fail together: the listed domains, each device alone, each link alone."""
        alone = [Group(frozenset([it]), frozenset()) for it in self.devices]
        return [*self.groups, *alone, *(Group(frozenset(), frozenset([it])) for it in range(len(self.ends)))]

    def hops(self) -> List[List[Hop]]:
        """For each device its hops."""
        return _hops(self.count, self.ends)

    def topology(self) -> Topology:
        """The devices are d0 and so on, the links l0 and the domains f0."""
        devices = tuple(Device(it, f"d{it}", "root", 200, 1000) for it in self.devices)
        links = tuple(Link(number, f"l{number}", ends, DELAYS, DELAYS) for number, ends in enumerate(self.ends))
        domains = tuple(
            Domain(number, f"f{number}", tuple(sorted(it.devices)), tuple(sorted(it.links))) for number, it in enumerate(self.groups)
        )
        numbers = {it.name: it.number for it in devices}, {it.name: it.number for it in links}
        return Topology(2, 200, 1000, self.period, TICK, 1, self.depth, devices, links, domains, self.roots, *numbers)


@functools.lru_cache(maxsize=2)
def _hops(count: int, ends: Tuple[Pair, ...]) -> List[List[Hop]]:
    found: List[List[Hop]] = [[] for _ in range(count)]
    for link, (one, other) in enumerate(ends):
        found[one].append(Hop(other, link))
        found[other].append(Hop(one, link))
    return found


class Decided(NamedTuple):
    """A network, and the pairs that have a plan: all of them, or only the first."""

    kind: str
    network: Network
    planned: FrozenSet[Pair]
    is_all: bool = True

    @property
    def pairs(self) -> List[Pair]:
        """The pairs that were decided."""
        pairs = self.network.pairs
        return pairs if self.is_all else pairs[: pairs.index(min(self.planned)) + 1]

    def line(self) -> str:
        net = self.network
        bits = "".join("01"[pair in self.planned] for pair in net.pairs)
        if not self.planned:
            pairs = NONE
        elif not self.is_all:
            pairs = FIRST + _letters(min(self.planned))
        else:
            pairs = ALL if len(self.planned) == len(net.pairs) else f"{int(bits, 2):x}"
        groups = "/".join(f"{_letters(sorted(it.devices))}:{'.'.join(map(str, sorted(it.links)))}" for it in net.groups)
        links = "".join(_letters(ends) for ends in net.ends)
        return " ".join([self.kind, str(net.count), str(net.depth), _letters(net.roots), links or NOTHING, groups or NOTHING, pairs])


def _letters(devices: Iterable[int]) -> str:
    return "".join(LETTERS[it] for it in devices)


def parsed(line: str) -> Decided:
    kind, count, depth, roots, links, groups, pairs = line.split(" ")
    numbers = [] if links == NOTHING else [LETTERS.index(it) for it in links]
    listed = []
    for text in [] if groups == NOTHING else groups.split("/"):
        devices, _, things = text.partition(":")
        listed.append(Group(frozenset(map(LETTERS.index, devices)), frozenset(int(it) for it in things.split(".") if it)))
    net = Network(
        int(count), int(depth), tuple(map(LETTERS.index, roots)), tuple(zip(numbers[::2], numbers[1::2])), tuple(listed)
    )
    if pairs.startswith(FIRST):
        one, other = pairs[len(FIRST):]
        return Decided(kind, net, frozenset([(LETTERS.index(one), LETTERS.index(other))]), False)
    number = {NONE: 0, ALL: 2 ** len(net.pairs) - 1}.get(pairs)
    bits = f"{int(pairs, 16) if number is None else number:0{len(net.pairs)}b}"
    return Decided(kind, net, frozenset(pair for pair, bit in zip(net.pairs, bits) if bit == "1"))


def decided() -> Iterator[Decided]:
    """The networks that were decided."""
    with open(DATA / "decided.txt", encoding="ascii") as lines:
        for line in lines:
            if not line.startswith("#"):
                yield parsed(line.rstrip("\n"))
