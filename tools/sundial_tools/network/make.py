"""Networks to learn from: leaves and spines, three tiers, and meshes, with racks, feeds, trays and hosts."""

from __future__ import annotations

import argparse
import random
from typing import Callable, Dict, List, NamedTuple, Optional, Tuple

from sundial_tools.errors import ToolError
from sundial_tools.safe_write import OUTPUT
from sundial_tools.topology import (
    MOST_DEVICES, MOST_DOMAINS, MOST_LINKS, MOST_LISTED, Bounds, Device, Domain, Link, Topology, topology_text,
)

LETTERS = "abcdefghijklmnopqrstuvwxyz"


class Numbers(NamedTuple):
    """The numbers of a topology. Times are picoseconds."""

    ppm: int
    grain: int
    period: int
    tick: int
    loss: int
    least: int
    most: int


class Network:
    """A network while it is drawn: devices, links and domains by name."""

    def __init__(self, numbers: Numbers) -> None:
        self.numbers = numbers
        self.devices: List[str] = []
        self.links: Dict[str, Tuple[str, str]] = {}
        self._beside: Dict[str, List[str]] = {}
        self.domains: Dict[str, Tuple[List[str], List[str]]] = {}
        self.roots: List[str] = []
        self.depth = 1

    def add_devices(self, names: List[str]) -> List[str]:
        self.devices += names
        _at_most("devices", len(self.devices), MOST_DEVICES)
        return names

    def link(self, upper: str, lower: str, cables: int = 1) -> None:
        """Joins two devices. A link is named after its lower end first."""
        for cable in range(1, cables + 1):
            name = f"{lower}-{upper}" + (f"-{cable}" if cables > 1 else "")
            self.links[name] = upper, lower
            for end in upper, lower:
                self._beside.setdefault(end, []).append(name)
        _at_most("links", len(self.links), MOST_LINKS)

    def links_of(self, device: str) -> List[str]:
        return self._beside.get(device, [])

    def list_devices(self, domain: str, devices: List[str]) -> None:
        self.domains.setdefault(domain, ([], []))[0].extend(devices)

    def list_links(self, domain: str, links: List[str]) -> None:
        known = self.domains.setdefault(domain, ([], []))[1]
        known += [it for it in links if it not in known]

    def topology(self) -> Topology:
        numbers = self.numbers
        place = {name: number for number, name in enumerate(self.devices)}
        devices = tuple(Device(number, name, "root", numbers.ppm, numbers.grain) for name, number in place.items())
        bounds = Bounds(numbers.least, numbers.most)
        links = tuple(
            Link(number, name, (place[ends[0]], place[ends[1]]), bounds, bounds) for number, (name, ends) in enumerate(self.links.items())
        )
        of_link = {link.name: link.number for link in links}
        domains = tuple(
            Domain(number, name, tuple(place[it] for it in things[0]), tuple(of_link[it] for it in things[1]))
            for number, (name, things) in enumerate(self.domains.items())
        )
        made = Topology(
            2, numbers.ppm, numbers.grain, numbers.period, numbers.tick, numbers.loss, self.depth, devices, links, domains,
            tuple(place[it] for it in self.roots), place, of_link,
        )
        _at_most("domains", len(made.domains), MOST_DOMAINS)
        _at_most("things in domains", sum(len(it.devices) + len(it.links) for it in made.domains), MOST_LISTED)
        return made


def _at_most(what: str, number: int, most: int) -> None:
    if number > most:
        raise ToolError(f"that would be {number} {what}, and a topology has at most {most}")


def made_text(options: argparse.Namespace) -> str:
    """The topology that the options describe, with a line that says how it was made."""
    options = _filled(options)
    network = Network(
        Numbers(options.ppm, options.grain, options.period, options.tick, options.loss, options.min, options.max)
    )
    said = {"leaf-spine": _leaf_spine, "three-tier": _three_tier, "mesh": _mesh}[options.kind](network, options)
    return f"# {said}\n" + topology_text(network.topology())


def _leaf_spine(network: Network, options: argparse.Namespace) -> str:
    spines = network.add_devices([f"spine{it}" for it in range(1, options.spines + 1)])
    leaves = network.add_devices([f"leaf{it}" for it in range(1, options.leaves + 1)])
    for leaf in leaves:
        for spine in spines:
            network.link(spine, leaf, options.cables)
    network.roots, network.depth = spines, 4 if options.hosts else 3
    hosts = _hosts(network, leaves, options)
    _racks(network, leaves, hosts)
    _feeds(network, spines, leaves, hosts, options.feeds)
    _trays(network, spines, leaves, options.trays)
    return f"Leaves and spines: {options.spines} spines, {options.leaves} leaves{_also(options)}."


def _three_tier(network: Network, options: argparse.Namespace) -> str:
    cores = network.add_devices([f"core{it}" for it in range(1, options.cores + 1)])
    pods = range(1, options.pods + 1)
    middle = {pod: [f"agg{pod}-{it}" for it in range(1, options.aggregations + 1)] for pod in pods}
    below = {pod: [f"leaf{pod}-{it}" for it in range(1, options.leaves + 1)] for pod in pods}
    for pod in pods:
        network.add_devices(middle[pod])
    for pod in pods:
        network.add_devices(below[pod])
    for pod in pods:
        for upper in middle[pod]:
            for core in cores:
                network.link(core, upper)
        for leaf in below[pod]:
            for upper in middle[pod]:
                network.link(upper, leaf, options.cables)
    network.roots, network.depth = cores, 6 if options.hosts else 5
    leaves = [leaf for pod in pods for leaf in below[pod]]
    hosts = _hosts(network, leaves, options)
    _racks(network, leaves, hosts)
    # (aggregation switches are on several feeds: no one feed takes them)
    _feeds(network, cores, leaves, hosts, options.feeds)
    _trays(network, cores, [upper for pod in pods for upper in middle[pod]], options.trays)
    return (
        f"Three tiers: {options.cores} cores, {options.pods} pods of {options.aggregations} aggregation switches and "
        f"{options.leaves} leaves{_also(options)}."
    )


def _mesh(network: Network, options: argparse.Namespace) -> str:
    devices = network.add_devices([f"node{it}" for it in range(1, options.devices + 1)])
    count = len(devices)
    pairs = [(first, second) for first in range(count) for second in range(first + 1, count)]
    said = "each linked to each other"
    if options.links_each is not None:
        drawn = random.Random(options.seed)
        ring = {(min(it, (it + 1) % count), max(it, (it + 1) % count)) for it in range(count)}
        more = [it for it in pairs if it not in ring]
        drawn.shuffle(more)
        wanted = max(0, options.links_each * count // 2 - len(ring))
        pairs = sorted(ring | set(more[:wanted]))
        said = f"in a ring, with links drawn from the number {options.seed} until each has about {options.links_each}"
    for first, second in pairs:
        network.link(devices[first], devices[second])
    network.roots, network.depth = devices[: options.candidates], min(64, 3 if options.links_each is None else count)
    _feeds(network, devices, [], {}, options.feeds)
    return f"A mesh: {count} devices, {said}."


def _also(options: argparse.Namespace) -> str:
    parts = [f"{options.hosts} hosts a leaf"] if options.hosts else []
    parts += [f"{options.feeds} power feeds"] if options.feeds else []
    parts += [f"{options.trays} trays from each at the top"] if options.trays else []
    return ", " + ", ".join(parts) if parts else ""


def _hosts(network: Network, leaves: List[str], options: argparse.Namespace) -> Dict[str, List[str]]:
    """The hosts of each leaf. With two links a host also has one to the next leaf, in pairs of leaves."""
    hosts: Dict[str, List[str]] = {}
    for place, leaf in enumerate(leaves):
        names = [f"host{leaf.removeprefix('leaf')}-{it}" for it in range(1, options.hosts + 1)]
        hosts[leaf] = network.add_devices(names)
        for host in names:
            network.link(leaf, host)
            if options.host_links == 2:
                network.link(leaves[_partner(place, len(leaves))], host)
    return hosts


def _partner(place: int, count: int) -> int:
    """The other leaf of a pair; the last of an odd number has the one before it."""
    other = place ^ 1
    return other if other < count else max(0, place - 1)


def _racks(network: Network, leaves: List[str], hosts: Dict[str, List[str]]) -> None:
    for leaf in leaves:
        rack = "rack" + leaf.removeprefix("leaf")
        network.list_devices(rack, [leaf, *hosts[leaf]])
        for device in [leaf, *hosts[leaf]]:
            network.list_links(rack, network.links_of(device))


def _feed(place: int, feeds: int) -> str:
    number = place % feeds
    return f"feed-{LETTERS[number]}" if feeds <= len(LETTERS) else f"feed-{number + 1}"


def _feeds(network: Network, upper: List[str], leaves: List[str], hosts: Dict[str, List[str]], feeds: int) -> None:
    """Three feeds or more: each device is on one. Two: the first two of the top are on one each, and all others on both."""
    if feeds == 1:
        raise ToolError("--feeds 1: what one feed supplies fails as a whole, and nothing is left to plan. Take 0, 2 or more")
    if feeds == 2:
        for place, device in enumerate(upper[:2]):
            network.list_devices(_feed(place, 2), [device])
        return
    for feed in range(feeds):
        network.domains.setdefault(_feed(feed, feeds), ([], []))
    for place, device in enumerate(upper if feeds else []):
        network.list_devices(_feed(place, feeds), [device])
    for place, leaf in enumerate(leaves if feeds else []):
        network.list_devices(_feed(place * feeds // len(leaves), feeds), [leaf, *hosts[leaf]])


def _trays(network: Network, upper: List[str], lower: List[str], trays: int) -> None:
    """Each device of the top has this many trays, and each tray its links to some of the devices below, in a row."""
    for top in upper if trays else []:
        for place, bottom in enumerate(lower):
            links = [name for name in network.links_of(bottom) if network.links[name] == (top, bottom)]
            network.list_links(f"tray-{top}-{place * trays // len(lower) + 1}", links)


# What each kind of network takes, and its defaults.
DEFAULTS: Dict[str, Dict[str, Optional[int]]] = {
    "leaf-spine": {"spines": 3, "leaves": 8, "cables": 1, "hosts": 0, "host_links": 1, "trays": 0, "feeds": 3},
    "three-tier": {
        "cores": 3, "pods": 3, "aggregations": 2, "leaves": 4, "cables": 1, "hosts": 0, "host_links": 1, "trays": 0, "feeds": 3,
    },
    "mesh": {"devices": 6, "links_each": None, "candidates": 3, "seed": 1, "feeds": 0},
}


def add_words(make: argparse.ArgumentParser, time_of: Callable[[str], int]) -> None:
    """The words of `make`."""
    make.add_argument("kind", choices=list(DEFAULTS), help="leaves and spines, pods below cores, or devices linked to each other")
    for name, least, text in (
        ("spines", 2, "spines (3)"), ("cores", 2, "cores of three tiers (3)"), ("pods", 1, "pods of three tiers (3)"),
        ("aggregations", 1, "aggregation switches of a pod (2)"), ("leaves", 1, "leaves (8), or leaves of a pod (4)"),
        ("cables", 1, "cables from a leaf to each device above it (1)"), ("hosts", 0, "hosts of a leaf (0)"),
        ("host-links", 1, "to how many leaves a host is linked, 1 or 2 (1)"), ("trays", 0, "cable trays from each spine or core (0)"),
        ("feeds", 0, "power feeds (3; of a mesh 0)"), ("devices", 3, "devices of a mesh (6)"),
        ("links-each", 2, "a ring, and drawn links until each device of the mesh has about N (all are linked)"),
        ("candidates", 2, "candidates for root of a mesh (3)"), ("seed", 0, "from which number links are drawn (1)"),
    ):
        make.add_argument(f"--{name}", type=_count(least), metavar="N", help=text)
    for name, default in ("period", "100us"), ("tick", "10us"), ("min", "400ns"), ("max", "1us"), ("grain", "1ns"):
        make.add_argument(f"--{name}", type=time_of, default=default, metavar="TIME", help=f"{name} of the topology ({default})")
    make.add_argument("--ppm", type=int, choices=range(100001), default=200, metavar="PPM", help="ppm of the topology (200)")
    make.add_argument("--loss", type=int, choices=range(101), default=1, metavar="0..100", help="loss of the topology (1)")
    make.add_argument("--output", "-o", metavar="FILE", help=OUTPUT)


def _filled(options: argparse.Namespace) -> argparse.Namespace:
    """The options with the defaults of the kind. What the kind does not take is refused."""
    takes = DEFAULTS[options.kind]
    for name in {name for defaults in DEFAULTS.values() for name in defaults}:
        given = getattr(options, name)
        if given is not None and name not in takes:
            raise ToolError(f"--{name.replace('_', '-')} is no option of {options.kind}")
        if given is None and name in takes:
            setattr(options, name, takes[name])
    if getattr(options, "host_links") not in (None, 1, 2):
        raise ToolError("--host-links is 1 or 2")
    if options.min > options.max:
        raise ToolError("--min is more than --max")
    return options


class _count:
    """A whole number that is at least this."""

    def __init__(self, least: int) -> None:
        self._least = least

    def __call__(self, word: str) -> int:
        if not (word.isascii() and word.isdigit()) or len(word) > 6 or int(word) < self._least:
            raise argparse.ArgumentTypeError(f"{word!r} is no whole number from {self._least}")
        return int(word)

