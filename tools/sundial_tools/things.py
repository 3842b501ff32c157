"""Devices, links and listed domains as people name them, and what is left of a fabric without some of them."""

from __future__ import annotations

import difflib
import json
from typing import Collection, Dict, FrozenSet, Iterable, List, NamedTuple, Optional, Set, Tuple

from sundial_tools.errors import ToolError
from sundial_tools.plan import Hop
from sundial_tools.topology import Topology

KINDS = ("listed", "device", "link")


class Named(NamedTuple):
    """A fault domain by name, and what it takes. `kind` is listed, device or link."""

    kind: str
    name: str
    devices: Tuple[int, ...]
    links: Tuple[int, ...]

    @property
    def text(self) -> str:
        return f"{self.kind} {self.name}"


def find_named(topology: Topology, text: str) -> Named:
    """The fault domain that `NAME`, `KIND:NAME` or `KIND NAME` names. A bare name is looked for among all three kinds."""
    kind, _, name = text.strip().replace(":", " ", 1).partition(" ")
    if not name:
        kind, name = "", kind
    elif kind not in KINDS:
        raise ToolError(f"{text!r} names nothing: write NAME, listed:NAME, device:NAME or link:NAME")
    found = [it for it in _all_of_name(topology, name) if kind in ("", it.kind)]
    if not found:
        near = _nearest(topology, name)
        raise ToolError(f"no {kind or 'domain, device or link'} has the name {name}" + (f"; {near} is there" if near else ""))
    if len(found) > 1:
        raise ToolError(f"{name} names {' and '.join(f'a {it.kind}' for it in found)}: write {found[0].kind}:{name}")
    return found[0]


def _all_of_name(topology: Topology, name: str) -> List[Named]:
    found = [Named("listed", name, it.devices, it.links) for it in topology.domains if it.name == name]
    if name in topology.device_numbers:
        found.append(Named("device", name, (topology.device_numbers[name],), ()))
    if name in topology.link_numbers:
        found.append(Named("link", name, (), (topology.link_numbers[name],)))
    return found


def nearest(name: str, known: Iterable[str]) -> Optional[str]:
    """The known name that is most like this one, or None where none is like it."""
    return next(iter(difflib.get_close_matches(name, list(known), 1)), None)


def _nearest(topology: Topology, name: str) -> Optional[str]:
    return nearest(name, [it.name for it in topology.domains] + [*topology.device_numbers, *topology.link_numbers])


def all_named(topology: Topology) -> List[Named]:
    """All fault domains, in the order of the checker: listed ones, each device, each link."""
    found = [Named("listed", it.name, it.devices, it.links) for it in topology.domains]
    found += [Named("device", it.name, (it.number,), ()) for it in topology.devices]
    return found + [Named("link", it.name, (), (it.number,)) for it in topology.links]


def hop_text(topology: Topology, hop: Hop) -> str:
    return f"{topology.devices[hop.parent].name} over {topology.links[hop.link].name}"


class Left(NamedTuple):
    """What is left out of a fabric. `cut_off` are devices that no candidate for root reaches any more."""

    devices: FrozenSet[int]
    links: FrozenSet[int]
    cut_off: Tuple[int, ...]
    roots: Tuple[int, ...]

    def absent_text(self, topology: Topology) -> str:
        """The absent list, with what is cut off."""
        said: Dict[str, List[str]] = {
            "absent_devices": [topology.devices[it].name for it in sorted(self.devices | set(self.cut_off))],
            "absent_links": [topology.links[it].name for it in sorted(self.links)],
        }
        return json.dumps(said) + "\n"


def left_without(topology: Topology, devices: Iterable[int], links: Iterable[int]) -> Left:
    """What a fabric loses with these devices and links: also the devices that are then joined to no candidate for root."""
    gone, cut = frozenset(devices), frozenset(links)
    roots = tuple(it for it in topology.roots if it not in gone)
    reached = joined_to(topology, roots, gone, cut)
    cut_off = tuple(it.number for it in topology.devices if it.number not in gone and it.number not in reached)
    return Left(gone, cut, cut_off, roots)


def joined_to(topology: Topology, first: Iterable[int], gone: Collection[int], cut: Collection[int]) -> Set[int]:
    """The devices that links join to the first ones, where some devices are gone and some links are cut."""
    beside: Dict[int, List[int]] = {}
    for link in topology.links:
        if link.number not in cut:
            for end in link.ends:
                beside.setdefault(end, []).append(link.other(end))
    found = {it for it in first if it not in gone}
    waiting = list(found)
    while waiting:
        for other in beside.get(waiting.pop(), ()):
            if other not in found and other not in gone:
                found.add(other)
                waiting.append(other)
    return found
