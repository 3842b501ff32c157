"""The absent list of a loss, with all that it strands."""

from __future__ import annotations

from typing import List, Optional, Set, TextIO, Tuple

from sundial_tools.errors import ToolError
from sundial_tools.plan import read_plan
from sundial_tools.things import find_named, joined_to, left_without
from sundial_tools.topology import Topology, read_topology
from sundial_tools.units import few

MOST_SHOWN = 8


def write_absent(path: str, things: List[str], plan: Optional[str], text: TextIO) -> List[str]:
    """Writes the absent list, and answers what it says of it: what was added, and what a plan has to know."""
    topology = read_topology(path)
    devices, links = _lost(topology, things, plan)
    left = left_without(topology, devices, links)
    if not left.roots:
        raise ToolError("no candidate of `roots` is left: nothing can be planned")
    text.write(left.absent_text(topology))
    return list(_told(topology, left.cut_off, left.roots, set(left.devices), set(left.links)))


def _lost(topology: Topology, things: List[str], plan: Optional[str]) -> Tuple[Set[int], Set[int]]:
    devices: Set[int] = set()
    links: Set[int] = set()
    if plan is not None:
        before = read_plan(plan, topology)
        devices |= set(before.absent_devices)
        links |= set(before.absent_links)
    for thing in things:
        named = find_named(topology, thing)
        devices |= set(named.devices)
        links |= set(named.links)
    return devices, links


def _told(topology: Topology, cut_off: Tuple[int, ...], roots: Tuple[int, ...], gone: Set[int], cut: Set[int]) -> List[str]:
    said = []
    if cut_off:
        said.append(f"left out too, since no candidate for root reaches them: {shown(topology, cut_off)}")
    if len(roots) == 1:
        said.append(f"{topology.devices[roots[0]].name} is the only candidate of `roots` that is left: no plan has one root alone")
    parts = joined_to(topology, roots[:1], gone, cut)
    apart = [it for it in roots if it not in parts]
    if apart:
        said.append(
            f"the candidates {topology.devices[roots[0]].name} and {shown(topology, apart)} are not joined any more: "
            "a plan covers one part, so leave the other out too"
        )
    return said


def shown(topology: Topology, devices: "Tuple[int, ...] | List[int]") -> str:
    return few([topology.devices[it].name for it in devices], MOST_SHOWN)
