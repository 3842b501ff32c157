"""Reads the output of `sundial drill`. Domains with the same bounds are kept once, so unused links take no memory."""

from __future__ import annotations

from dataclasses import dataclass
from functools import cached_property
from itertools import groupby
from typing import Dict, Iterable, List, Optional, Tuple

from sundial_tools.errors import ToolError
from sundial_tools.outputs import read_numbers
from sundial_tools.topology import Topology

Bounds = Tuple[Optional[int], ...]


@dataclass
class Group:
    """Domains under which every device has the same bound, in picoseconds; None where it has none."""

    domains: List[str]
    bounds: Bounds

    @cached_property
    def worst(self) -> int:
        return max((bound for bound in self.bounds if bound is not None), default=-1)


@dataclass
class Drill:
    """`devices` are the members by number; the bounds of each group stand in their order. Widest groups come first."""

    devices: List[int]
    groups: List[Group]
    domains: int


def read_drill(lines: Iterable[str], topology: Topology, source: str) -> Drill:
    """All members of a domain stand together, in the same order each time."""
    groups: Dict[Bounds, Group] = {}
    members: List[str] = []
    domains = 0
    rows = read_numbers(lines, "a drill", lambda it: it.kind in ("bound", "nobound") and "calm" not in it.fields, source)
    for domain, found in groupby(rows, lambda row: row[1].fields.get("domain")):
        (number, first), *more = found
        if domain is None:
            if (first.fields["first"], first.fields["second"]) != (domains, len(members)):
                raise ToolError(f"done says {first.fields['first']} {first.fields['second']}, and {domains} {len(members)} were read", source, number)
            continue
        name, under = f"{domain['kind']} {domain['name']}", [first, *(line for _, line in more)]
        names = [line.fields["device"] for line in under]
        unknown = next((it for it in names if it not in topology.device_numbers), None)
        if unknown is not None:
            raise ToolError(f"the topology has no device {unknown}", source, number)
        members = members or names
        if names != members:
            raise ToolError(f"the devices under {name} are not those of the first domain, or out of order", source, number)
        bounds = tuple(line.fields.get("eps") for line in under)
        groups.setdefault(bounds, Group([], bounds)).domains.append(name)
        domains += 1
    if not any(bound is not None for bounds in groups for bound in bounds):
        raise ToolError("the drill has no bound", source)
    return Drill([topology.device_numbers[name] for name in members], sorted(groups.values(), key=lambda group: -group.worst), domains)
