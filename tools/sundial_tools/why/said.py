"""How things are named in the words of sundial-why."""

from __future__ import annotations

from typing import Dict, Iterable, List, NamedTuple, Optional, Set, Tuple

from sundial_tools.outputs import OutputLine
from sundial_tools.plan import Hop, Plan
from sundial_tools.topology import Topology
from sundial_tools.units import human

Thing = Tuple[str, int]


def listed(words: Iterable[str], last: str = "and") -> str:
    """a, b and c."""
    parts = list(words)
    return parts[0] if len(parts) == 1 else f"{', '.join(parts[:-1])} {last} {parts[-1]}" if parts else "nothing"


def time(picoseconds: int) -> str:
    """5048333 ps (5.048 us)."""
    return f"{picoseconds} ps" if abs(picoseconds) < 1000 else f"{picoseconds} ps ({human(picoseconds)})"


def too_few_candidates(topology: Topology) -> List[str]:
    """That `roots` does not have two devices, and what to change."""
    names = listed(topology.devices[it].name for it in topology.roots)
    return [f"A plan needs a root and a backup root, and `roots` has only {names}.", "Change: name a second device in `roots`."]


class Names:
    """The devices and links of a topology, by name."""

    def __init__(self, topology: Topology) -> None:
        self.topology = topology

    def device(self, number: Optional[int]) -> str:
        if number is None or number >= len(self.topology.devices):
            return f"device {number}"
        return self.topology.devices[number].name

    def link(self, number: Optional[int]) -> str:
        if number is None or number >= len(self.topology.links):
            return f"link {number}"
        return self.topology.links[number].name

    def thing(self, thing: Thing) -> str:
        kind, number = thing
        return f"the {kind} {self.device(number) if kind == 'device' else self.link(number)}"

    def things(self, things: Iterable[Thing]) -> str:
        return listed(self.thing(it) for it in sorted(things))

    def hop(self, hop: Hop) -> str:
        return f"{self.device(hop.parent)} over {self.link(hop.link)}"


class Failing(NamedTuple):
    """A fault domain: how it is named, and what it has."""

    text: str
    things: Set[Thing]


def failing(topology: Topology, domain: "dict[str, str]") -> Failing:
    """The fault domain that a line names."""
    kind, name = domain["kind"], domain["name"]
    if kind == "device":
        return Failing(f"the device {name}", {("device", topology.device_numbers[name])})
    if kind == "link":
        return Failing(f"the link {name}", {("link", topology.link_numbers[name])})
    found = {it.name: it for it in topology.domains}[name]
    return Failing(f"the domain {name}", {("device", it) for it in found.devices} | {("link", it) for it in found.links})


def all_domains(topology: Topology) -> List[Failing]:
    """All fault domains, in the order of the checker."""
    found = [failing(topology, {"kind": "listed", "name": it.name}) for it in topology.domains]
    found += [failing(topology, {"kind": "device", "name": it.name}) for it in topology.devices]
    return found + [failing(topology, {"kind": "link", "name": it.name}) for it in topology.links]


def way(plan: Plan, device: int) -> List[Hop]:
    """The hops from a device along primary parents, to the root or until they go round."""
    hops: List[Hop] = []
    seen: Set[int] = set()
    while device in plan.rows and device not in seen:
        seen.add(device)
        hops.append(plan.rows[device].primary)
        device = hops[-1].parent
    return hops


def way_text(names: Names, device: int, hops: Iterable[Hop]) -> str:
    """l2 - b2 - s2 - b1 - l1."""
    parts = [names.device(device)]
    for hop in hops:
        parts += [names.link(hop.link), names.device(hop.parent)]
    return " - ".join(parts)


def things_of(hops: Iterable[Hop]) -> Set[Thing]:
    """The links of a way and the devices that they lead to."""
    found: Set[Thing] = set()
    for hop in hops:
        found |= {("link", hop.link), ("device", hop.parent)}
    return found


def epath(plan: Plan, device: int) -> List[Hop]:
    """The way of a device up to the first of the two roots."""
    hops: List[Hop] = []
    for hop in way(plan, device):
        hops.append(hop)
        if hop.parent in (plan.root, plan.backup_root):
            break
    return hops


def domain_of(line: OutputLine) -> "dict[str, str]":
    said: Dict[str, str] = line.fields["domain"]
    return said
