"""A plan that the checker refuses: docs/CONDITIONS.md."""

from __future__ import annotations

from typing import Callable, Dict, Iterator, List, Optional, Set

from sundial_tools.outputs import OutputLine
from sundial_tools.plain.device import grow
from sundial_tools.plan import Hop, Plan
from sundial_tools.topology import Device, Topology
from sundial_tools.why.said import (
    Failing, Names, Thing, all_domains, domain_of, epath, failing, listed, things_of, time, too_few_candidates, way, way_text,
)

MOST_WAYS = 4
WAITS = {2: "wait_first", 3: "wait_second", 4: "wait", 5: "wait"}
PURPOSE = {
    1: "A round has to be through before the next one begins.",
    2: "The backup root must not leave its primary parent while all is well there.",
    3: "The backup root must not take over while its backup is sound.",
    4: "Every other device has to wait until the backup root has had both of its waits and was heard.",
    5: "The same, where a late round begins the silence of the backup root anew.",
}


class Refused:
    """Says what a refusal means. `plan` is the refused plan, where it is known. A command made it, or it was written."""

    def __init__(self, topology: Topology, plan: Optional[Plan], is_made: bool = False) -> None:
        self.topology, self.plan, self.is_made, self.names = topology, plan, is_made, Names(topology)

    def say(self, line: OutputLine) -> Iterator[str]:
        condition = line.kind.split(" ")[1]
        yield from getattr(self, f"_{condition}")(line)

    def _device(self, line: OutputLine) -> int:
        return self.topology.device_numbers[line.fields["device"]]

    # Structure

    def _structure(self, line: OutputLine) -> Iterator[str]:
        device, name = self._device(line), line.fields["device"]
        says: Dict[int, Callable[[int, str], Iterator[str]]] = {
            1: self._two_roots, 2: self._row, 3: self._hops, 4: self._one_link, 5: self._too_deep, 6: self._no_backup,
        }
        yield from says.get(line.fields["rule"], lambda *_: iter(()))(device, name)

    def _two_roots(self, device: int, name: str) -> Iterator[str]:
        if self.is_made and len(self.topology.roots) < 2:
            yield from too_few_candidates(self.topology)
            return
        yield f"The root and the backup root have to be two devices that the plan does not leave out. {name} breaks that."
        yield "Change: name another backup root. Where `plan` made the plan, name more devices in `roots`."

    def _row(self, device: int, name: str) -> Iterator[str]:
        if self.plan is None or (self.is_made and device not in self.plan.rows):
            yield f"No way leads from the root to {name}, so the planner made no row for it."
            yield f"Change: add a link to {name}, or list it in `absent_devices`."
        elif device in self.plan.rows:
            yield f"{name} has a row, and it is the root or is left out in `absent_devices`."
            yield "Change: remove the row."
        else:
            yield f"{name} is a member, and has no row."
            yield f"Change: add a row for {name}, or list it in `absent_devices`."

    def _hops(self, device: int, name: str) -> Iterator[str]:
        row = self.plan.rows.get(device) if self.plan else None
        for what, hop in (("primary", row.primary), ("backup", row.backup)) if row else ():
            fault = self._hop_fault(device, hop) if hop else None
            if hop and fault:
                yield f"The {what} hop of {name}, {self.names.hop(hop)}, is wrong: {fault}."
        yield f"Change: correct the row of {name}. A hop goes over a link whose two ends are the device and the parent."

    def _hop_fault(self, device: int, hop: Hop) -> Optional[str]:
        assert self.plan
        ends = self.topology.links[hop.link].ends
        if hop.parent in self.plan.absent_devices:
            return f"{self.names.device(hop.parent)} is left out in `absent_devices`"
        if hop.link in self.plan.absent_links:
            return f"{self.names.link(hop.link)} is left out in `absent_links`"
        if set(ends) != {device, hop.parent}:
            return f"the ends of {self.names.link(hop.link)} are {self.names.device(ends[0])} and {self.names.device(ends[1])}"
        return None

    def _one_link(self, device: int, name: str) -> Iterator[str]:
        yield f"The primary and the backup of {name} go over the same link."
        yield f"Change: give {name} a backup over another link, or none."

    def _too_deep(self, device: int, name: str) -> Iterator[str]:
        yield f"The way of {name} to the root has more than {self.topology.depth} links, which is `depth`, or goes round."
        if self.plan:
            yield f"Its way: {way_text(self.names, device, way(self.plan, device))}."
        yield "Change: a shorter way, or a greater `depth`."

    def _no_backup(self, device: int, name: str) -> Iterator[str]:
        yield f"{name} is the backup root and has no backup: no second way to the root that shares no fault domain with the first."
        root = self.plan.root if self.plan else self.topology.roots[0]
        first = self.plan.rows[device].primary if self.plan and device in self.plan.rows else self._first_way(device, root)
        if first is None:
            yield f"No device with a link to {self.names.device(root)} has one to {name} too."
        else:
            yield f"Its first way: {way_text(self.names, device, self._by(first, root))}."
            yield from self._shared(device, root, first)
        yield f"Change: lead a link from {name} to a device on another feed, rack and tray; or split the domain that is shared."

    def _candidates(self, device: int, root: int) -> List[Hop]:
        """Hops of a device to neighbours that have a link to the root, in the order of the text, or to the root itself."""
        left_out = set(self.plan.absent_devices) if self.plan else set()
        links = [it for it in self.topology.links if not (self.plan and it.number in self.plan.absent_links)]
        beside = {link.other(root) for link in links if root in link.ends} | {root}
        found = [Hop(link.other(device), link.number) for link in links if device in link.ends]
        return sorted((hop for hop in found if hop.parent in beside - left_out), key=lambda it: (it.parent, it.link))

    def _first_way(self, device: int, root: int) -> Optional[Hop]:
        return next(iter(self._candidates(device, root)), None)

    def _by(self, hop: Hop, root: int) -> List[Hop]:
        """A way over a neighbour, and from it to the root."""
        if hop.parent == root:
            return [hop]
        links = (link for link in self.topology.links if set(link.ends) == {hop.parent, root})
        link = next(links, None)
        return [hop, Hop(root, link.number)] if link else [hop]

    def _shared(self, device: int, root: int, first: Hop) -> Iterator[str]:
        """For each other way of the backup root: the first domain that it shares with its first way, if it does."""
        taken = things_of(self._by(first, root)) | {("device", root)}
        others = [it for it in self._candidates(device, root) if it.link != first.link]
        for hop in others[:MOST_WAYS]:
            other = things_of(self._by(hop, root)) - {("device", root)}
            text = way_text(self.names, device, self._by(hop, root))
            shared = next((it for it in all_domains(self.topology) if it.things & taken and it.things & other), None)
            if shared is None:
                yield f"The way {text} shares no domain with it, and could be its backup."
            else:
                yield (f"The way {text} shares {shared.text}, which takes {self.names.things(shared.things & taken)} of the first "
                       f"and {self.names.things(shared.things & other)} of this one.")
        if len(others) > MOST_WAYS:
            yield f"There are {len(others) - MOST_WAYS} more ways."

    def _ancestor(self, line: OutputLine) -> Iterator[str]:
        device, name = self._device(line), line.fields["device"]
        yield f"{name} stands above its own backup parent. After a move it would hear itself."
        row = self.plan.rows.get(device) if self.plan else None
        if self.plan and row and row.backup:
            hops = [row.backup, *way(self.plan, row.backup.parent)]
            yield f"Its backup way: {way_text(self.names, device, hops)}."
        yield f"Change: a backup parent whose way to the root does not lead through {name}."

    # Timing

    def _timing(self, line: OutputLine) -> Iterator[str]:
        rule, left, right = (line.fields[key] for key in ("rule", "left", "right"))
        what = "period" if rule == 1 else WAITS.get(rule, "wait")
        sign = "more than" if rule == 1 else "at least"
        yield f"{PURPOSE.get(rule, '')} For that `{what}`, on the fastest counter, has to be {sign} {time(right)}. It is {time(left)}."
        least = self._least(right + (rule == 1))
        if rule == 1:
            yield f"Change: a `period` of at least {time(least)}; or less `tick`, `depth` or `max` of the slowest link. No plan can mend this."
        else:
            have = f" It is {time(getattr(self.plan, what))} now." if self.plan else ""
            yield f"Change: a `{what}` of at least {time(least)}.{have}"

    def _least(self, low: int) -> int:
        """The least x with Low(x) at least this."""
        return max(_least_of(device, low) for device in self.topology.devices)

    # What one domain takes

    def _root(self, line: OutputLine) -> Iterator[str]:
        domain = failing(self.topology, domain_of(line))
        kind, name = line.fields["at"]["kind"], line.fields["at"]["name"]
        yield f"{_upper(domain.text)} takes both roots, or both ways of the backup root to the root. It has the {kind} {name}."
        if self.plan:
            root, backup = self.plan.root, self.plan.backup_root
            if {("device", root), ("device", backup)} <= domain.things:
                yield f"It has the root {self.names.device(root)} and the backup root {self.names.device(backup)}."
            else:
                yield from self._both_ways(domain, backup)
        yield f"Change: another order of `roots`, another backup of the backup root, or split {domain.text}."

    def _both_ways(self, domain: Failing, backup: int) -> Iterator[str]:
        assert self.plan
        row = self.plan.rows.get(backup)
        if row is None or row.backup is None:
            return
        ways = ("first", way(self.plan, backup)), ("backup", [row.backup, *way(self.plan, row.backup.parent)])
        for what, hops in ways:
            taken = domain.things & things_of(hops)
            yield f"Of the {what} way, {way_text(self.names, backup, hops)}, it takes {self.names.things(taken)}."

    def _loop(self, line: OutputLine) -> Iterator[str]:
        domain, cycle = failing(self.topology, domain_of(line)), line.fields["cycle"]
        yield f"While {domain.text} is down, these may follow each other in a circle: {' - '.join([*cycle, cycle[0]])}."
        numbers = [self.topology.device_numbers[it] for it in cycle]
        for device, parent in zip(numbers, [*numbers[1:], numbers[0]]):
            yield from self._arrow(domain, device, parent)
        yield f"Change: for one of them a backup that does not lead back, such as {self._others(domain, numbers)}."

    def _arrow(self, domain: Failing, device: int, parent: int) -> Iterator[str]:
        row = self.plan.rows.get(device) if self.plan else None
        if not self.plan or row is None:
            return
        if row.primary.parent == parent:
            yield f"{self.names.device(device)} follows {self.names.hop(row.primary)}."
        elif row.backup:
            taken = domain.things & things_of(epath(self.plan, device))
            yield f"{self.names.device(device)} moves to {self.names.hop(row.backup)}, since {self.names.things(taken)} of its way is down."

    def _others(self, domain: Failing, circle: List[int]) -> str:
        found = [f"{self.names.hop(hop)} for {self.names.device(it)}" for it in circle for hop in self._sound(domain, it, set(circle))]
        return listed(found[:3], "or") if found else "over a link that has to be added"

    def _sound(self, domain: Failing, device: int, avoid: Set[int]) -> List[Hop]:
        """Hops of a device that a domain leaves, past those that it has already."""
        row = self.plan.rows.get(device) if self.plan else None
        had = {hop.link for hop in (row.primary, row.backup) if hop} if row else set()
        absent: Set[Thing] = set()
        if self.plan:
            absent = {("device", it) for it in self.plan.absent_devices} | {("link", it) for it in self.plan.absent_links}
        return [
            Hop(link.other(device), link.number) for link in self.topology.links
            if device in link.ends and link.number not in had and link.other(device) not in avoid
            and not {("link", link.number), ("device", link.other(device))} & (domain.things | absent)
        ]

    def _domain(self, line: OutputLine) -> Iterator[str]:
        domain, device, name = failing(self.topology, domain_of(line)), self._device(line), line.fields["device"]
        yield f"{_upper(domain.text)} takes the way of {name} and its backup together, while links still join {name} to the root."
        row = self.plan.rows.get(device) if self.plan else None
        if self.plan and row and row.backup:
            first, backup = domain.things & things_of(epath(self.plan, device)), domain.things & things_of([row.backup])
            yield f"It takes {self.names.things(first)} of its way, and {self.names.things(backup)} of its backup."
        yield f"Change: {self._backup_for(domain, device, name)}; or split {domain.text}."

    def _backup_for(self, domain: Failing, device: int, name: str) -> str:
        found = self._sound(domain, device, set())
        if not found:
            return f"a link from {name} to another device, both outside {domain.text}"
        return f"a backup of {name} outside {domain.text}, such as {listed((self.names.hop(it) for it in found[:3]), 'or')}"

    def _reach(self, line: OutputLine) -> Iterator[str]:
        domain, chain = failing(self.topology, domain_of(line)), line.fields["chain"]
        yield f"While {domain.text} is down, {chain[0]} never hears again, and there are links by which it could."
        last = self.topology.device_numbers[chain[-1]]
        if len(chain) > 1:
            yield f"It turns to {chain[1]}, and so on: {' - '.join(chain)}. The last has nowhere to go."
        row = self.plan.rows.get(last) if self.plan else None
        if row:
            yield f"{chain[-1]} follows {self.names.hop(row.primary)}, and has {f'the backup {self.names.hop(row.backup)}' if row.backup else 'no backup'}."
        yield f"Change: {self._backup_for(domain, last, chain[-1])}."


def _least_of(device: Device, low: int) -> int:
    """The least x with low(x) at least this, for one device."""
    if device.ppm >= 1_000_000:
        return low
    value = (low + device.grain) * 1_000_000 // (1_000_000 - device.ppm)
    value = max(0, value - 2)
    while value - grow(device.ppm, value) - device.grain < low:
        value += 1
    return value


def _upper(text: str) -> str:
    return text[0].upper() + text[1:]
