"""The seven conditions on a plan, by their definitions: docs/CONDITIONS.md. The line is that of `sundial check`."""

from __future__ import annotations

from typing import Callable, Iterable, Iterator, List, NamedTuple, Optional, Sequence, Set, Tuple

from sundial_tools.plain.device import grow
from sundial_tools.plan import Hop, Plan
from sundial_tools.topology import Device, Topology

Thing = Tuple[str, int]
Words = Sequence[object]


class Domain(NamedTuple):
    """What may fail at once: a listed domain, a device alone, or a link alone."""

    kind: str
    name: str
    things: Set[Thing]


def low(device: Device, counted: int) -> int:
    """The least reference time that passes while its counter advances by so much."""
    return max(0, counted - grow(device.ppm, counted) - device.grain)


def up(device: Device, counted: int) -> int:
    """The greatest."""
    return counted + grow(device.ppm, counted) + device.grain


class Conditions:
    """A topology and a plan. `line` is what `sundial check` prints of them."""

    def __init__(self, topology: Topology, plan: Plan) -> None:
        self.topology, self.plan = topology, plan
        self.devices = range(len(topology.devices))
        self.members = [it for it in self.devices if it not in plan.absent_devices]
        self.domains = [
            Domain("listed", it.name, {("device", at) for at in it.devices} | {("link", at) for at in it.links}) for it in topology.domains
        ]
        self.domains += [Domain("device", it.name, {("device", it.number)}) for it in topology.devices]
        self.domains += [Domain("link", it.name, {("link", it.number)}) for it in topology.links]

    def line(self) -> str:
        breach = self.breach()
        if breach is None:
            return f"accepted {len(self.devices)} {len(self.topology.links)} {len(self.domains)}"
        return "refused plan 1 " + " ".join(map(str, breach))

    def breach(self) -> Optional[Words]:
        """The first condition that the plan breaks, and what shows it."""
        alone: Sequence[Callable[[], Optional[Words]]] = (self._structure, self._ancestor, self.timing)
        found = next((words for words in (test() for test in alone) if words), None)
        if found:
            return found
        of_domains: Sequence[Tuple[str, Callable[[Domain], Optional[Words]]]] = (
            ("root", self._root), ("loop", self._loop), ("domain", self._domain), ("reach", self._reach),
        )
        for name, test in of_domains:
            for domain in self.domains:
                words = test(domain)
                if words:
                    return [name, domain.kind, domain.name, *words]
        return None

    def _name(self, device: int) -> str:
        return self.topology.devices[device].name

    # Rows and walks

    def primary(self, device: int) -> Optional[Hop]:
        row = self.plan.rows.get(device)
        return row.primary if row else None

    def backup(self, device: int) -> Optional[Hop]:
        row = self.plan.rows.get(device)
        return row.backup if row else None

    def ends_walks(self, device: int) -> bool:
        return device in (self.plan.root, self.plan.backup_root)

    def hops(self, device: int, ends: Sequence[int]) -> List[Hop]:
        """The primary hops from a device until one leads to one of these ends, as many as the depth at most."""
        found: List[Hop] = []
        hop = self.primary(device)
        while hop and len(found) < self.topology.depth:
            found.append(hop)
            hop = None if hop.parent in ends else self.primary(hop.parent)
        return found

    def walk(self, device: int) -> List[Hop]:
        return [] if device == self.plan.root else self.hops(device, [self.plan.root])

    def short_path(self, device: int) -> List[Hop]:
        return [] if device == self.plan.root else self.hops(device, [self.plan.root, self.plan.backup_root])

    def is_hit(self, domain: Domain, device: int) -> bool:
        return hits(domain, self.short_path(device))

    # The conditions on a plan alone

    def _structure(self) -> Optional[Words]:
        plan = self.plan
        wrong: Optional[int] = None
        if plan.root not in self.members:
            wrong = plan.root
        elif plan.backup_root not in self.members or plan.root == plan.backup_root:
            wrong = plan.backup_root
        if wrong is not None:
            return "structure", 1, "device", self._name(wrong)
        rules = (self._row_is_right, self._hops_are_right, self._links_differ, self._reaches_root, self._falls_back)
        for rule, keeps in enumerate(rules, 2):
            for device in self.devices:
                if not keeps(device):
                    return "structure", rule, "device", self._name(device)
        return None

    def _row_is_right(self, device: int) -> bool:
        return (device in self.plan.rows) == (device in self.members and device != self.plan.root)

    def _hops_are_right(self, device: int) -> bool:
        hops = [hop for hop in (self.primary(device), self.backup(device)) if hop]
        return all(
            hop.parent in self.members and hop.link not in self.plan.absent_links
            and sorted(self.topology.links[hop.link].ends) == sorted((device, hop.parent)) for hop in hops
        )

    def _links_differ(self, device: int) -> bool:
        primary, backup = self.primary(device), self.backup(device)
        return not primary or not backup or primary.link != backup.link

    def _reaches_root(self, device: int) -> bool:
        return device not in self.members or end_of(device, self.walk(device)) == self.plan.root

    def _falls_back(self, device: int) -> bool:
        return device != self.plan.backup_root or self.backup(device) is not None

    def _ancestor(self) -> Optional[Words]:
        for device in self.devices:
            hop = self.backup(device)
            if hop is None:
                continue
            short = [] if self.ends_walks(hop.parent) else self.short_path(hop.parent)
            hops = self.walk(hop.parent) if device == self.plan.backup_root else short
            if device in devices_of(hop.parent, hops):
                return "ancestor", "device", self._name(device)
        return None

    def timing(self) -> Optional[Words]:
        topology, plan = self.topology, self.plan

        def lowest(counted: int) -> int:
            return min(low(it, counted) for it in topology.devices)

        def highest(counted: int) -> int:
            return max(up(it, counted) for it in topology.devices)

        delay = max((bounds.max for link in topology.links for bounds in (link.forth, link.back)), default=0)
        gap = highest(topology.period) + topology.tick
        silence = (topology.loss + 2) * gap + 4 * (topology.depth + 1) * delay
        first, second = highest(plan.wait_first), highest(plan.wait_second)
        sides = (
            (lowest(topology.period), 2 * (topology.depth + 1) * delay + topology.tick),
            (lowest(plan.wait_first), 2 * (silence + topology.tick)),
            (lowest(plan.wait_second), 2 * (silence + topology.tick)),
            (lowest(plan.wait), first + second + 6 * (silence + topology.tick)),
            (lowest(plan.wait), 2 * first + second + 2 * (silence + topology.tick)),
        )
        for rule, (left, right) in enumerate(sides, 1):
            if left < right or (rule == 1 and left == right):
                return "timing", rule, left, right
        return None

    # The conditions on each domain

    def _root(self, domain: Domain) -> Optional[Words]:
        root, backup_root = self.plan.root, self.plan.backup_root
        if has_device(domain, root) and has_device(domain, backup_root):
            return "at", "device", self._name(backup_root)
        hop = self.backup(backup_root)
        if not hits(domain, self.walk(backup_root)) or hop is None:
            return None
        walk = self.walk(hop.parent)
        devices = set(devices_of(hop.parent, walk)) - {root}
        links = {hop.link, *(it.link for it in walk)}
        for device in sorted(devices):
            if has_device(domain, device):
                return "at", "device", self._name(device)
        for link in sorted(links):
            if has_link(domain, link):
                return "at", "link", self.topology.links[link].name
        return None

    def _hops_of(self, domain: Domain, device: int) -> List[Hop]:
        """The hops that a device may be on while things of the domain fail."""
        if device not in self.members or self.ends_walks(device):
            return []
        hops = (self.primary(device), self.backup(device) if self.is_hit(domain, device) else None)
        return [hop for hop in hops if hop]

    def _loop(self, domain: Domain) -> Optional[Words]:
        leads = {it: {hop.parent for hop in self._hops_of(domain, it)} for it in self.devices}
        endless = set(self.devices)
        while any(not leads[it] & endless for it in endless):
            endless = {it for it in endless if leads[it] & endless}
        if not endless:
            return None
        way = [min(endless)]
        while way[-1] not in way[:-1]:
            way.append(min(leads[way[-1]] & endless))
        return ["cycle", *map(self._name, way[way.index(way[-1]) : -1])]

    def _is_sound(self, domain: Domain, device: int) -> bool:
        return device in self.members and not has_device(domain, device)

    def _acting_end(self, domain: Domain) -> int:
        return self.plan.backup_root if has_device(domain, self.plan.root) else self.plan.root

    def _reachers(self, domain: Domain) -> Set[int]:
        """The devices that sound links and devices join to the acting end."""
        end = self._acting_end(domain)
        if has_device(domain, end):
            return set()
        links = [it for it in self.topology.links if it.number not in self.plan.absent_links and not has_link(domain, it.number)]
        found = {end}
        while True:
            through = {it for it in found if self._is_sound(domain, it)}
            more = {link.other(at) for link in links for at in link.ends if at in through} - found
            if not more:
                return found
            found |= more

    def _domain(self, domain: Domain) -> Optional[Words]:
        reachers = self._reachers(domain)
        for device in self.devices:
            hop = self.backup(device)
            is_asked = self._is_sound(domain, device) and not self.ends_walks(device) and self.is_hit(domain, device) and device in reachers
            if is_asked and hop and (has_link(domain, hop.link) or has_device(domain, hop.parent)):
                return "device", self._name(device)
        return None

    def _turn(self, domain: Domain, device: int) -> Optional[int]:
        """To whom a hit device turns, over what the domain leaves."""
        hop = self.backup(device) or self.primary(device)
        return None if hop is None or has_link(domain, hop.link) or has_device(domain, hop.parent) else hop.parent

    def _fed(self, domain: Domain) -> Set[int]:
        """The sound devices that come to hear the acting end."""
        sound = [it for it in self.devices if self._is_sound(domain, it)]
        calm = (self._acting_end(domain), self.plan.backup_root)
        fed = {it for it in sound if it in calm or not self.is_hit(domain, it)}
        while True:
            more = {it for it in sound if self._turn(domain, it) in fed} - fed
            if not more:
                return fed
            fed |= more

    def _reach(self, domain: Domain) -> Optional[Words]:
        fed, reachers = self._fed(domain), self._reachers(domain)
        starved = [it for it in self.devices if self._is_sound(domain, it) and it not in fed and it in reachers]
        if not starved:
            return None
        chain = [starved[0]]
        while True:
            turn = self._turn(domain, chain[-1])
            if turn is None or turn in chain:
                return ["chain", *map(self._name, chain)]
            chain.append(turn)


def has_device(domain: Domain, device: int) -> bool:
    return ("device", device) in domain.things


def has_link(domain: Domain, link: int) -> bool:
    return ("link", link) in domain.things


def hits(domain: Domain, hops: Iterable[Hop]) -> bool:
    """The domain has a link of the hops, or a device to which one leads."""
    return any(has_link(domain, hop.link) or has_device(domain, hop.parent) for hop in hops)


def devices_of(device: int, hops: Iterable[Hop]) -> Iterator[int]:
    """The devices of a walk from a device."""
    yield device
    yield from (hop.parent for hop in hops)


def end_of(device: int, hops: Sequence[Hop]) -> int:
    return hops[-1].parent if hops else device
