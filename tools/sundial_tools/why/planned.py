"""The plan that the rule of `sundial plan` and `sundial renew` makes, without waits: docs/PLANNER.md."""

from __future__ import annotations

import heapq
from typing import Callable, Collection, Dict, Iterable, List, Optional, Set

from sundial_tools.plan import Hop, Plan, Row
from sundial_tools.topology import Topology
from sundial_tools.why.said import Thing, things_of, way


def planned(topology: Topology, root: int, devices: Collection[int], links: Collection[int]) -> Optional[Plan]:
    """The plan under this root without these devices and links, also where a condition refuses it. None without two roots."""
    backup_root = next((it for it in topology.roots if it != root and it not in devices), None)
    if root in devices or backup_root is None:
        return None
    return _Planner(topology, root, backup_root, devices, links).plan()


class _Planner:
    def __init__(self, topology: Topology, root: int, backup_root: int, devices: Collection[int], links: Collection[int]) -> None:
        self._topology, self._root, self._backup_root, self._absent = topology, root, backup_root, (devices, links)
        self._beside: Dict[int, List[Hop]] = {it.number: [] for it in topology.devices if it.number not in devices}
        for link in topology.links:
            if link.number not in links and self._beside.keys() >= set(link.ends):
                for end in link.ends:
                    self._beside[end].append(Hop(link.other(end), link.number))
        for hops in self._beside.values():
            hops.sort(key=lambda hop: (hop.parent, hop.link))
        self._depth: Dict[int, int] = {root: 0}
        self._primary: Dict[int, Hop] = {}
        self._things = [{("device", it) for it in domain.devices} | {("link", it) for it in domain.links} for domain in topology.domains]
        self._domains: Dict[Thing, Set[int]] = {}
        for domain, things in enumerate(self._things):
            for thing in things:
                self._domains.setdefault(thing, set()).add(domain)

    def plan(self) -> Plan:
        sides = [device.side for device in self._topology.devices]
        self._spread([self._root], lambda it: it != self._backup_root and sides[it] == "root")
        self._place_nearest(self._backup_root)
        if self._backup_root in self._depth:
            self._spread([self._backup_root], lambda it: sides[it] == "backup")
        self._place_left()
        first = self._made({device: Row(device, hop, None) for device, hop in self._primary.items()})
        return self._made({device: Row(device, hop, self._backup(first, device)) for device, hop in self._primary.items()})

    def _made(self, rows: Dict[int, Row]) -> Plan:
        devices, links = (tuple(sorted(numbers)) for numbers in self._absent)
        return Plan(self._root, self._backup_root, 0, 0, 0, devices, links, rows)

    # Places

    def _spread(self, order: List[int], may: Callable[[int], bool]) -> None:
        """Breadth first from the first of the order, over devices that may be placed."""
        for parent in order:
            for hop in self._beside[parent]:
                if hop.parent not in self._depth and may(hop.parent):
                    self._place(hop.parent, Hop(parent, hop.link))
                    order.append(hop.parent)

    def _place_left(self) -> None:
        """Always the first device that has a placed neighbour."""
        waiting = [device for device, hops in self._beside.items() if any(hop.parent in self._depth for hop in hops)]
        heapq.heapify(waiting)
        while waiting:
            device = heapq.heappop(waiting)
            if device not in self._depth:
                self._place_nearest(device)
                for hop in self._beside[device]:
                    heapq.heappush(waiting, hop.parent)

    def _place_nearest(self, device: int) -> None:
        placed = [hop for hop in self._beside[device] if hop.parent in self._depth]
        if placed:
            self._place(device, min(placed, key=lambda hop: (self._depth[hop.parent], hop.parent)))

    def _place(self, device: int, hop: Hop) -> None:
        self._depth[device], self._primary[device] = self._depth[hop.parent] + 1, hop

    # Backups

    def _backup(self, plan: Plan, device: int) -> Optional[Hop]:
        serves = self._serves_backup_root(plan) if device == self._backup_root else self._serves(plan, device)
        return next((hop for hop in self._beside[device] if hop.parent in self._depth and serves(hop)), None)

    def _is_behind(self, plan: Plan, device: int) -> bool:
        """The device is on the side of the backup root."""
        return self._backup_root in (device, *(hop.parent for hop in way(plan, device)))

    def _domains_of(self, things: Iterable[Thing]) -> Set[int]:
        return {domain for thing in things for domain in self._domains.get(thing, ())}

    def _serves(self, plan: Plan, device: int) -> Callable[[Hop], bool]:
        primary, own, side = self._primary[device], (self._depth[device], device), self._is_behind(plan, device)
        joining = self._domains_of(things_of([primary])) - self._domains_of([("device", device)])

        def serves(hop: Hop) -> bool:
            if hop.link == primary.link or hop.parent == primary.parent:
                return False
            may_follow = self._is_behind(plan, hop.parent) != side or (self._depth[hop.parent], hop.parent) < own
            return may_follow and joining.isdisjoint(self._domains_of(things_of([hop])))

        return serves

    def _serves_backup_root(self, plan: Plan) -> Callable[[Hop], bool]:
        """Its whole walk shares no domain with the backup root's own, but for the root."""
        primary, own = self._primary[self._backup_root], things_of(way(plan, self._backup_root))
        near = own.union(*(self._things[domain] for domain in self._domains_of(own))) - {("device", self._root)}

        def serves(hop: Hop) -> bool:
            is_other = hop.link != primary.link and not self._is_behind(plan, hop.parent)
            return is_other and near.isdisjoint(things_of([hop, *way(plan, hop.parent)]))

        return serves
