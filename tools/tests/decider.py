"""Decides whether a network has a plan under a pair of roots, with nothing left out: as a problem of satisfiability.

The conditions are those of docs/CONDITIONS.md without the waits, which are free. Where something follows from the choice of
hops (a depth, what a domain hits), a variable is true at least where that is so, since each condition asks that it is not.
Loops are looked for in each solution, and forbidden one by one.

Without loops, *domain* and *reach* together ask this of each domain F, and of each d that F hits and does not cut off: its
next hop is outside F. For then the next hops lead on to a device that F does not hit, or to a root.
"""

from __future__ import annotations

from typing import Dict, Hashable, Iterator, List, Optional, Set, Tuple

from decided import Group, Network, Pair
from networks import WAITS
from satisfied import satisfied

from sundial_tools.plan import Hop, Plan, Row

PRIMARY, BACKUP = "primary", "backup"
Rows = Dict[int, Row]
Arrow = Tuple[str, int, Hop]


def plan_of(net: Network, pair: Pair) -> Optional[Plan]:
    """A plan, or None where there is none."""
    rows = None if any(group.devices >= set(pair) for group in net.domains) else _Decider(net, *pair).rows()
    return None if rows is None else plan(pair, rows)


def plan(pair: Pair, rows: Rows) -> Plan:
    return Plan(*pair, *WAITS.values(), (), (), rows)


def joined(net: Network, start: int, lost: Group) -> Set[int]:
    """The devices outside a domain that links outside it join to this one."""
    found, waiting, hops = {start}, [start], net.hops()
    while waiting:
        for hop in hops[waiting.pop()]:
            if hop.parent not in found and hop.parent not in lost.devices and hop.link not in lost.links:
                found.add(hop.parent)
                waiting.append(hop.parent)
    return found


class _Decider:
    def __init__(self, net: Network, root: int, backup_root: int) -> None:
        self._net, self._root, self._backup_root = net, root, backup_root
        self._numbers: Dict[Hashable, int] = {}
        self._clauses: List[List[int]] = []
        self._hops = net.hops()
        self._rows = [it for it in net.devices if it != root]
        self._ordinary = [it for it in self._rows if it != backup_root]
        for condition in self._structure, self._depth, self._ancestor, self._backup_way, self._hit, self._two_as_backups:
            condition()

    def rows(self) -> Optional[Rows]:
        while True:
            solution = satisfied(len(self._numbers), self._clauses)
            if solution is None:
                return None
            rows = {it: self._row(solution, it) for it in self._rows}
            if not self._forbids_loops(rows):
                return rows

    def _row(self, solution: Set[int], device: int) -> Row:
        primary, backup = (
            next((hop for hop in self._hops[device] if self._is(which, device, hop) in solution), None) for which in (PRIMARY, BACKUP)
        )
        assert primary
        return Row(device, primary, backup)

    def _is(self, *what: Hashable) -> int:
        return self._numbers.setdefault(what, len(self._numbers) + 1)

    def _if(self, *conditions: int, then: Tuple[int, ...] = ()) -> None:
        """Where all conditions hold, one of these does."""
        self._clauses.append([*(-it for it in conditions), *then])

    def _most_one(self, variables: List[int]) -> None:
        for place, one in enumerate(variables):
            for other in variables[:place]:
                self._if(one, other)

    # Structure

    def _structure(self) -> None:
        for device in self._rows:
            primary, backup = ([self._is(which, device, hop) for hop in self._hops[device]] for which in (PRIMARY, BACKUP))
            none = [] if device == self._backup_root else [self._is("alone", device)]
            for choice in primary, backup + none:
                self._clauses.append(choice)
                self._most_one(choice)
            for one, other in zip(primary, backup):
                self._if(one, other)

    def _depth(self) -> None:
        """`at most` K: the walk has at most K steps."""
        most = min(self._net.depth, self._net.count - 1)
        for device in self._rows:
            self._if(then=(self._is("at most", device, most),))
            for steps in range(1, most + 1):
                for hop in self._hops[device]:
                    if hop.parent != self._root:
                        above = () if steps == 1 else (self._is("at most", hop.parent, steps - 1),)
                        self._if(self._is(PRIMARY, device, hop), self._is("at most", device, steps), then=above)

    # Ways

    def _ancestor(self) -> None:
        """`above` X Y: Y is on the short walk of X, and is neither of the two roots."""
        for above in self._ordinary:
            self._if(then=(self._is("above", above, above),))
            for device in self._ordinary:
                for hop in self._hops[device]:
                    if hop.parent in self._ordinary and device != above:
                        upper = self._is("above", hop.parent, above)
                        self._if(self._is(PRIMARY, device, hop), upper, then=(self._is("above", device, above),))
            for hop in self._hops[above]:
                if hop.parent in self._ordinary:
                    self._if(self._is(BACKUP, above, hop), self._is("above", hop.parent, above))

    def _backup_way(self) -> None:
        """`first` and `second` are the things of the two ways of the backup root. No domain has things of both."""
        for which, way in (PRIMARY, "first"), (BACKUP, "second"):
            for hop in self._hops[self._backup_root]:
                self._on_way(way, hop, self._is(which, self._backup_root, hop))
            for device in self._ordinary:
                for hop in self._hops[device]:
                    self._on_way(way, hop, self._is(way, "device", device), self._is(PRIMARY, device, hop))
        self._if(self._is("second", "device", self._backup_root))
        for number, group in enumerate(self._net.domains):
            ways = self._is("takes first", number), self._is("takes second", number)
            self._if(*ways)
            if self._root in group.devices:
                self._if(then=ways[:1])
            for thing in [("device", it) for it in group.devices - {self._root}] + [("link", it) for it in group.links]:
                self._if(self._is("first", *thing), then=ways[:1])
                self._if(self._is("second", *thing), then=ways[1:])

    def _on_way(self, way: str, hop: Hop, *conditions: int) -> None:
        self._if(*conditions, then=(self._is(way, "link", hop.link),))
        if hop.parent != self._root:
            self._if(*conditions, then=(self._is(way, "device", hop.parent),))

    # Domains

    def _hit(self) -> None:
        """`hit` F D: the domain hits the device. Then its next hop is outside the domain, where it is not cut off."""
        for number, group in enumerate(self._net.domains):
            acting = self._backup_root if self._root in group.devices else self._root
            left = joined(self._net, acting, group) - group.devices
            for device in self._ordinary:
                for hop in self._hops[device]:
                    self._hit_by(number, group, device, hop, device in left)

    def _hit_by(self, number: int, group: Group, device: int, hop: Hop, is_left: bool) -> None:
        hit, primary = self._is("hit", number, device), self._is(PRIMARY, device, hop)
        takes = hop.parent in group.devices or hop.link in group.links
        if takes:
            self._if(primary, then=(hit,))
        elif hop.parent in self._ordinary:
            self._if(primary, self._is("hit", number, hop.parent), then=(hit,))
        if takes and is_left:
            self._if(hit, self._is(BACKUP, device, hop))
            self._if(hit, self._is("alone", device), primary)

    # Loops

    def _two_as_backups(self) -> None:
        """No domain hits two devices that are each other's backups."""
        for one in self._ordinary:
            for hop in self._hops[one]:
                for back in self._hops[hop.parent] if hop.parent in self._ordinary and one < hop.parent else ():
                    if back.parent == one:
                        self._forbid([(BACKUP, one, hop), (BACKUP, hop.parent, back)])

    def _forbid(self, arrows: List[Arrow]) -> None:
        """Under no domain are all these arrows there."""
        for number in range(len(self._net.domains)):
            hit = [self._is("hit", number, device) for which, device, _ in arrows if which == BACKUP]
            self._if(*(self._is(*arrow) for arrow in arrows), *hit)

    def _forbids_loops(self, rows: Rows) -> bool:
        loops = {tuple(loop) for group in self._net.domains for loop in self._loops(rows, group)}
        for loop in loops:
            self._forbid(list(loop))
        return bool(loops)

    def _hit_set(self, rows: Rows, group: Group) -> Set[int]:
        hit: Set[int] = set()
        for start in self._ordinary:
            device = start
            while device in self._ordinary:
                hop = rows[device].primary
                if hop.parent in group.devices or hop.link in group.links:
                    hit.add(start)
                device = hop.parent
        return hit

    def _arrows(self, rows: Rows, group: Group) -> Dict[int, List[Arrow]]:
        """The arrows under a domain, of the devices from which one can follow them without end."""
        hit = self._hit_set(rows, group)
        arrows: Dict[int, List[Arrow]] = {}
        for device in self._ordinary:
            arrows[device], backup = [(PRIMARY, device, rows[device].primary)], rows[device].backup
            if device in hit and backup:
                arrows[device].append((BACKUP, device, backup))
        ending = list(arrows)
        while ending:
            ending = [device for device, some in arrows.items() if not any(hop.parent in arrows for _, _, hop in some)]
            for device in ending:
                del arrows[device]
        return arrows

    def _loops(self, rows: Rows, group: Group) -> Iterator[List[Arrow]]:
        """Loops of arrows under a domain: of each device that is on one a shortest, unless it has a lower device."""
        arrows = self._arrows(rows, group)
        for start in arrows:
            before: Dict[int, Arrow] = {}
            waiting = [start]
            while waiting and start not in before:
                for arrow in arrows.get(waiting.pop(0), ()):
                    parent = arrow[2].parent
                    if parent not in before:
                        before[parent] = arrow
                        waiting.append(parent)
            if start in before:
                loop = [before[start]]
                while loop[-1][1] != start:
                    loop.append(before[loop[-1][1]])
                if start == min(arrow[1] for arrow in loop):
                    yield loop
