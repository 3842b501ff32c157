"""What a plan does when the things of a fault domain fail: docs/CONDITIONS.md has the words."""

from __future__ import annotations

from dataclasses import dataclass
from functools import cached_property
from typing import Dict, FrozenSet, Iterator, List, NamedTuple, Optional, Set, Tuple

from sundial_tools.plan import Hop, Plan
from sundial_tools.things import Named
from sundial_tools.topology import Topology


class Move(NamedTuple):
    """A device that hears nothing, and the hop to which it moves; None where it has no backup."""

    device: int
    hop: Optional[Hop]


@dataclass(frozen=True)
class Effect:
    """`acts` is the device that acts as root in the end, None where both roots have failed. `cut` are devices that no link
    joins to it any more, and `silent` those that links join to it, and that never hear again."""

    domain: Named
    acts: Optional[int]
    moves: Tuple[Move, ...]
    cut: Tuple[int, ...]
    silent: Tuple[int, ...]

    @cached_property
    def moving(self) -> Tuple[int, ...]:
        """The devices that may move: they hear nothing, and have a backup."""
        return tuple(move.device for move in self.moves if move.hop is not None)

    @cached_property
    def without_backup(self) -> Tuple[int, ...]:
        """The devices that hear nothing, and have no backup."""
        return tuple(move.device for move in self.moves if move.hop is None)

    @property
    def is_nothing(self) -> bool:
        return not self.moves

    @property
    def states(self) -> Dict[str, Set[int]]:
        """The devices of each state, by its word on the page."""
        return {
            "failed": set(self.domain.devices), "moves": set(self.moving), "cut": set(self.cut), "silent": set(self.silent),
            "acts": set() if self.acts is None else {self.acts},
        }


class Effects:
    """Finds the effects of domains on one plan."""

    def __init__(self, topology: Topology, plan: Plan) -> None:
        self._topology, self._plan = topology, plan
        self._roots = plan.root, plan.backup_root
        self._members = frozenset(plan.members(topology))
        # By a thing, the devices whose ways it is on.
        self._hit_by: Dict[Tuple[str, int], List[int]] = {}
        for device in self._members:
            for thing in self._path(device):
                self._hit_by.setdefault(thing, []).append(device)

    def of(self, domain: Named) -> Effect:
        failed = frozenset(domain.devices)
        acts = next((root for root in self._roots if root not in failed), None)
        hit = self._hit(domain)
        fed: Dict[int, bool] = {}
        unfed = [device for device in sorted(hit) if not self._fed(domain, failed, device, hit, acts, fed)]
        cut = self._cut(domain, failed, unfed, acts)
        moves = tuple(Move(device, self._plan.rows[device].backup) for device in sorted(hit))
        return Effect(domain, acts, moves, tuple(it for it in unfed if it in cut), tuple(it for it in unfed if it not in cut))

    def _path(self, device: int) -> Iterator[Tuple[str, int]]:
        """The things of epath: up to the first of the two roots that it comes to, that one included."""
        row, steps = self._plan.rows.get(device), 0
        while row is not None and steps <= len(self._plan.rows):
            yield "link", row.primary.link
            yield "device", row.primary.parent
            if row.primary.parent in self._roots:
                return
            row, steps = self._plan.rows.get(row.primary.parent), steps + 1

    def _hit(self, domain: Named) -> Set[int]:
        hit: Set[int] = set()
        for kind, things in ("device", domain.devices), ("link", domain.links):
            for thing in things:
                hit.update(self._hit_by.get((kind, thing), ()))
        return hit.difference(domain.devices)

    def _fed(
        self, domain: Named, failed: FrozenSet[int], device: int, hit: Set[int], acts: Optional[int], known: Dict[int, bool]
    ) -> bool:
        """Whether it hears again. It follows next hops until one is known, or comes a second time."""
        chain: List[int] = []
        answer = False
        while True:
            if device in known:
                answer = known[device]
                break
            if device in failed or device in chain or device not in self._members:
                break
            if device in (acts, self._plan.backup_root) or device not in hit:
                answer = True
                break
            chain.append(device)
            row = self._plan.rows[device]
            hop = row.backup or row.primary
            if hop.link in domain.links:
                break
            device = hop.parent
        known.update((passed, answer) for passed in chain)
        return answer

    def _cut(self, domain: Named, failed: FrozenSet[int], devices: List[int], acts: Optional[int]) -> Set[int]:
        """Those of the devices that no link which is left joins to who acts. What is cut off is mostly small: so the search
        goes out from there, and ends where it comes to who acts or to a device that is known."""
        joined: Dict[int, bool] = {} if acts is None else {acts: True}
        for device in devices:
            seen, waiting, answer = {device}, [device], False
            while waiting and not answer:
                for link, end in self._beside.get(waiting.pop(), ()):
                    if link not in domain.links and end not in failed and end not in seen:
                        answer = answer or joined.get(end, False)
                        seen.add(end)
                        waiting.append(end)
            joined.update((it, answer) for it in seen)
        return {device for device in devices if not joined[device]}

    @cached_property
    def _beside(self) -> Dict[int, List[Tuple[int, int]]]:
        """For each member its links and the members that they lead to."""
        beside: Dict[int, List[Tuple[int, int]]] = {}
        absent = set(self._plan.absent_links)
        for link in self._topology.links:
            if link.number not in absent and self._members.issuperset(link.ends):
                for end in link.ends:
                    beside.setdefault(end, []).append((link.number, link.other(end)))
        return beside
