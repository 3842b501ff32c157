"""The devices of a plan below each other."""

from __future__ import annotations

from typing import Dict, List, Optional

from sundial_tools.plan import Plan
from sundial_tools.topology import Topology


class Tree:
    """The devices of a plan below each other, by their primary hops. `depths` says how many hops each is below the root."""

    def __init__(self, topology: Topology, plan: Plan) -> None:
        self.topology, self.plan = topology, plan
        self.members = plan.members(topology)
        self.depths = _depths(plan, self.members)
        self.lost = [it for it in self.members if self.depths[it] > len(self.members)]
        for device in self.lost:
            self.depths[device] = max((depth for depth in self.depths.values() if depth <= len(self.members)), default=0) + 1
        lost, known = set(self.lost), set(self.members)
        self.children: Dict[int, List[int]] = {}
        for device in self.members:
            row = plan.rows.get(device)
            if row is not None and device not in lost and device != plan.root and row.primary.parent in known:
                self.children.setdefault(row.primary.parent, []).append(device)

    def below(self, device: int) -> List[int]:
        """The subtree of a device, with the device first."""
        found, waiting = [], [device]
        while waiting:
            found.append(waiting.pop())
            waiting += reversed(self.children.get(found[-1], ()))
        return found


def _depths(plan: Plan, members: List[int]) -> Dict[int, int]:
    """How many primary links each member is below the root, and more than there are members where it does not reach it."""
    depths = {plan.root: 0}
    for member in members:
        chain: List[int] = []
        device: Optional[int] = member
        while device is not None and device not in depths and device not in chain:
            chain.append(device)
            row = plan.rows.get(device)
            device = row.primary.parent if row else None
        begin = depths[device] if device is not None and device in depths else len(members) + 1
        for place, passed in enumerate(reversed(chain), 1):
            depths[passed] = begin + place
    return {member: depths[member] for member in members}
