"""What a number of the drill is made of: docs/DRILL.md, The formula."""

from __future__ import annotations

from typing import Collection, Dict, NamedTuple, Tuple

from sundial_tools.effects import Effects
from sundial_tools.plan import Hop, Plan
from sundial_tools.things import Named
from sundial_tools.topology import Device, Topology

MILLION = 10**6


class Parts(NamedTuple):
    """In picoseconds: BASE, the way between the two roots, the time for which both hold their estimates, the way to the
    device, and what its oscillator adds while it hears nothing new."""

    base: int
    roots: int
    hold: int
    way: int
    silence: int


MEANING = {
    "base": "BASE", "roots": "the way between the two roots", "hold": "HOLD: a root keeps its own time, and takes over",
    "way": "the way to the device", "silence": "silence, until the device hears again",
}


class Makeup:
    """The parts of the numbers of a plan for BASE and HOLD."""

    def __init__(self, topology: Topology, plan: Plan, base: int, hold: int) -> None:
        self.base, self.hold = base, hold
        self._topology, self._plan, self._roots = topology, plan, (plan.root, plan.backup_root)
        self._effects = Effects(topology, plan)
        delay = max((max(link.forth.max, link.back.max) for link in topology.links), default=0)
        self._w = (topology.loss + 2) * (self._up(topology.period) + topology.tick) + 4 * (topology.depth + 1) * delay
        self._between = self._halves_of_roots()
        self._held = sum(_grown(topology.devices[root], hold) for root in self._roots)
        noticed = self._w + topology.tick
        self._settling = max(self._up(plan.wait_first) + self._up(plan.wait_second) + 6 * noticed, self._up(plan.wait) + noticed)

    def of(self, domain: Named, device: int) -> Parts:
        """The parts while the things of a domain fail, for a device that has a number there."""
        hit = frozenset(move.device for move in self._effects.of(domain).moves)
        way, links = self._longest(device, hit, {})
        known = self._topology.devices[device]
        quiet = self._settling + 2 * self._w * (links + 1)
        return Parts(self.base, 2 * self._between, self._held, way, _grown(known, _oldest(known, quiet)))

    def _up(self, time: int) -> int:
        """The greatest time of the reference while a counter advances by so much."""
        return max(time + _grown(device, time) for device in self._topology.devices)

    def _half(self, device: int, hop: Hop) -> int:
        return self._topology.links[hop.link].towards(device).half

    def _halves_of_roots(self) -> int:
        row = self._plan.rows.get(self._plan.backup_root)
        hops = (row.primary, row.backup) if row else ()
        return max((self._halves(self._plan.backup_root, hop) for hop in hops if hop is not None), default=0)

    def _halves(self, device: int, hop: Hop) -> int:
        """The sum of halves over a hop, and from its parent over primary links to the root."""
        total = self._half(device, hop)
        for _ in range(self._topology.depth):
            row = self._plan.rows.get(hop.parent)
            if hop.parent == self._plan.root or row is None:
                break
            total, hop = total + self._half(hop.parent, row.primary), row.primary
        return total

    def _longest(self, device: int, hit: Collection[int], known: Dict[int, Tuple[int, int]]) -> Tuple[int, int]:
        """The greatest sum of halves and the greatest number of links of its walks. Who is hit may be on its backup, too."""
        row = self._plan.rows.get(device)
        if device in self._roots or row is None:
            return 0, 0
        if device not in known:
            known[device] = 0, 0  # (of an accepted plan no walk comes back)
            hops = [row.primary] + ([row.backup] if row.backup is not None and device in hit else [])
            walks = [(self._half(device, hop), *self._longest(hop.parent, hit, known)) for hop in hops]
            known[device] = max(half + way for half, way, _ in walks), max(links + 1 for *_, links in walks)
        return known[device]


def _grown(device: Device, time: int) -> int:
    """What an estimate grows by while a device holds it."""
    return device.grain + -(-device.ppm * time // MILLION)


def _oldest(device: Device, quiet: int) -> int:
    """How old an estimate may be, on the counter of a device that has heard nothing for so long."""
    return (MILLION * (quiet + device.grain + 1) - 1) // (MILLION - device.ppm)
