"""What a device is told of a plan: docs/EMBED.md, The duty. Times are picoseconds."""

from __future__ import annotations

from dataclasses import dataclass
from typing import List, Optional, Tuple

from sundial_tools.plan import Hop, Plan
from sundial_tools.topology import Device, Topology

ROLES = ("root", "backup_root", "ordinary")


@dataclass(frozen=True)
class Edge:
    """A parent, the link to it, and the correction of what comes over it."""

    parent: int
    link: int
    mid: int
    half: int


@dataclass(frozen=True)
class Duty:
    """`role` is the place of its name in ROLES, which is the number of the header."""

    epoch: int
    role: int
    primary: Optional[Edge]
    backup: Optional[Edge]
    period: int
    wait_first: int
    wait_second: int
    wait: int
    ppm: int
    grain: int


@dataclass(frozen=True)
class Part:
    """A device in a plan: its duty, or None where the plan leaves it out, and to whom it sends, as pairs of a link and a device."""

    device: Device
    duty: Optional[Duty]
    children: Tuple[Tuple[int, int], ...]


@dataclass(frozen=True)
class Chapter:
    """A plan with its number, and the parts of the devices that were asked for."""

    epoch: int
    parts: Tuple[Part, ...]


def chapters(topology: Topology, plans: List[Plan], first_epoch: int, device: Optional[int]) -> List[Chapter]:
    devices = topology.devices if device is None else (topology.devices[device],)
    return [
        Chapter(epoch, tuple(_part(topology, plan, epoch, it) for it in devices))
        for epoch, plan in enumerate(plans, start=first_epoch)
    ]


def _part(topology: Topology, plan: Plan, epoch: int, device: Device) -> Part:
    return Part(device, _duty(topology, plan, epoch, device), plan.below(device.number))


def _duty(topology: Topology, plan: Plan, epoch: int, device: Device) -> Optional[Duty]:
    if device.number in plan.absent_devices:
        return None
    row = plan.rows.get(device.number)
    return Duty(
        epoch, _role(plan, device.number),
        _edge(topology, device.number, row.primary if row else None),
        _edge(topology, device.number, row.backup if row else None),
        topology.period, plan.wait_first, plan.wait_second, plan.wait, device.ppm, device.grain,
    )


def _role(plan: Plan, device: int) -> int:
    if device == plan.root:
        return 0
    return 1 if device == plan.backup_root else 2


def _edge(topology: Topology, device: int, hop: Optional[Hop]) -> Optional[Edge]:
    if hop is None:
        return None
    bounds = topology.links[hop.link].towards(device)
    return Edge(hop.parent, hop.link, bounds.mid, bounds.half)
