"""The texts that `plan`, `renew` and `migrate` write, as lines of kinds."""

from __future__ import annotations

from typing import Iterator

from sundial_tools.outputs import OutputLine
from sundial_tools.plan import parse_plan
from sundial_tools.topology import Topology, parse_topology


def plan_lines(text: str, topology: Topology, source: str) -> Iterator[OutputLine]:
    """A line for the plan and one for each of its rows. Waits are picoseconds."""
    plan = parse_plan(text, topology, source)
    devices = [device.name for device in topology.devices]
    links = [link.name for link in topology.links]
    yield OutputLine("plan", {
        "root": devices[plan.root], "backup_root": devices[plan.backup_root], "wait_first": plan.wait_first,
        "wait_second": plan.wait_second, "wait": plan.wait,
        "absent_devices": [devices[device] for device in plan.absent_devices],
        "absent_links": [links[link] for link in plan.absent_links],
    })
    for row in sorted(plan.rows.values(), key=lambda row: row.device):
        fields = {"device": devices[row.device], "parent": devices[row.primary.parent], "link": links[row.primary.link]}
        if row.backup is not None:
            fields.update(backup=devices[row.backup.parent], backup_link=links[row.backup.link])
        yield OutputLine("plan row", fields)


def topology_lines(text: str, source: str) -> Iterator[OutputLine]:
    """A line for the topology and one for each device, link and domain. Times are picoseconds."""
    topology = parse_topology(text, source)
    devices = [device.name for device in topology.devices]
    fields = {key: getattr(topology, key) for key in ("version", "ppm", "grain", "period", "tick", "loss", "depth")}
    yield OutputLine("topology", {**fields, "roots": [devices[root] for root in topology.roots]})
    for device in topology.devices:
        yield OutputLine("topology device", {
            "number": device.number, "device": device.name, "side": device.side, "ppm": device.ppm, "grain": device.grain,
        })
    for link in topology.links:
        yield OutputLine("topology link", {
            "number": link.number, "link": link.name, "first": devices[link.ends[0]], "second": devices[link.ends[1]],
            "min": link.forth.min, "max": link.forth.max, "back_min": link.back.min, "back_max": link.back.max,
        })
    for domain in topology.domains:
        yield OutputLine("topology domain", {
            "number": domain.number, "domain": {"kind": "listed", "name": domain.name},
            "devices": [devices[device] for device in domain.devices],
            "links": [topology.links[link].name for link in domain.links],
        })
