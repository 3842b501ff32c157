"""What changes from one plan to the next: roots, who is left out, and the hops of devices."""

from __future__ import annotations

from typing import FrozenSet, Iterator, NamedTuple, Tuple

from sundial_tools.plan import Plan
from sundial_tools.report.markup import Raw, element, folded
from sundial_tools.report.tables import names_of, table
from sundial_tools.things import hop_text
from sundial_tools.topology import Topology
from sundial_tools.units import count, human

OPEN_ROWS = 20


class Changes(NamedTuple):
    """`hops` are the hops that are new in the later plan: primary or backup, and the device."""

    devices: Tuple[int, ...]
    hops: FrozenSet[Tuple[str, int]]


def changes(before: Plan, after: Plan) -> Changes:
    hops = set()
    for device, row in after.rows.items():
        old = before.rows.get(device)
        if old is None or old.primary != row.primary:
            hops.add(("primary", device))
        if row.backup is not None and (old is None or old.backup != row.backup):
            hops.add(("backup", device))
    devices = set(after.rows) | set(before.rows)
    moved = {device for device in devices if before.rows.get(device) != after.rows.get(device)}
    return Changes(tuple(sorted(moved)), frozenset(hops))


def changes_section(topology: Topology, place: int, before: Plan, after: Plan) -> Raw:
    found = changes(before, after)
    rows = [[topology.devices[device].name, *_hops(topology, before, device), *_hops(topology, after, device)] for device in found.devices]
    head = ("device", f"primary in plan {place}", "its backup", f"primary in plan {place + 1}", "its backup")
    caption = f"Rows that change: {len(rows)} of {len(set(before.rows) | set(after.rows))}"
    return element(
        "section",
        element("h3", f"What changes from plan {place} to plan {place + 1}", id=f"changes-{place + 1}"),
        element("ul", [element("li", fact) for fact in _facts(topology, before, after)]),
        folded(caption, table(f"changes-{place + 1}", head, rows), is_open=len(rows) <= OPEN_ROWS) if rows else Raw(""),
        class_="changes",
    )


def _facts(topology: Topology, before: Plan, after: Plan) -> Iterator[str]:
    names = [device.name for device in topology.devices]
    for what, old, new in ("root", before.root, after.root), ("backup root", before.backup_root, after.backup_root):
        yield f"The {what} stays {names[new]}." if old == new else f"The {what} is {names[new]} instead of {names[old]}."
    for what, less, more in ("Left out", before, after), ("Taken in", after, before):
        devices = sorted(set(more.absent_devices) - set(less.absent_devices))
        if devices:
            yield f"{what}: {names_of(topology, devices)}."
    for what, less, more in ("Left out", before, after), ("Taken in", after, before):
        links = len(set(more.absent_links) - set(less.absent_links))
        if links:
            yield f"{what}: {count(links, 'link')}."
    for key in "wait_first", "wait_second", "wait":
        if getattr(before, key) != getattr(after, key):
            yield f"{key} is {human(getattr(after, key))} instead of {human(getattr(before, key))}."


def _hops(topology: Topology, plan: Plan, device: int) -> Tuple[str, str]:
    row = plan.rows.get(device)
    if row is None:
        return ("root" if device == plan.root else "left out", "")
    return hop_text(topology, row.primary), "none" if row.backup is None else hop_text(topology, row.backup)
