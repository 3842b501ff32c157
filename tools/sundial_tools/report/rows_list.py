"""The rows of a plan as a list that opens and closes: each device below the one that it follows, those of one rack together."""

from __future__ import annotations

from typing import Dict, Iterator, List

from sundial_tools.report.markup import Raw, element, joined
from sundial_tools.things import hop_text
from sundial_tools.tree import Tree
from sundial_tools.units import count

# About so many lines are open at first. Devices of a rack fold where there are so many beside each other.
MOST_OPEN, LEAST_FOLDED = 40, 8


class RowsList:
    """The list of the plan with this number on the page."""

    def __init__(self, tree: Tree, place: int) -> None:
        self._tree, self._place = tree, place
        self._rack = {device: domain.name for domain in sorted(tree.topology.domains, key=lambda it: -len(it.devices)) for device in domain.devices}

    def html(self) -> Raw:
        tree, shown, depth = self._tree, 1, 0
        while shown <= MOST_OPEN and shown < len(tree.members):
            depth += 1
            shown = sum(tree.depths[device] <= depth for device in tree.members)
        parts = [element("ul", self._item(tree.plan.root, max(1, depth - (shown > MOST_OPEN))), class_="rows")]
        if tree.lost:
            parts.append(element("p", "Not joined to the root by primary hops:"))
            parts.append(element("ul", [element("li", self._said(device)) for device in tree.lost], class_="rows lost"))
        return element("div", parts, class_="fabric")

    def _item(self, device: int, depth: int) -> Raw:
        """A device and all below it, open where that is above a depth."""
        children = self._tree.children.get(device, [])
        if not children:
            return element("li", self._said(device), id=self._anchor(device))
        below = element("ul", list(self._grouped(children, depth)))
        more = f"; {count(len(self._tree.below(device)) - 1, 'device')} below"
        inner = element("details", element("summary", self._said(device), more), below, open=self._tree.depths[device] < depth)
        return element("li", inner, id=self._anchor(device))

    def _grouped(self, children: List[int], depth: int) -> Iterator[Raw]:
        racks: Dict[str, List[int]] = {}
        for child in children:
            racks.setdefault(self._rack.get(child, "") if len(children) >= LEAST_FOLDED else "", []).append(child)
        for rack, devices in racks.items():
            items = [self._item(device, depth) for device in devices]
            if rack and 1 < len(devices) < len(children):
                yield element("li", element("details", element("summary", f"{rack}: {count(len(devices), 'device')}"), element("ul", items)))
            else:
                yield from items

    def _said(self, device: int) -> Raw:
        plan, topology = self._tree.plan, self._tree.topology
        parts = ["root"] * (device == plan.root) + ["backup root"] * (device == plan.backup_root)
        row = plan.rows.get(device)
        if row is not None:
            is_lost = device in self._tree.lost
            parts.append(f"follows {hop_text(topology, row.primary)}" if is_lost else f"over {topology.links[row.primary.link].name}")
            parts.append("no backup" if row.backup is None else f"backup {hop_text(topology, row.backup)}")
        return joined([element("b", topology.devices[device].name), f" {', '.join(parts)}"])

    def _anchor(self, device: int) -> str:
        return f"plan-{self._place}-{device}"
