"""The picture of a plan: devices by rank, primaries solid, backups dashed. Colour and outline tell states alone."""

from __future__ import annotations

from typing import FrozenSet, Iterable, List, Optional, Set, Tuple

from sundial_tools.effects import Effect
from sundial_tools.plan import Plan
from sundial_tools.report.fold import PADDING, Box, Drawing, Edge, Point
from sundial_tools.report.markup import Raw, element, title
from sundial_tools.report.refusal import Refusal
from sundial_tools.things import Named, hop_text
from sundial_tools.topology import Topology
from sundial_tools.units import clear

# A small tree is drawn larger, as long as it stays so wide.
MOST_ZOOM, WIDE = 1.4, 760.0
NOTHING = Effect(Named("", "", (), ()), None, (), (), ())
# It shrinks so far on a narrow page, and then its region scrolls.
LEAST_ZOOM = 0.7


def zoom_of(width: float) -> float:
    return max(1.0, min(MOST_ZOOM, WIDE / width))


class TreePicture:
    """Draws one plan. `effect` is the domain under which it is shown, `refusal` what it is marked by, `changed` the hops
    that the plan before did not have, and `place` the number of the plan on the page."""

    def __init__(
        self, topology: Topology, plan: Plan, drawing: Drawing, effect: Optional[Effect], refusal: Optional[Refusal],
        changed: FrozenSet[Tuple[str, int]] = frozenset(), place: int = 1,
    ) -> None:
        self._topology, self._plan, self._drawing, self._place = topology, plan, drawing, place
        self._effect, self._refusal, self._changed = effect or NOTHING, refusal, changed
        self._states = self._effect.states
        self._ring = ring_hops(plan, refusal)
        self._steps = {device: place for place, device in enumerate(refusal.steps, 1)} if refusal else {}

    def svg(self, label: str) -> Raw:
        width, height = self._drawing.width, self._drawing.height
        drawn = [(edge, self._edge_states(edge), route) for edge, route in zip(self._drawing.edges, self._drawing.routes)]
        # What is refused is drawn last, over all others, at its full length.
        drawn.sort(key=lambda one: "breach" in one[1])
        edges = [self._edge(*one) for one in drawn]
        boxes = [self._box(box) for box in self._drawing.boxes]
        is_folded, zoom = any(not box.is_single for box in self._drawing.boxes), zoom_of(width)
        return element(
            "svg", edges, boxes, class_="tree breached" if self._ring else "tree", viewBox=f"0 0 {width:.0f} {height:.0f}",
            width=round(width * zoom), height=round(height * zoom),
            style=f"min-width:{width * LEAST_ZOOM:.0f}px;--side:{self._drawing.boxes[0].square - 2:.0f}px",
            role="group" if is_folded else "img", aria_label=label,
        )

    # Edges

    def _edge(self, edge: Edge, states: List[str], route: List[Point]) -> Raw:
        return element(
            "path", title(self._edge_title(edge)), class_=" ".join(["edge", edge.kind] + states), d=_path(route),
            marker_start="url(#arrow)" if "breach" in states else None,
            data_parents=ranges(edge.parents), data_devices=ranges(edge.devices), data_links=ranges(edge.links),
        )

    def _edge_title(self, edge: Edge) -> str:
        names = self._topology.devices
        parents = names[edge.parents[0]].name + (f" and {len(edge.parents) - 1} more" if len(edge.parents) > 1 else "")
        if len(edge.devices) == 1:
            link = self._topology.links[edge.links[0]]
            bounds = link.towards(edge.devices[0])
            return f"{edge.kind} of {names[edge.devices[0]].name}: {parents} over {link.name}, {clear(bounds.min)} to {clear(bounds.max)}"
        return f"{edge.kind} of {len(edge.devices)} devices: {parents}"

    def _edge_states(self, edge: Edge) -> List[str]:
        hops = {(edge.kind, device) for device in edge.devices}
        failing, moved = self._effect.domain, set(self._effect.moving).intersection(edge.devices)
        states = {
            "breach": self._ring & hops or (self._refusal is not None and self._refusal.links.intersection(edge.links)),
            "changed": self._changed & hops, "failed": {*failing.links} & {*edge.links} or {*failing.devices} & {*edge.parents},
            "taken": moved and edge.kind == "backup", "left": len(moved) == len(edge.devices) and edge.kind != "backup",
        }
        return [state for state, is_so in states.items() if is_so]

    # Boxes

    def _box(self, box: Box) -> Raw:
        left, top = box.x - box.width / 2, box.y - box.height / 2
        if box.is_single:
            return self._device(box.devices[0], left, top, box.width, box.height)
        total = f"{len(box.devices)} devices" if len(box.devices) > len(box.units) else f"{len(box.units)} alike"
        parts: List[Raw] = [
            title(f"{box.label}: {total}. Their rows are in the list below"),
            element("rect", class_="shared", x=left, y=top, width=box.width, height=box.height, rx=7),
            element("text", box.label, class_="count", x=left + PADDING, y=top + 15),
        ]
        for device, place, (x, y) in box.places():
            if box.has_blocks and place == 0:
                parts.append(element("text", self._topology.devices[device].name, class_="unit", x=x, y=y - 3))
            parts.append(self._square(device, x, y))
        return element("a", parts, class_="box", href=f"#plan-{self._place}-{box.devices[0]}")

    def _square(self, device: int, left: float, top: float) -> Raw:
        # (there are thousands of them: the style has their size, and the script their titles)
        return Raw(f'<rect class="{self._classes(device)}" data-device="{device}" x="{left:.0f}" y="{top:.0f}"/>')

    def _device(self, device: int, left: float, top: float, width: float, height: float) -> Raw:
        parts = [
            title(device_title(self._topology, self._plan, device)),
            element("rect", x=left, y=top, width=width, height=height, rx=5),
            element("text", self._topology.devices[device].name, x=left + width / 2, y=top + height / 2 + 4.5),
        ]
        role = {self._plan.root: "R", self._plan.backup_root: "B"}.get(device)
        if role is not None:
            parts.append(_badge(role, "role", left + width, top))
        if device in self._steps and len(self._steps) > 1:
            parts.append(_badge(str(self._steps[device]), "step", left, top))
        return element("g", parts, class_=self._classes(device), data_device=device)

    def _classes(self, device: int) -> str:
        plan = self._plan
        states = ["device"] + ["root"] * (device == plan.root) + ["backup-root"] * (device == plan.backup_root) + ["breach"] * (device in self._steps)
        return " ".join(states + [state for state, devices in self._states.items() if device in devices])


def device_title(topology: Topology, plan: Plan, device: int) -> str:
    """A device with its hops."""
    parts = [topology.devices[device].name]
    parts += ["root"] * (device == plan.root) + ["backup root"] * (device == plan.backup_root)
    row = plan.rows.get(device)
    for what, hop in (("primary", row.primary), ("backup", row.backup)) if row is not None else ():
        parts += [f"{what} {hop_text(topology, hop)}"] if hop is not None else []
    domains = [domain.name for domain in topology.domains if device in domain.devices]
    return ", ".join(parts) + (f" (domain {' '.join(domains)})" if domains else "")


def ring_hops(plan: Plan, refusal: Optional[Refusal]) -> Set[Tuple[str, int]]:
    """The hops of the cycle or chain of a refusal: of which kind, and of which device."""
    hops: Set[Tuple[str, int]] = set()
    if refusal is None or (len(refusal.steps) < 2 and refusal.condition != "loop"):
        return hops
    steps = refusal.steps
    following = steps[1:] + steps[:1] if refusal.condition == "loop" else steps[1:]
    for device, parent in zip(steps, following):
        row = plan.rows.get(device)
        of = {"primary": row.primary.parent, "backup": row.backup.parent if row.backup else None} if row else {}
        kinds = [kind for kind in (("backup", "primary") if refusal.condition == "reach" else ("primary", "backup")) if of.get(kind) == parent]
        hops.update((kind, device) for kind in kinds[:1])
    return hops


def ranges(numbers: Iterable[int]) -> str:
    """Numbers in a short form, which the script reads: 3 7-12."""
    runs: List[List[int]] = []
    for number in sorted(numbers):
        if runs and number == runs[-1][1] + 1:
            runs[-1][1] = number
        else:
            runs.append([number, number])
    return " ".join(f"{first}-{last}" if last > first else str(first) for first, last in runs)


def _badge(text: str, kind: str, x: float, y: float) -> Raw:
    return element(
        "g", element("circle", cx=x, cy=y, r=8.5), element("text", text, x=x, y=y + 3.8), class_=f"badge {kind}",
    )


def _path(route: List[Point]) -> str:
    first, rest = route[0], route[1:]
    return f"M{first[0]:.1f} {first[1]:.1f}C" + " ".join(f"{x:.1f} {y:.1f}" for x, y in rest)
