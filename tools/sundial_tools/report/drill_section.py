"""The part of the page that shows a drill: the domains that do alike by the devices that are alike, and what makes each number."""

from __future__ import annotations

import re
from fnmatch import fnmatchcase
from typing import Dict, List, NamedTuple, Optional, Sequence, Tuple

from sundial_tools.errors import ToolError
from sundial_tools.plan import Plan
from sundial_tools.report.drill import Drill, Group
from sundial_tools.report.markup import Raw, element, filled, folded, joined, region
from sundial_tools.report.parts import MEANING, Makeup, Parts
from sundial_tools.report.tables import Column, by_columns, exact, names_of
from sundial_tools.things import find_named
from sundial_tools.topology import Topology
from sundial_tools.units import clear, count, few, in_unit, unit_of

SHADES, MOST_COLUMNS, MOST_ROWS, MOST_NAMES, OPEN_ROWS = 9, 16, 100, 12, 40


class Beside(NamedTuple):
    """Devices that are one column, by their places in the drill."""

    label: str
    places: Tuple[int, ...]


class Alike(NamedTuple):
    """Domains under which each column has the same greatest bound, and as many devices without one."""

    domains: List[str]
    group: Group
    cells: Tuple[Tuple[Optional[int], int], ...]

    @property
    def worst(self) -> int:
        return max((bound for bound, _ in self.cells if bound is not None), default=-1)

    @property
    def unbounded(self) -> int:
        return sum(unbounded for _, unbounded in self.cells)


class DrillSection:
    """`calm` has by device what it stays below while nothing has failed, where that is known. `patterns` say of which devices."""

    def __init__(self, topology: Topology, plan: Plan, drill: Drill, calm: Dict[int, int], makeup: Makeup, patterns: Sequence[str]) -> None:
        self._topology, self._plan, self._drill, self._calm, self._makeup = topology, plan, drill, calm, makeup
        self._names = [topology.devices[device].name for device in drill.devices]
        self._rack = {device: domain.number for domain in reversed(topology.domains) for device in domain.devices}
        self._of = self._asked(patterns)
        self._columns = self._made_columns()
        self._rows = self._made_rows()
        bounds = [bound for row in self._rows for bound, _ in row.cells if bound is not None]
        if not bounds:
            raise ToolError("the drill has no bound of these devices")
        self._least, self._worst = min(bounds), max(bounds)
        self._parts = self._made_parts()

    # Of which devices

    def _asked(self, patterns: Sequence[str]) -> List[int]:
        """The places of the devices that readers ask for: those of the patterns, or hosts, or all where there are none."""
        edge = _edge(self._topology, self._plan)
        found = [
            place for place, name in enumerate(self._names)
            if (any(fnmatchcase(name, pattern) for pattern in patterns) if patterns else self._drill.devices[place] in edge)
        ]
        if patterns and not found:
            raise ToolError(f"no device has a name like {' or '.join(patterns)}")
        self._is_edge = bool(found) and not patterns
        return found or list(range(len(self._names)))

    def _made_columns(self) -> List[Beside]:
        places: Dict[Tuple[object, ...], List[int]] = {}
        single = len(self._of) <= MOST_COLUMNS
        roots = {self._plan.root: ("0", "R "), self._plan.backup_root: ("1", "B ")}
        for place in self._of:
            device, name = self._drill.devices[place], self._names[place]
            order, sign = roots.get(device, ("2", ""))
            key = (order, role_of(name), self._rack.get(device, len(self._rack)), place) if single or sign else (order, role_of(name))
            places.setdefault((*key, sign), []).append(place)
        return [
            Beside(f"{key[-1]}{_alike([self._names[place] for place in found])}", tuple(found))
            for key, found in sorted(places.items(), key=lambda one: tuple(map(str, one[0][:2])) + (one[1],))
        ]

    def _made_rows(self) -> List[Alike]:
        rows: Dict[Tuple[object, ...], Alike] = {}
        for group in self._drill.groups:
            cells = tuple(self._cell_of(group, column) for column in self._columns)
            for domain in group.domains:
                kind, _, name = domain.partition(" ")
                rows.setdefault((kind, role_of(name), cells), Alike([], group, cells)).domains.append(domain)
        return sorted(rows.values(), key=lambda row: (-row.worst, row.unbounded))

    def _cell_of(self, group: Group, column: Beside) -> Tuple[Optional[int], int]:
        bounds = [group.bounds[place] for place in column.places]
        return max((bound for bound in bounds if bound is not None), default=None), sum(bound is None for bound in bounds)

    def _made_parts(self) -> Dict[int, Tuple[int, str, Optional[Parts]]]:
        """By place the worst bound, under which domain, and its parts where they make the number."""
        found: Dict[int, Tuple[int, str, Optional[Parts]]] = {}
        for place in self._of:
            group = max(self._drill.groups, key=lambda group: -1 if group.bounds[place] is None else group.bounds[place] or 0)
            bound = group.bounds[place]
            if bound is not None:
                parts = self._makeup.of(find_named(self._topology, group.domains[0]), self._drill.devices[place])
                found[place] = bound, group.domains[0], parts if sum(parts) == bound else None
        return found

    @property
    def is_explained(self) -> bool:
        """Whether all numbers are those of BASE and HOLD."""
        return all(parts is not None for *_, parts in self._parts.values())

    # The section

    def html(self) -> Raw:
        return filled(
            "drill", facts=self._facts(), least=clear(self._least), worst=clear(self._worst), map=self._map(), devices=self._by_device()
        )

    def _facts(self) -> str:
        worst = max(self._parts.items(), key=lambda one: one[1][0])
        text = f"{budget_text(self._makeup)} " if self.is_explained else f"BASE and HOLD are not {budget_text(self._makeup)[:-1]}: give --base and --hold to see what makes the numbers. "
        text += f"{count(self._drill.domains, 'domain')}, {count(len(self._drill.devices), 'device')}. "
        if len(self._of) < len(self._drill.devices):
            text += f"Shown: {count(len(self._of), 'device')}" + (", the hosts: nobody follows them, and no candidate for root is beside them. " if self._is_edge else ". ")
        text += f"The greatest bound is {clear(worst[1][0])}, that of {self._names[worst[0]]} under {worst[1][1]}; the least is {clear(self._least)}."
        if self._calm:
            text += f" While nothing has failed, no report is above {clear(max(self._calm.values()))}."
        return text

    def _shade(self, bound: int) -> int:
        return min(SHADES - 1, (bound - self._least) * SHADES // max(1, self._worst - self._least))

    def _map(self) -> Raw:
        size, unit = unit_of(self._worst)
        heads = [element("th", text, scope="col") for text in ("domain", "alike", f"worst, {unit}", "no bound")]
        heads += [element("th", column.label, scope="col", title=self._names_of(column.places)) for column in self._columns]
        shown = self._rows[:MOST_ROWS]
        rows = [element("tr", self._row_heads(row, size), [self._cell(row, place, size) for place in range(len(self._columns))]) for row in shown]
        whole = element("table", element("thead", element("tr", heads)), element("tbody", rows), class_="heat")
        more = self._rows[MOST_ROWS:]
        said = [f"{sum(len(row.domains) for row in more)} domains more are at most {clear(more[0].worst)} wide."] if more else []
        return joined([region("The drill by domains and devices", whole, class_="table"), *(element("p", text, class_="note") for text in said)])

    def _row_heads(self, row: Alike, size: int) -> List[Raw]:
        worst = "none" if row.worst < 0 else in_unit(row.worst, size)
        head = element("th", _alike(row.domains), scope="row", title=few(row.domains, MOST_NAMES))
        return [head, *(element("td", text, class_="number") for text in (str(len(row.domains)), worst, str(row.unbounded)))]

    def _cell(self, row: Alike, place: int, size: int) -> Raw:
        bound, unbounded = row.cells[place]
        column = self._columns[place]
        if bound is None:
            return element("td", "none", class_="cell hx", title=f"{row.domains[0]}, {column.label}: no bound")
        widest = next(it for it in column.places if row.group.bounds[it] == bound)
        some = f" ({unbounded} none)" if unbounded else ""
        said = f"{row.domains[0]}, {self._names[widest]}: {clear(bound)}" + (f"; {unbounded} without a bound" if unbounded else "")
        return element("td", in_unit(bound, size) + some, class_=f"cell a{self._shade(bound)}", title=said)

    def _by_device(self) -> Raw:
        """Devices that are alike have one row."""
        without = {place: sum(len(group.domains) for group in self._drill.groups if group.bounds[place] is None) for place in self._of}
        calm = {place: self._calm.get(self._drill.devices[place], 0) for place in self._of}
        rows: Dict[Tuple[object, ...], List[int]] = {}
        for place, (bound, _, parts) in sorted(self._parts.items(), key=lambda one: (-one[1][0], one[0])):
            rows.setdefault((role_of(self._names[place]), bound, parts, calm[place], without[place]), []).append(place)
        firsts = [found[0] for found in rows.values()]
        made = [self._bar(parts) for _, _, parts in map(self._parts.__getitem__, firsts) if parts is not None]
        columns: List[Column] = [
            ("device", list(map(self._names_of, rows.values()))), *(exact(["calm, {}"], [[calm[place] for place in firsts]]) if self._calm else []),
            *exact(["worst eps, {}"], [[self._parts[place][0] for place in firsts]]), *([("what makes it", made)] if self.is_explained else []),
            ("under", [self._parts[place][1] for place in firsts]), ("domains without bound", [str(without[place]) for place in firsts]),
        ]
        keys = [filled("key", key=f"part {part}", text=text) for part, text in MEANING.items()]
        legend = element("p", keys, class_="legend") if self.is_explained else ""
        caption = f"The worst eps by device: {count(len(firsts), 'row')}, the greatest first"
        return folded(caption, legend, by_columns("by-device", columns), is_open=len(firsts) <= OPEN_ROWS)

    def _bar(self, parts: Parts) -> Raw:
        """The parts beside each other, as long as they are of the greatest number."""
        said = {part: f"{MEANING[part]}: {clear(size)}" for part, size in parts._asdict().items()}
        bars = [element("i", class_=f"part {part}", title=text, style=f"--w:{getattr(parts, part) / self._worst:.2%}") for part, text in said.items()]
        return element("span", bars, class_="parts", role="img", aria_label="; ".join(said.values()))

    def _names_of(self, places: Sequence[int]) -> str:
        return names_of(self._topology, [self._drill.devices[place] for place in places])


def budget_text(makeup: Makeup) -> str:
    return f"BASE {clear(makeup.base)}, HOLD {clear(makeup.hold)}."


def _alike(names: Sequence[str]) -> str:
    return names[0] + (f" and {len(names) - 1} alike" if len(names) > 1 else "")


def role_of(name: str) -> str:
    """The letters with which a name begins: leaf of leaf12-3."""
    found = re.match("[A-Za-z]+", name)
    return found[0] if found else name


def _edge(topology: Topology, plan: Plan) -> "set[int]":
    """The hosts: devices that nobody follows, and beside which there is no candidate for root."""
    beside = {link.other(end) for link in topology.links for end in link.ends if end in topology.roots}
    return {device.number for device in topology.devices if device.number not in beside and not plan.below(device.number)} - set(topology.roots)
