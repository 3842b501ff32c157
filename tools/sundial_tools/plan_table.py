"""A plan as a table for the eye: whom each device follows, whom it turns to, and when."""

from __future__ import annotations

from typing import Callable, Iterator, List, Optional, Sequence, Tuple

from sundial_tools.errors import ToolError
from sundial_tools.plan import Hop, Plan, parse_plan
from sundial_tools.topology import Topology
from sundial_tools.tree import Tree
from sundial_tools.why.said import time

HEADS = ("device", "role", "parent", "link", "backup", "link", "depth")
ROOT, BACKUP_ROOT, ORDINARY = "root", "backup root", "-"


def plan_lines(text: str, topology: Topology) -> Optional[List[str]]:
    """The lines of the table of a plan's text, or None where it is none of this topology."""
    try:
        plan = parse_plan(text, topology)
    except ToolError:
        return None
    return [*_aligned([HEADS, *plan_rows(Tree(topology, plan))]), waits_said(plan, topology, time), *_left_out(plan, topology)]


def plan_rows(tree: Tree) -> Iterator[Tuple[str, ...]]:
    """A row for each device, those of less depth first."""
    plan, topology = tree.plan, tree.topology
    for device in sorted(tree.depths, key=lambda it: (tree.depths[it], it)):
        row = plan.rows.get(device)
        role = ROOT if device == plan.root else BACKUP_ROOT if device == plan.backup_root else ORDINARY
        hops = (row.primary, row.backup) if row else (None, None)
        cells = [cell for hop in hops for cell in _cells(hop, topology)]
        yield (topology.devices[device].name, role, *cells, str(tree.depths[device]))


def _cells(hop: Optional[Hop], topology: Topology) -> Tuple[str, str]:
    return (topology.devices[hop.parent].name, topology.links[hop.link].name) if hop else ("-", "-")


def waits_said(plan: Plan, topology: Topology, said: Callable[[int], str]) -> str:
    """When devices move and the backup root takes over, by `said` of each time."""
    return (
        f"{topology.devices[plan.backup_root].name} moves to its backup when it has heard nothing for {said(plan.wait_first)}, "
        f"and takes over after {said(plan.wait_second)} more. All others move to their backups after {said(plan.wait)}."
    )


def _left_out(plan: Plan, topology: Topology) -> Iterator[str]:
    absent = [topology.devices[it].name for it in plan.absent_devices] + [topology.links[it].name for it in plan.absent_links]
    if absent:
        yield f"The plan leaves out {', '.join(absent)}."


def _aligned(rows: Sequence[Sequence[str]]) -> List[str]:
    widths = [max(map(len, column)) for column in zip(*rows)]
    return ["  ".join(cell.ljust(width) for cell, width in zip(row, widths)).rstrip() for row in rows]
