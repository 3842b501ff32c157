"""Finds out by trying all plans whether a small network has one: each is judged by the definitions of the conditions."""

from __future__ import annotations

import itertools
from typing import Dict, Iterator, List, Optional

from decided import Network, Pair
from decider import Rows, plan

from sundial_tools.plain.conditions import Conditions
from sundial_tools.plan import Hop, Row


def has_plan(net: Network, pair: Pair) -> bool:
    """Whether one of all plans is accepted."""
    topology = net.topology()
    return any(Conditions(topology, plan(pair, rows)).breach() is None for rows in all_rows(net, pair))


def all_rows(net: Network, pair: Pair) -> Iterator[Rows]:
    """All rows that keep the rules of structure."""
    root, backup_root = pair
    devices, hops = [it for it in net.devices if it != root], net.hops()
    for primaries in itertools.product(*(hops[it] for it in devices)):
        chosen = dict(zip(devices, primaries))
        if all(_steps(net, root, chosen, it) <= net.depth for it in devices):
            backups: List[List[Optional[Hop]]] = [
                [*([] if it == backup_root else [None]), *(hop for hop in hops[it] if hop.link != chosen[it].link)] for it in devices
            ]
            for second in itertools.product(*backups):
                yield {it: Row(it, chosen[it], backup) for it, backup in zip(devices, second)}


def _steps(net: Network, root: int, chosen: Dict[int, Hop], device: int) -> int:
    count = 0
    while device != root and count <= net.depth:
        device, count = chosen[device].parent, count + 1
    return count
