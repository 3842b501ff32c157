"""Reads what `sundial-readiness --json` wrote. Losses that do the same are kept once."""

from __future__ import annotations

from typing import Any, Dict, Iterable, List, NamedTuple, Optional, Tuple

from sundial_tools.errors import ToolError
from sundial_tools.json_text import parse_json
from sundial_tools.topology import Topology

KEYS: Dict[str, Tuple[type, ...]] = {
    "kind": (str,), "name": (str,), "takes_over": (bool,), "moving": (list,), "bound_ps": (int, type(None)),
    "bound_device": (str, type(None)), "without_bound": (int,), "cut_off": (list,), "planned_again": (bool,),
    "base_ps": (int,), "hold_ps": (int,), "refusal": (str, type(None)), "next_root": (str, type(None)), "next_backup_root": (str, type(None)),
}
# Keys that are there where the search was asked.
SEARCHED: Dict[str, Tuple[type, ...]] = {"found_by_search": (bool,), "search_refusal": (str, type(None))}


class Outcome(NamedTuple):
    """What losses do, by the keys of a line, and these losses, as `link a`. `bound_ps` is None where no device has a bound."""

    said: Dict[str, Any]
    names: List[str]


class Readiness(NamedTuple):
    """Those outcomes come first after which nothing is planned, then those that the search plans alone, then the widest.
    `budget` is BASE and HOLD of all bounds."""

    outcomes: List[Outcome]
    budget: Tuple[int, int]

    def count(self, key: str) -> int:
        """How many losses have that it is so."""
        return sum(len(names) for said, names in self.outcomes if said.get(key))

    @property
    def losses(self) -> int:
        return self.count("kind")


def read_readiness(lines: Iterable[str], topology: Topology, source: str) -> Readiness:
    found: Dict[str, Outcome] = {}
    known = {"listed": {it.name for it in topology.domains}, "device": topology.device_numbers, "link": topology.link_numbers}
    budget: Optional[Tuple[int, int]] = None
    for number, text in enumerate(lines, 1):
        said = _row(text, source, number)
        if said["name"] not in known.get(said["kind"], ()):
            raise ToolError(f"the topology has no {said['kind']} {said['name']}", source, number)
        if budget not in (None, (said["base_ps"], said["hold_ps"])):
            raise ToolError("the losses have several BASE or HOLD", source, number)
        budget = said["base_ps"], said["hold_ps"]
        does = {key: value for key, value in said.items() if key not in ("kind", "name")}
        found.setdefault(repr(sorted(does.items())), Outcome(said, [])).names.append(f"{said['kind']} {said['name']}")
    if budget is None:
        raise ToolError("there is no loss: it is no output of sundial-readiness --json", source)
    outcomes = sorted(found.values(), key=lambda it: (
        it.said["planned_again"], it.said.get("found_by_search", False), -(it.said["bound_ps"] or 0), -len(it.said["moving"]),
    ))
    return Readiness(outcomes, budget)


def _row(text: str, source: str, number: int) -> Dict[str, Any]:
    try:
        said = parse_json(text, source)
    except ToolError as fault:
        raise ToolError(fault.reason, source, number) from None
    keys = {**KEYS, **(SEARCHED if isinstance(said, dict) and SEARCHED.keys() & said.keys() else {})}
    if (
        not isinstance(said, dict) or any(type(said.get(key)) not in kinds for key, kinds in keys.items())
        or any(not isinstance(name, str) for key in ("moving", "cut_off") for name in said[key])
    ):
        raise ToolError("no line of sundial-readiness --json", source, number)
    return said
