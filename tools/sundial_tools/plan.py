"""Plans: docs/RULES.md, Plans. Names become the numbers of a topology."""

from __future__ import annotations

from dataclasses import dataclass
from functools import cached_property
from typing import Any, Dict, List, Optional, Tuple

from sundial_tools.errors import ToolError, decoded
from sundial_tools.json_text import parse_json
from sundial_tools.topology import MOST_BYTES, Topology, open_bytes

MOST_WAIT = 2**60
# How many ticks longer than both waits of the backup root a drill holds by default.
TICKS = 3


@dataclass(frozen=True)
class Hop:
    """A parent and the link to it."""

    parent: int
    link: int


@dataclass(frozen=True)
class Row:
    device: int
    primary: Hop
    backup: Optional[Hop]


@dataclass(frozen=True)
class Plan:
    """`wait_first`, `wait_second` and `wait` are picoseconds of a device's own counter."""

    root: int
    backup_root: int
    wait_first: int
    wait_second: int
    wait: int
    absent_devices: Tuple[int, ...]
    absent_links: Tuple[int, ...]
    rows: Dict[int, Row]

    @cached_property
    def ends_below(self) -> Dict[int, Tuple[Tuple[int, int], ...]]:
        """For each parent pairs of a link and its receiver, by ascending link."""
        ends: Dict[int, List[Tuple[int, int]]] = {}
        for row in self.rows.values():
            for hop in (row.primary, row.backup):
                if hop is not None:
                    ends.setdefault(hop.parent, []).append((hop.link, row.device))
        return {parent: tuple(sorted(pairs)) for parent, pairs in ends.items()}

    def members(self, topology: Topology) -> List[int]:
        absent = set(self.absent_devices)
        return [device.number for device in topology.devices if device.number not in absent]

    def below(self, device: int) -> Tuple[Tuple[int, int], ...]:
        """To whom a device sends: pairs of a link and its receiver, by ascending link."""
        return self.ends_below.get(device, ())


def default_hold(topology: Topology, plan: Plan) -> int:
    """HOLD of a drill where nobody says another one: a takeover does not take longer."""
    return plan.wait_first + plan.wait_second + TICKS * topology.tick


def read_plan(path: str, topology: Topology) -> Plan:
    with open_bytes(path) as file:
        text = file.read(MOST_BYTES + 1)
    if len(text) > MOST_BYTES:
        raise ToolError("the plan has more than 2^26 bytes", path)
    return parse_plan(decoded(text, path), topology, path)


def parse_plan(text: str, topology: Topology, source: Optional[str] = None) -> Plan:
    said = parse_json(text, source, "no JSON")
    if not isinstance(said, dict):
        raise ToolError("the plan is no JSON object", source)
    return _Reader(topology, source).plan(said)


def is_of(said: Any, topology: Topology) -> bool:
    """Whether the devices of a plan, as JSON, are mostly those of the topology. Else it is a plan of another one."""
    rows = said.get("rows") if isinstance(said, dict) else None
    names = [row.get("device") for row in rows if isinstance(row, dict)] if isinstance(rows, list) else []
    return 2 * sum(isinstance(name, str) and name in topology.device_numbers for name in names) >= len(names)


class _Reader:
    def __init__(self, topology: Topology, source: Optional[str]) -> None:
        self._topology, self._source, self._whose = topology, source, ""

    def _refuse(self, reason: str) -> ToolError:
        return ToolError(reason, self._source)

    def plan(self, said: Dict[str, Any]) -> Plan:
        self._whose = "" if is_of(said, self._topology) else "it is a plan of another topology: "
        if said.get("version") != 1:
            raise self._refuse(f"the plan's version is {said.get('version')}, and has to be 1")
        rows: Dict[int, Row] = {}
        for entry in self._list(said, "rows"):
            row = self._row(entry)
            if row.device in rows:
                raise self._refuse(f"the plan has two rows of {entry['device']}")
            rows[row.device] = row
        return Plan(
            self._device(said, "root"), self._device(said, "backup_root"),
            self._wait(said, "wait_first"), self._wait(said, "wait_second"), self._wait(said, "wait"),
            tuple(sorted(self._number(name, "device") for name in self._list(said, "absent_devices"))),
            tuple(sorted(self._number(name, "link") for name in self._list(said, "absent_links"))),
            rows,
        )

    def _list(self, said: Dict[str, Any], key: str) -> List[Any]:
        value = said.get(key)
        if not isinstance(value, list):
            raise self._refuse(f"{key} of the plan is no array")
        return value

    def _wait(self, said: Dict[str, Any], key: str) -> int:
        value = said.get(key)
        if not isinstance(value, int) or isinstance(value, bool) or not 0 <= value <= MOST_WAIT:
            raise self._refuse(f"{key} of the plan is no whole number from 0 to 2^60")
        return value

    def _number(self, name: Any, kind: str) -> int:
        numbers = self._topology.device_numbers if kind == "device" else self._topology.link_numbers
        if not isinstance(name, str) or name not in numbers:
            raise self._refuse(f"{self._whose}the plan has {name}, and the topology has no such {kind}")
        return numbers[name]

    def _device(self, said: Dict[str, Any], key: str) -> int:
        if said.get(key) is None:
            raise self._refuse(f"the plan has no {key}")
        return self._number(said[key], "device")

    def _row(self, entry: Any) -> Row:
        if not isinstance(entry, dict):
            raise self._refuse("a row of the plan is no object")
        device = self._device(entry, "device")
        primary = Hop(self._device(entry, "parent"), self._link(entry, "link"))
        if entry.get("backup") is None and entry.get("backup_link") is None:
            return Row(device, primary, None)
        return Row(device, primary, Hop(self._device(entry, "backup"), self._link(entry, "backup_link")))

    def _link(self, entry: Dict[str, Any], key: str) -> int:
        if entry.get(key) is None:
            raise self._refuse(f"a row of the plan has no {key}")
        return self._number(entry[key], "link")

