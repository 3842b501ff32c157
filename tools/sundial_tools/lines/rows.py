"""How lines are written: as JSON lines, or as CSV with the columns of their command."""

from __future__ import annotations

import csv
import json
from typing import Any, Callable, Dict, Optional, TextIO, Tuple

from sundial_tools.errors import ToolError

Fields = Dict[str, Any]
MOST_OF_A_FLOAT = 2**53

_EVENT = (
    "ref", "event.word", "event.device", "event.counter", "event.clock", "event.eps", "event.message", "event.thing",
    "event.number", "event.name",
)
_REFUSED = ("plan", "rule", "domain.kind", "domain.name", "at.kind", "at.name", "left", "right", "cycle", "chain")
_REPLAY = (
    "kind", "line", *_EVENT, "device", "other", "premise", "clock", "eps", "off", "inside", "stamp", "begin", "events",
    "reports", "begun", "ended", "disorders", "reason", "text", *_REFUSED, "who.devices", "who.links", "who.allowed",
    "who.seen", "who.text", "lineage.devices", "lineage.links", "lineage.honest", "lineage.text",
)
# Columns by the kind of the first line. A dot goes into an object.
_COLUMNS: Dict[str, Tuple[str, ...]] = {
    "bound": ("kind", "domain.kind", "domain.name", "device", "eps", "domains", "members"),
    "link": ("kind", "link", "min", "max", "count", "verdict", "lines", "links"),
    "plan": (
        "kind", "device", "parent", "link", "backup", "backup_link", "root", "backup_root", "wait_first", "wait_second",
        "wait", "absent_devices", "absent_links",
    ),
    "topology": (
        "kind", "number", "device", "link", "domain.name", "side", "ppm", "grain", "first", "second", "min", "max",
        "back_min", "back_max", "devices", "links", "version", "period", "tick", "loss", "depth", "roots",
    ),
    "accepted": ("kind", "devices", "links", "domains"),
    "case": ("kind", "events", "reports", "eps", "broken", "alarms"),
    "agree": ("kind", "lines", "opening"),
    "differ": ("kind", "fact", "thing", "number", "name"),
    "impossible": (
        "kind", "count", "listed", "candidate", "device", "hops", "depth", "links", "bridges", "devices", "needed",
    ),
    "open": ("kind",),
    "usage": ("kind", "text"),
}
_COLUMNS["nobound"] = _COLUMNS["bound"]
_COLUMNS["bounds"] = ("kind", "domain.kind", "domain.name", "device", "drill", "tight", "calm", "domains", "members")


def columns_of(kind: str, fields: Fields) -> Tuple[str, ...]:
    """The columns of a command, by its first line."""
    if kind == "done":
        return _COLUMNS["link"] if "links" in fields else _COLUMNS["bound"] if "members" in fields else _REPLAY
    return _COLUMNS.get("bounds" if "calm" in fields else kind.partition(" ")[0], _REPLAY)


def json_row(text: TextIO, with_strings: bool) -> Callable[[str, Fields], None]:
    """With strings, a number that a 64-bit float may not hold is written as a string."""

    def write(kind: str, fields: Fields) -> None:
        row = {"kind": kind, **fields}
        text.write(json.dumps(_strings(row) if with_strings else row, separators=(",", ":")) + "\n")

    return write


def _strings(value: Any) -> Any:
    if isinstance(value, dict):
        return {key: _strings(inner) for key, inner in value.items()}
    return str(value) if isinstance(value, int) and abs(value) > MOST_OF_A_FLOAT else value


def csv_row(text: TextIO) -> Callable[[str, Fields], None]:
    """Lists become names separated by spaces; the parts of a lineage are in its text. The first row names the columns."""
    table = csv.writer(text, lineterminator="\n")
    columns: Optional[Tuple[str, ...]] = None

    def write(kind: str, fields: Fields) -> None:
        nonlocal columns
        if columns is None:
            columns = columns_of(kind, fields)
            table.writerow(columns)
        cells = _flat({"kind": kind, **fields})
        for key in cells:
            if key not in columns:
                raise ToolError(f"a line of the kind {kind!r} does not stand in the output of this command")
        table.writerow([cells.get(column, "") for column in columns])

    return write


def _flat(fields: Fields) -> Fields:
    cells: Fields = {}
    for key, value in fields.items():
        if isinstance(value, dict):
            cells.update((f"{key}.{inner}", cell) for inner, cell in _flat(value).items())
        elif key == "parts":
            continue
        elif isinstance(value, bool):
            cells[key] = "true" if value else "false"
        else:
            cells[key] = " ".join(value) if isinstance(value, list) else value
    return cells
