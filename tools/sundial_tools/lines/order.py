"""Which lines one output has: those of one command, in its order, and none behind the last one."""

from __future__ import annotations

from typing import Dict, Optional

from sundial_tools.errors import ToolError
from sundial_tools.outputs import OutputLine

ALONE = (
    "accepted", "refused", "input topology", "input plan", "input absent", "input exchanges", "input opening", "input log", "input feed",
    "case", "usage", "agree", "differ", "impossible", "open",
)
FAMILY_OF = {
    "report": "replay", "broken": "replay", "alarm": "replay", "begin": "replay", "ended": "replay", "disorder": "replay",
    "waits": "replay", "input": "replay", "bound": "drill", "nobound": "drill", "link": "twoway",
}


class Order:
    """Takes the lines one after the other, and refuses what no one command prints."""

    def __init__(self, source: str) -> None:
        self._source = source
        self._family: Optional[str] = None
        self._last: Optional[str] = None
        self._line = 0
        self._counts: Dict[str, int] = {}

    def take(self, line: OutputLine, number: int) -> None:
        first = line.kind.split(" ")[0]
        if self._last is not None and (self._last, first) != ("done", "waits"):
            raise ToolError(f"a line after the last one, which was {self._last}", self._source, number)
        if line.kind in ALONE or first in ALONE:
            if self._family is not None:
                raise self._mixed(line, number)
            self._last = first
            return
        # (of `sundialctl bounds` each line has the calm number)
        family = FAMILY_OF[first] if first in FAMILY_OF else self._family
        if "calm" in line.fields:
            family = "bounds"
        if self._family is not None and family != self._family:
            raise self._mixed(line, number)
        self._family = family
        self._falls(line, number)
        self._counts[first] = self._counts.get(first, 0) + 1
        if first in ("done", "waits") or line.kind == "input schedule":
            self._last = first
        if first == "done":
            self._counted(line, number)

    def _mixed(self, line: OutputLine, number: int) -> ToolError:
        return ToolError(f"a line of the kind {line.kind!r} does not stand in the output of this command", self._source, number)

    def _falls(self, line: OutputLine, number: int) -> None:
        at = line.fields.get("line")
        if at is None:
            return
        if at < self._line:
            raise ToolError(f"the output is out of order: line {at} comes after line {self._line}", self._source, number)
        self._line = at

    def _counted(self, line: OutputLine, number: int) -> None:
        """What `done` counts has to be what was read. Where nothing else was printed there is nothing to compare."""
        second, counts = line.fields["second"], self._counts
        if self._family == "replay" and "report" in counts and counts["report"] != second:
            self._lost(f"{second} reports", counts["report"], number)
        if self._family == "twoway" and counts.get("link", 0) != second:
            self._lost(f"{second} links", counts.get("link", 0), number)
        if self._family in ("drill", "bounds"):
            bounds, said = sum(counts.get(kind, 0) for kind in ("bound", "bounds", "nobound")), line.fields["first"] * second
            if bounds != said:
                self._lost(f"{line.fields['first']} domains of {second} members, so {said} lines", bounds, number)

    def _lost(self, said: str, found: int, number: int) -> None:
        raise ToolError(f"done says {said}, and {found} were read: lines are missing, or there twice", self._source, number)
