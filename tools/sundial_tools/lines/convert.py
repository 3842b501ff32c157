"""From the output of a command to rows."""

from __future__ import annotations

import itertools
from typing import Any, Callable, Dict, Iterator, Optional, Protocol

from sundial_tools.errors import ToolError
from sundial_tools.lines.behind import Behind, Events, name_of
from sundial_tools.lines.order import Order
from sundial_tools.lines.texts import plan_lines, topology_lines
from sundial_tools.outputs import OutputLine, read_output
from sundial_tools.topology import Topology

DONE = {
    "replay": ("events", "reports"), "order": ("events", "reports"), "solo": ("events", "reports"),
    "twoway": ("lines", "links"), "drill": ("domains", "members"),
}
# Lines of other texts than the schedule.
NO_SCHEDULE = ("input exchanges", "input opening", "input log", "input feed")
_COMMAND_OF = {"link": "twoway", "bound": "drill", "nobound": "drill", "bounds": "drill"}


class Lines(Protocol):
    """What is read of an output."""

    def __iter__(self) -> Iterator[str]: ...

    def readline(self) -> str: ...

    def read(self) -> str: ...


class Converter:
    """Gives each printed line with what is known of it. `command` is that of `done` lines, where it is said."""

    def __init__(
        self, topology: Optional[Topology], events: Optional[Events], exchanges: Optional[Behind], command: Optional[str]
    ) -> None:
        self._topology, self._events, self._exchanges, self._command = topology, events, exchanges, command

    def convert(self, output: Lines, source: str, write: Callable[[str, Dict[str, Any]], None]) -> None:
        for line in self._lines(output, source):
            write(line.kind, self._fields(line, source))

    def _lines(self, output: Lines, source: str) -> Iterator[OutputLine]:
        first = output.readline()
        if first.startswith("{"):
            if self._topology is None:
                raise ToolError("the output is a plan: say --topology", source)
            return plan_lines(first + output.read(), self._topology, source)
        if " = " in first or first.startswith("["):
            return topology_lines(first + output.read(), source)
        if not first:
            raise ToolError("the output is empty", source)
        return self._ordered(read_output(itertools.chain([first], output), source), source)

    def _ordered(self, lines: Iterator[OutputLine], source: str) -> Iterator[OutputLine]:
        order = Order(source)
        for number, line in enumerate(lines, 1):
            order.take(line, number)
            yield line

    def _fields(self, line: OutputLine, source: str) -> Dict[str, Any]:
        fields = dict(line.fields)
        if line.kind == "done":
            names = DONE[self._command_of_done(source)]
            return dict(zip(names, (fields["first"], fields["second"])))
        if self._command is None:
            self._command = _COMMAND_OF.get(line.kind, "replay")
        if line.kind == "input exchanges" and self._exchanges is not None:
            text = self._exchanges.line(fields["line"])
            fields.update({} if text is None else {"text": text})
        elif line.kind == "differ" and self._topology is not None and fields.get("thing") in ("device", "link"):
            fields["name"] = name_of(self._topology, fields["thing"], fields["number"])
        elif "line" in fields and line.kind not in NO_SCHEDULE and self._events is not None:
            fields.update(self._events.add(line))
        return fields

    def _command_of_done(self, source: str) -> str:
        if self._command is not None:
            return self._command
        if self._events is not None:
            return "replay"
        if self._exchanges is not None:
            return "twoway"
        raise ToolError("a done line alone may be of replay or of twoway: say --command", source)
