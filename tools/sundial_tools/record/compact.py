"""The merged log in the compact form, of which `sundialctl record` makes the schedule."""

from __future__ import annotations

from typing import Callable, Optional, Sequence, TextIO

from sundial_tools.plan import Plan
from sundial_tools.record.compact_lines import compact_line, message_name
from sundial_tools.record.events import LogEvent
from sundial_tools.record.recorder import Recorder
from sundial_tools.schedule import Event
from sundial_tools.topology import Topology


class CompactRecorder(Recorder):
    """Writes the merged log of which `sundialctl record` makes the schedule, event by event as that has them.

    The losses that no log has are not written: they are that program's to find. They count among the events.
    """

    def __init__(
        self, topology: Topology, plans: Sequence[Plan], text: TextIO, origin: Optional[int], from_life: bool,
        counted: Callable[[int], None], most_waiting: int = 1,
    ) -> None:
        super().__init__(topology, plans, text, origin, from_life, True, counted, most_waiting)
        self._usual_line = self._compact_usual

    def _compact_usual(self, event: LogEvent, ref: int, counter: int) -> str:
        line = self._fleet.usual(event, ref, counter)
        return line if event.word != "recv" or not line else f"recv {ref} {event.device} {counter} {message_name(event)}\n"

    def _tell(self, event: LogEvent, said: Event) -> None:
        self._count()
        self._write(compact_line(event, said))

    def _tell_loss(self, lost: Event) -> None:
        self._count()
