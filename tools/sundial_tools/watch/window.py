"""A window of time out of the kept parts of a watch: a schedule that begins at the last right cut before it."""

from __future__ import annotations

import os
from typing import Any, Dict, Iterator, List, NamedTuple, Optional, Sequence, Tuple

from sundial_tools.cut.opening import Opening, opening_of_state
from sundial_tools.cut.parts import Part, Row
from sundial_tools.errors import ToolError
from sundial_tools.plan import Plan
from sundial_tools.schedule import Event, event_line, parse_event
from sundial_tools.topology import Topology
from sundial_tools.watch.feed import Feed, Hooks
from sundial_tools.watch.journal import read_prefix
from sundial_tools.watch.state import PART, SETTINGS, read_state


class PassedOver(NamedTuple):
    """A line of a log that is not in the schedule."""

    log: str
    line: int
    reason: str


class Kept:
    """What a state has of its earlier runs. It is only read."""

    def __init__(self, folder: str) -> None:
        self.folder = folder
        try:
            self.settings = read_state(os.path.join(folder, SETTINGS))
        except FileNotFoundError:
            raise ToolError("this is no state of sundial-watch", folder) from None
        if "origin" not in self.settings:
            raise ToolError("nothing was told yet", folder)
        self.origin = int(self.settings["origin"])

    @property
    def plans(self) -> List[str]:
        """The texts of the plans, in their order."""
        count = sum(key.startswith("plan ") for key in self.settings)
        return [self.settings[f"plan {place}"] for place in range(1, count + 1)]

    def parts(self) -> List[int]:
        """The parts that are there, with what is needed to begin them."""
        kinds: Dict[int, set[str]] = {}
        for found in filter(None, map(PART.fullmatch, os.listdir(self.folder))):
            kinds.setdefault(int(found[1]), set()).add(found[2])
        return sorted(number for number, has in kinds.items() if "journal" in has and ("start" in has or number == 1))

    def start(self, part: int) -> Optional[Dict[str, Any]]:
        """The state in which a part began, and None for the first one."""
        return None if part == 1 else read_state(os.path.join(self.folder, f"part-{part:04}.start"))

    def journal(self, part: int) -> Iterator[str]:
        """The whole lines of a journal, which may still grow."""
        with open(os.path.join(self.folder, f"part-{part:04}.journal"), encoding="utf-8", newline="\n") as file:
            for line in file:
                if line.endswith("\n"):
                    yield line[:-1]

    def begins(self, part: int) -> Optional[int]:
        """The reference of the first event of a part."""
        for line in self.journal(part):
            said = line.partition(" ")[2]
            if not said.startswith("!"):
                return parse_event(said).ref
        return None


class Window(Hooks):
    """Writes the schedule of a window to `path`. `row` and `passed_over` say what came of it.

    The events of the journals are taken again, from the last part that begins before the window. Each right cut before
    the window begins the schedule anew.
    """

    def __init__(self, kept: Kept, topology: Topology, plans: Sequence[Plan], since: Optional[int], until: Optional[int], path: str) -> None:
        self._kept, self._topology, self._plans = kept, topology, plans
        self._since, self._until, self._path = since, until, path
        self.passed_over: List[PassedOver] = []
        self.first_ref = self.last_ref = 0
        self.epoch, self.copies = 1, 0
        self._ended = False
        self.row = self._written()

    def _written(self) -> Row:
        parts = self._kept.parts()
        begun = [(part, ref) for part, ref in ((part, self._kept.begins(part)) for part in parts) if ref is not None]
        if not begun:
            raise ToolError("no part is there", self._kept.folder)
        before = [part for part, ref in begun if self._since is not None and ref <= self._since]
        first = before[-1] if before else begun[0][0]
        self._begin(first)
        self.first_ref = dict(begun)[first]
        for event, raw in self._events([part for part in parts if part >= first]):
            self._feed.restore(event, raw)
            self.last_ref, self._ended = event.ref, event.word == "end"
        return self._part.finish(None if self._ended else self._end)

    def _begin(self, part: int) -> None:
        opening: Optional[Opening] = None
        self._feed = Feed(self._topology, self._plans, self._kept.origin, False, self)
        kept = self._kept.start(part)
        if kept is not None:
            self._feed.resume(kept["feed"])
            opening = opening_of_state(kept["opening"])
        self._start(opening)

    def _start(self, opening: Optional[Opening]) -> None:
        fleet = self._feed.fleet
        self.epoch, self.copies = (opening.epoch, opening.copies) if opening else (1, 0)
        self._part = Part(self._path, fleet.line, opening, False)

    def _events(self, parts: Sequence[int]) -> Iterator[Tuple[Event, Optional[int]]]:
        """The events up to the end of the window. Then `_end` is where the schedule ends."""
        self._end = 0
        for part in parts:
            for text in self._kept.journal(part):
                prefix, _, said = text.partition(" ")
                number, place, raw = read_prefix(prefix)
                if said.startswith("!"):
                    self.passed_over.append(PassedOver(self._kept.settings["logs"][number or 0], place.line, said[1:]))
                    continue
                event = parse_event(said)
                if self._until is not None and event.ref > self._until:
                    # (something came behind the window, so that it is known to its end)
                    self._end = max(self._end, self._until)
                    return
                self._end = event.ref
                yield event, raw

    # What the feed tells

    def is_due(self, line: int, ref: int) -> bool:
        return self._since is not None and ref <= self._since

    def cut(self, opening: Opening) -> None:
        self._part.drop()
        self.passed_over.clear()
        self._start(opening)
        self.first_ref = opening.first_ref

    def coming(self, event: Event) -> None:
        self._part.add(event, event_line(event))

    def happened(self, done: str) -> None:
        """Nothing is counted."""
