"""Goes through the events of a schedule once, and finds the right cuts."""

from __future__ import annotations

from collections import Counter, deque
from typing import Callable, Deque, Optional

from sundial_tools.cut.marks import Mark, Marks
from sundial_tools.cut.opening import Kept, Opening, Refused, judge, judge_exact, opening_of_marks, opening_of_rounds
from sundial_tools.fleet.device import ACTING
from sundial_tools.fleet.fleet import Fleet
from sundial_tools.fleet.spoiled import Spoiled
from sundial_tools.schedule import Event
from sundial_tools.topology import Topology

MOST_KEPT = 1 << 18
NEVER = 2**62
# Before a wished cut this many rounds are looked at: more than an opening may need.
ROUNDS_BEFORE = 8
# So many rounds are kept besides one for each renewal behind which something has failed.
SPARE_ROUNDS = 5


def rounds_before(topology: Topology) -> int:
    """For how long all is kept before a cut, as a time of the reference."""
    return (ROUNDS_BEFORE + topology.loss) * (topology.period + topology.tick)


def lines_before(topology: Topology) -> int:
    """In about this many lines that time passes: more, where devices tick more often than they have to."""
    return 2 * (ROUNDS_BEFORE + topology.loss) * (topology.period // topology.tick + 2) * len(topology.devices)


class Cutter:
    """Of each event `before` is called, then the event happens to the fleet, then `after` is called.

    `is_due` says of a line and a reference whether a cut is wished there. `refused` counts why there was none. Where `is_late`
    holds of a line, an opening will do behind which a premise is named that the whole has broken already.
    """

    def __init__(self, fleet: Fleet, is_due: Callable[[int, int], bool], is_late: Callable[[int], bool] = lambda line: False) -> None:
        self.fleet, self.marks, self.is_due, self._is_late = fleet, Marks(fleet), is_due, is_late
        self.refused: Counter[str] = Counter()
        self.emissions = 0
        self.begin()

    def begin(self) -> None:
        """From here on each event is told. Of ticks and receipts before only the readings may have been."""
        self.marks.forget()
        self._spoiled = Spoiled(self.fleet)
        self._kept: Deque[Kept] = deque()
        # The latest emissions of the root, with nothing else between them but ticks, receipts, losses, asks and fixes.
        self._rounds: Deque[Mark] = deque()
        # Events up to this line are kept no more, though no round has come since.
        self._gone = 0.0

    def before(self, line: int, event: Event) -> Optional[Opening]:
        """The opening of a part that begins with this event, where a cut is due and right."""
        if event.word != "tick":
            return None
        state = self.fleet.up.get(event.device) if event.device is not None else None
        if state is None or state.mode != ACTING or (event.counter or 0) - state.sent < self.fleet.topology.period:
            return None
        self.emissions += 1
        if state.number not in self.marks.of or not self.is_due(line, event.ref):
            return None
        try:
            return self._opening(line, event)
        except Refused as why:
            self.refused[str(why)] += 1
            return None

    def after(self, line: int, event: Event, done: str) -> None:
        word = event.word
        self.marks.after(line, event, done)
        self._spoiled.before(event)
        self._spoiled.after(event)
        if self._spoiled.is_broken:
            self.marks.broken.add("loss")
        if word in ("tick", "recv", "fix", "ask"):
            self._kept.append(Kept(line, event, self.fleet.received if word == "recv" else None))
            if done == "send":
                self._sent(self.marks.of[event.device or 0])
        elif word != "lose":
            self._rounds.clear()
        if len(self._kept) > MOST_KEPT:
            self._gone = self._kept.popleft().line

    def _sent(self, mark: Mark) -> None:
        """A round begins. What is older than the rounds that an opening tells is kept no more."""
        rounds, older = self._rounds, len(self.marks.failed_before)
        rounds.append(mark)
        while len(rounds) > (older + SPARE_ROUNDS if older else 2):
            rounds.popleft()
        while self._kept and self._kept[0].line < rounds[0].line:
            self._kept.popleft()

    def _opening(self, line: int, event: Event) -> Opening:
        is_exact = not self._is_late(line)
        judge(self.marks, self._spoiled, event.ref)
        if is_exact:
            judge_exact(self.marks, self._spoiled)
        if self._gone >= (self._rounds[0].line if self._rounds else line):
            raise Refused("too many events since the latest round")
        try:
            return opening_of_marks(self.marks, self._kept, is_exact)
        except Refused:
            return opening_of_rounds(self.marks, list(self._rounds), list(self._kept), is_exact)
